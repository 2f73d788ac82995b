//! Colours of the cache: document 01, "Colours of the cache", and document 004, "Address Bleaching".
//! Sets are walked colour by colour and pages bit by bit.

use crate::model::reply::Reply;

pub const PAGE: u128 = 4096;
const LAST_INDEX: u32 = (1 << 24) - 1;
const LAST_BLEACHED: u32 = (1 << 28) - 1;

pub fn is_count(n: u64) -> bool {
    [1, 2, 4, 8, 16].contains(&n)
}

/// N colours need exactly N × W × 4,096 bytes.
pub fn cache_colours(bytes: u64, ways: u64) -> Reply<u64> {
    for n in [1, 2, 4, 8, 16] {
        if ways > 0 && u128::from(n) * u128::from(ways) * PAGE == u128::from(bytes) {
            return Reply::Answer(n);
        }
    }
    Reply::refused(2)
}

/// The colours of a set, ascending.
pub fn colours(set: u32) -> Vec<u32> {
    (0..32).filter(|c| set >> c & 1 == 1).collect()
}

fn refused_set(n: u32, set: u32) -> Option<u32> {
    if !is_count(n.into()) {
        return Some(2);
    }
    match colours(set).last() {
        None => Some(9),
        Some(highest) if *highest >= n => Some(9),
        Some(_) => None,
    }
}

pub fn layout(n: u32, set: u32, index: u32) -> Reply<u32> {
    if let Some(number) = refused_set(n, set) {
        return Reply::refused(number);
    }
    if index > LAST_INDEX {
        return Reply::refused(10);
    }
    let colours = colours(set);
    let size = colours.len() as u32;
    Reply::Answer(index / size * n + colours[(index % size) as usize])
}

pub fn bleach(n: u32, set: u32, page: u32) -> Reply<u32> {
    if let Some(number) = refused_set(n, set) {
        return Reply::refused(number);
    }
    if page > LAST_BLEACHED {
        return Reply::refused(10);
    }
    let colours = colours(set);
    match colours.iter().position(|c| *c == page % n) {
        None => Reply::refused(11),
        Some(place) => Reply::Answer(page / n * colours.len() as u32 + place as u32),
    }
}

/// The page without those of its colour bits, the lowest `bits`, that lie above the lowest `kept`; the
/// bits above come down.
pub fn drop_bits(bits: u32, kept: u32, page: u32) -> u32 {
    let mut to = 0;
    let mut result = 0;
    for from in 0..32 {
        if from < kept || from >= bits {
            result |= (page >> from & 1) << to;
            to += 1;
        }
    }
    result
}

#[cfg(test)]
mod tests {
    use super::*;

    #[test]
    fn examples_of_document_01() {
        assert_eq!(cache_colours(1_048_576, 16), Reply::Answer(16));
        assert_eq!(cache_colours(2_097_152, 16), Reply::refused(2));
        assert_eq!(layout(16, 0x00F0, 6), Reply::Answer(22));
        assert_eq!(bleach(16, 0x00F0, 22), Reply::Answer(6));
        assert_eq!(layout(16, 0x0005, 3), Reply::Answer(18));
        assert_eq!(bleach(16, 0x0005, 17), Reply::refused(11));
        assert_eq!(bleach(16, 0x8000, 0x5F_FFFF), Reply::Answer(0x5_FFFF));
    }

    /// [2, 3] of 16 is mapped 0x02, 0x03, 0x12, 0x13, 0x22; 0x22 bleaches to 0x04. [8, 11] bleaches 0x29
    /// to 0x09, by dropping two bits too. [15, 15] drops all four.
    #[test]
    fn examples_of_document_004() {
        for (index, page) in [0x02, 0x03, 0x12, 0x13, 0x22].into_iter().enumerate() {
            assert_eq!(layout(16, 0x000C, index as u32), Reply::Answer(page));
        }
        assert_eq!(bleach(16, 0x000C, 0x22), Reply::Answer(0x04));
        assert_eq!(bleach(16, 0x0F00, 0x29), Reply::Answer(0x09));
        assert_eq!(drop_bits(4, 2, 0x29), 0x09);
        assert_eq!(drop_bits(4, 0, 0x5F_FFFF), 0x5_FFFF);
    }

    /// Every aligned set of every N: bleaching is dropping bits.
    #[test]
    fn aligned_sets_drop_bits() {
        for bits in 0..=4 {
            let n = 1 << bits;
            for kept in 0..=bits {
                for start in (0..n).step_by(1 << kept) {
                    let set = ((1u32 << (1 << kept)) - 1) << start;
                    for page in (0..4 * n).filter(|page| set >> (page % n) & 1 == 1) {
                        assert_eq!(
                            bleach(n, set, page),
                            Reply::Answer(drop_bits(bits, kept, page))
                        );
                    }
                }
            }
        }
    }

    /// Equation (1) of document 004 with the factor C − (C_h − C_l + 1), on every interval of every N.
    #[test]
    fn intervals_meet_the_mended_equation() {
        for n in [1u32, 2, 4, 8, 16] {
            for low in 0..n {
                for high in low..n {
                    let set = (low..=high).map(|c| 1 << c).sum();
                    for page in (0..4 * n).filter(|page| (low..=high).contains(&(page % n))) {
                        let mended = page - page / n * (n - (high - low + 1)) - low;
                        assert_eq!(bleach(n, set, page), Reply::Answer(mended));
                    }
                }
            }
        }
    }
}
