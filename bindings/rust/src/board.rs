//! The board: sizes, grants, active sets and quotas. In memory it is the 27 words of the C header.

use crate::{DOMAINS, FIRST_QUOTA};

/// The number of colours and frames, the domain count, and for each domain a grant, an active set and a
/// quota. Every content is allowed, and each call says what is wrong with it. The fields of domains at or
/// beyond the count are neither read nor changed.
#[repr(C)]
#[derive(Clone, Copy, Debug, PartialEq, Eq, Hash)]
pub struct Board {
    /// N: 1, 2, 4, 8 or 16.
    pub colours: u32,
    /// F: 1 to 4,096, the length of the frame table.
    pub frames: u32,
    /// The domain count: 1 to 8.
    pub domains: u32,
    /// The colours that each domain may use; they share none.
    pub grants: [u32; DOMAINS],
    /// The colours that each domain uses now, inside its grant.
    pub active: [u32; DOMAINS],
    /// The frames that each domain may hold: 1 to 4,096. A domain that holds so many or more gets no new one
    /// by a fault.
    pub quotas: [u32; DOMAINS],
}

/// The words of a board, without gaps.
const WORDS: usize = 27;

const _: () = assert!(size_of::<Board>() == WORDS * size_of::<u32>());
const _: () = assert!(align_of::<Board>() == align_of::<u32>());

impl Board {
    /// A board of as many domains as there are grants, each with its grant active and the quota that a domain
    /// has at first. More than eight grants make a board that every call refuses with 4.
    ///
    /// ```
    /// use juzvanec::{colours, Board, Colours, Refusal};
    ///
    /// let board = Board::new(16, 2, &[0x00FF, 0x0F00]);
    /// assert_eq!(colours(&board, &[0, 0], 1), Ok(Colours { set: 0x0F00, quota: 4096 }));
    /// let crowded = Board::new(16, 2, &[1; 9]);
    /// assert_eq!(colours(&crowded, &[0, 0], 1), Err(Refusal { number: 4, row: 0 }));
    /// ```
    pub fn new(colours: u32, frames: u32, grants: &[u32]) -> Self {
        let mut sets = [0; DOMAINS];
        for (set, grant) in sets.iter_mut().zip(grants) {
            *set = *grant;
        }
        Board {
            colours,
            frames,
            domains: u32::try_from(grants.len()).unwrap_or(u32::MAX),
            grants: sets,
            active: sets,
            quotas: [FIRST_QUOTA; DOMAINS],
        }
    }
}
