//! Coloured layout and bleaching.

use crate::board::is_count;
use crate::{demand, Refusal};

#[inline]
fn check_set(colours: u32, set: u32) -> Result<(), Refusal> {
    demand(is_count(colours), 2, 0)?;
    demand(set != 0 && set >> colours == 0, 9, 0)
}

/// The colour at a place of the set, counted from 0 in ascending colour: the set is gone through.
#[inline]
fn colour_at(colours: u32, set: u32, place: u32) -> u32 {
    let mut left = place;
    for colour in 0..colours {
        if set >> colour & 1 == 1 {
            if left == 0 {
                return colour;
            }
            left -= 1;
        }
    }
    0
}

#[inline(never)]
#[export_name = "baseline_layout"]
pub fn layout(colours: u32, set: u32, index: u32) -> Result<u32, Refusal> {
    check_set(colours, set)?;
    demand(index < 1 << 24, 10, 0)?;
    let size = set.count_ones();
    Ok(index / size * colours + colour_at(colours, set, index % size))
}

#[inline(never)]
#[export_name = "baseline_bleach"]
pub fn bleach(colours: u32, set: u32, page: u32) -> Result<u32, Refusal> {
    check_set(colours, set)?;
    demand(page < 1 << 28, 10, 0)?;
    let colour = page % colours;
    demand(set >> colour & 1 == 1, 11, 0)?;
    let place = (set & ((1 << colour) - 1)).count_ones();
    Ok(page / colours * set.count_ones() + place)
}
