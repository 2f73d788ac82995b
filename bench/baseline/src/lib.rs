//! Document 01's functions, as document 02 has changed them, in plain Rust, by the methods of the proved
//! library and with all its refusals, to measure that library against; recolouring by a sort as well. Each
//! function offered is kept apart from its caller, as a function of a linked library is.

mod board;
mod cache;
mod frames;
mod plan;

pub use board::Board;
pub use cache::{bleach, layout};
pub use frames::{
    colours, fault, look, recolour, recolour_by_sort, set_quota, take_back, Faulted, Looked,
};
pub use plan::admit_plan;

#[derive(Clone, Copy, Debug, PartialEq, Eq)]
pub struct Refusal {
    pub number: u32,
    pub row: u32,
}

/// Refuses with the number and row unless the condition holds.
#[inline]
fn demand(holds: bool, number: u32, row: usize) -> Result<(), Refusal> {
    match holds {
        true => Ok(()),
        false => Err(Refusal {
            number,
            row: row as u32,
        }),
    }
}

/// Refuses with the number and the lowest row at fault.
#[inline]
fn demand_rows(rows: usize, number: u32, at_fault: impl Fn(usize) -> bool) -> Result<(), Refusal> {
    match (0..rows).find(|row| at_fault(*row)) {
        None => Ok(()),
        Some(row) => demand(false, number, row),
    }
}
