//! The library's side of the benchmark: the calls of its C interface, and the baseline's board as they take it.

use juzvanec::Board;

pub use interface::{
    admit_plan, bleach, colours, fault, layout, look, recolour, set_quota, take_back, Raw,
};

/// The baseline's board as it is lent to the library.
pub fn lent(board: &baseline::Board) -> Board {
    Board {
        colours: board.colours,
        frames: board.frames,
        domains: board.domains,
        grants: board.grants,
        active: board.active,
        quotas: board.quotas,
    }
}
