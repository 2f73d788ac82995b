//! Cache-coloured frames for guest systems and the admission of task plans: safe functions over the
//! proved library `libjuzvanec.a`. Terms, numbers and refusals are those of documents 01 and 02. Nothing here
//! allocates or keeps anything between calls. A refused call changes nothing that was lent; [`admit`], to
//! which only the input is lent, has a text and the words that the plan took on a refusal too, since a
//! refusal is what the program prints. Every function panics where the archive that was linked is of
//! another interface than [`INTERFACE`].
//!
//! ```
//! use juzvanec::{fault, Board, Faulted, FREE};
//!
//! // four colours, eight frames, two guests with two colours each
//! let board = Board::new(4, 8, &[0x3, 0xC]);
//! let mut table = [FREE; 8];
//! assert_eq!(fault(&board, &mut table, 0, 9), Ok(Faulted::New(0)));
//! assert_eq!(fault(&board, &mut table, 1, 0), Ok(Faulted::New(2)));
//! assert_eq!(fault(&board, &mut table, 0, 9), Ok(Faulted::Old(0)));
//! ```

#![no_std]
#![deny(unsafe_code)]
#![warn(missing_docs)]

mod board;
mod refusal;
mod rows;
mod text;

#[allow(unsafe_code)]
mod calls;

pub mod raw;

pub use board::Board;
pub use calls::{
    admit, admit_plan, bleach, cache_colours, colours, fault, layout, look, part, recolour,
    release, set_quota, take_back,
};
pub use refusal::{row_names, Refusal, RowNames};
pub use rows::{Task, Vcpu};
pub use text::Verdict;

/// The number of the C interface that this package is for, which is that of the header. An archive of another
/// number makes every function panic; [`raw::juzvanec_interface`] tells that of the archive.
pub const INTERFACE: u32 = include!(concat!(env!("OUT_DIR"), "/interface"));

/// The most colours of a cache.
pub const COLOURS: usize = 16;
/// The most domains of a board.
pub const DOMAINS: usize = 8;
/// The most frames of a board.
pub const FRAMES: usize = 4096;
/// The most frames that a domain's quota may be.
pub const MOST_QUOTA: u32 = 4096;
/// The quota that a domain has at first, which holds it back nowhere.
pub const FIRST_QUOTA: u32 = 4096;
/// The most VCPU rows of a plan.
pub const VCPUS: usize = 16;
/// The most task rows of a plan.
pub const TASKS: usize = 32;
/// The words of a VCPU row: core, domain, period, budget.
pub const VCPU_WORDS: usize = 4;
/// The words of a task row: VCPU, period, deadline, colour set, and costs for 1 to 16 colours.
pub const TASK_WORDS: usize = 20;
/// The words of a move: page, old frame, new frame.
pub const MOVE_WORDS: usize = 3;
/// The bytes of the text that [`raw::juzvanec_admit`] writes to.
pub const TEXT_BYTES: usize = 1024;
/// The last page that a domain can hold a frame for.
pub const LAST_PAGE: u32 = 4095;
/// The last index that can be laid out.
pub const LAST_INDEX: u32 = (1 << 24) - 1;
/// The last page that can be bleached.
pub const LAST_BLEACHED: u32 = (1 << 28) - 1;

/// The word of a free frame.
pub const FREE: u16 = 0;
/// The word of a frame reserved for the hypervisor.
pub const RESERVED: u16 = 65_535;

/// The word of a frame that the domain holds for the page; none for a domain above 7 or a page above
/// 4,095.
///
/// ```
/// assert_eq!(juzvanec::page_word(1, 0), Some(4097));
/// assert_eq!(juzvanec::page_word(8, 0), None);
/// ```
pub const fn page_word(domain: u32, page: u32) -> Option<u16> {
    if domain as usize >= DOMAINS || page > LAST_PAGE {
        return None;
    }
    Some(1 + 4096 * domain as u16 + page as u16)
}

/// What a look finds.
#[derive(Clone, Copy, Debug, PartialEq, Eq, Hash)]
pub enum Looked {
    /// The lowest frame that the domain holds for the page.
    Mapped(usize),
    /// The domain holds no frame for the page.
    Unmapped,
}

/// What a fault answers.
#[derive(Clone, Copy, Debug, PartialEq, Eq, Hash)]
pub enum Faulted {
    /// The page had this frame already.
    Old(usize),
    /// The page has this frame now; it was free.
    New(usize),
}

impl Faulted {
    /// The frame, old or new.
    pub fn frame(self) -> usize {
        match self {
            Faulted::Old(frame) | Faulted::New(frame) => frame,
        }
    }
}

/// What a domain is told of its colours.
#[derive(Clone, Copy, Debug, PartialEq, Eq, Hash)]
pub struct Colours {
    /// The active set: bit c for colour c.
    pub set: u32,
    /// The frames that the domain may hold.
    pub quota: u32,
}
