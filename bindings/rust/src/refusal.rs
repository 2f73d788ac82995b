//! Refusals: their numbers, what each means and what its row names.

use core::fmt;

/// Why a call was refused: the number of document 01 or 02, and the lowest domain or row at fault, or else 0.
///
/// ```
/// use juzvanec::{fault, Board};
///
/// let board = Board::new(4, 8, &[0x3, 0x6]);
/// let refusal = fault(&board, &mut [0; 8], 0, 9).unwrap_err();
/// assert_eq!((refusal.number, refusal.row), (6, 0));
/// assert_eq!(
///     refusal.to_string(),
///     "refused 6, domain 0: a grant shares a colour with another"
/// );
/// ```
#[derive(Clone, Copy, Debug, PartialEq, Eq, Hash)]
pub struct Refusal {
    /// The number of the list in `docs/REFUSALS.md`, from 1 on.
    pub number: u32,
    /// What it counts is told by [`row_names`].
    pub row: u32,
}

/// What the row of a refusal counts.
#[derive(Clone, Copy, Debug, PartialEq, Eq, Hash)]
pub enum RowNames {
    /// Domains of the board.
    Domain,
    /// Rows of the plan: of VCPUs for 17 and 21, else of tasks.
    PlanRow,
    /// Nothing; the row is 0.
    Nothing,
}

/// What the row of a refusal of this number counts.
pub fn row_names(number: u32) -> RowNames {
    match number {
        5..=7 => RowNames::Domain,
        17..=22 => RowNames::PlanRow,
        _ => RowNames::Nothing,
    }
}

impl Refusal {
    /// What the number means.
    pub fn meaning(&self) -> &'static str {
        match self.number {
            1 => "a count exceeds 8 domains, 16 VCPUs or 32 tasks, or the input has another length",
            2 => "the number of colours is not 1, 2, 4, 8 or 16",
            3 => "the frame count is 0 or above 4,096, or the frame table has another length",
            4 => "the domain count is 0 or above 8",
            5 => "a grant is empty or has a colour that the cache has not",
            6 => "a grant shares a colour with another",
            7 => "an active set is empty or has a colour outside its grant",
            8 => "the calling domain is not below the domain count",
            9 => {
                "the set is empty, or has a colour outside the grant, or one that the cache has not"
            }
            10 => "the page or index exceeds its limit",
            11 => "the page to bleach has a colour outside the set",
            12 => "there are too few free frames in the set",
            13 => "the move list is shorter than three words for each move",
            14 => "the page to release is unmapped",
            15 => "the reload exceeds 10,000, or the VCPU words are none, over 64 or no whole rows",
            16 => {
                "the task words are none, over 640 or no whole rows, \
                 or the list of times or of rounds is short"
            }
            17 => "a field of the VCPU row is outside its range",
            18 => "a field or cost of the task row is outside its rule",
            19 => "the task row names a lower VCPU than the row before",
            20 => "the task row shares a colour with a row of another VCPU",
            21 => "the VCPU has no time up to its period",
            22 => "the task has no time up to its deadline",
            26 => "a quota of the board is 0 or above 4,096",
            27 => "the quota asked for is 0, above 4,096 or below the frames held",
            28 => "the page is unmapped, and the frames held are at or above the quota",
            31 => {
                "the list is no multiple of three words, names a page above 4,095, a frame that the \
                 board has not or a frame twice, or a triple's new frame lacks the domain's word for \
                 the page, or its old frame is not a free frame of the former set"
            }
            32 => "some frame of the domain would lie outside the former set",
            _ => "no such refusal",
        }
    }
}

impl fmt::Display for Refusal {
    fn fmt(&self, f: &mut fmt::Formatter) -> fmt::Result {
        write!(f, "refused {}", self.number)?;
        match row_names(self.number) {
            RowNames::Domain => write!(f, ", domain {}", self.row)?,
            RowNames::PlanRow if matches!(self.number, 17 | 21) => {
                write!(f, ", VCPU row {}", self.row)?
            }
            RowNames::PlanRow => write!(f, ", task row {}", self.row)?,
            RowNames::Nothing => {}
        }
        write!(f, ": {}", self.meaning())
    }
}

impl core::error::Error for Refusal {}
