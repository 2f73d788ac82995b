//! What an operation gives back: document 01, "Refusals in the order tested".

#[derive(Clone, Copy, Debug, PartialEq, Eq)]
pub enum Reply<A> {
    Answer(A),
    Refused { number: u32, row: u32 },
}

impl<A> Reply<A> {
    /// A refusal whose row is 0.
    pub fn refused(number: u32) -> Self {
        Reply::Refused { number, row: 0 }
    }
}

/// What the row of a refusal names.
#[derive(Clone, Copy, Debug, PartialEq, Eq)]
pub enum Names {
    Domain,
    PlanRow,
    Nothing,
}

/// "The row is the lowest domain or row at fault for 5 to 7 and 17 to 22, else 0": 5 to 7 are tests of
/// the board's domains, 17 to 22 of the plan's rows.
pub fn names(number: u32) -> Names {
    let domains = [5, 6, 7];
    let rows = [17, 18, 19, 20, 21, 22];
    if domains.contains(&number) {
        Names::Domain
    } else if rows.contains(&number) {
        Names::PlanRow
    } else {
        Names::Nothing
    }
}
