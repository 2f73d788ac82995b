//! The rows of a plan. In memory they are the words that [`crate::admit_plan`] and [`crate::part`] take.

use crate::{calls, COLOURS, TASK_WORDS, VCPU_WORDS};

/// A VCPU row. Every content is allowed, and [`crate::admit_plan`] says what is wrong with it.
#[repr(C)]
#[derive(Clone, Copy, Debug, PartialEq, Eq, Hash)]
pub struct Vcpu {
    /// 0 to 3.
    pub core: u32,
    /// Below the domain count.
    pub domain: u32,
    /// P: 1 to 1,000,000 microseconds.
    pub period: u32,
    /// Q: 1 to the period.
    pub budget: u32,
}

/// A task row. Every content is allowed, and [`crate::admit_plan`] says what is wrong with it.
#[repr(C)]
#[derive(Clone, Copy, Debug, PartialEq, Eq, Hash)]
pub struct Task {
    /// The VCPU row, ascending over the task rows.
    pub vcpu: u32,
    /// T: 1 to 1,000,000 microseconds.
    pub period: u32,
    /// 1 to the period.
    pub deadline: u32,
    /// Colours, not empty, inside the grant of the VCPU's domain.
    pub set: u32,
    /// The costs with 1 to 16 colours: 1 to 1,000,000 microseconds each, none above the one before.
    pub costs: [u32; COLOURS],
}

const _: () = assert!(size_of::<Vcpu>() == VCPU_WORDS * size_of::<u32>());
const _: () = assert!(align_of::<Vcpu>() == align_of::<u32>());
const _: () = assert!(size_of::<Task>() == TASK_WORDS * size_of::<u32>());
const _: () = assert!(align_of::<Task>() == align_of::<u32>());

impl Vcpu {
    /// The words of the rows, as [`crate::admit_plan`] takes them.
    ///
    /// ```
    /// use juzvanec::Vcpu;
    ///
    /// let rows = [Vcpu { core: 3, domain: 0, period: 5000, budget: 3000 }; 2];
    /// assert_eq!(Vcpu::words(&rows), [3, 0, 5000, 3000, 3, 0, 5000, 3000]);
    /// ```
    #[inline]
    pub fn words(rows: &[Vcpu]) -> &[u32] {
        calls::vcpu_words(rows)
    }
}

impl Task {
    /// The words of the rows, as [`crate::admit_plan`] and [`crate::part`] take them.
    ///
    /// ```
    /// use juzvanec::Task;
    ///
    /// let row = Task { vcpu: 1, period: 4000, deadline: 3000, set: 0x3, costs: [1000; 16] };
    /// let words = Task::words(core::slice::from_ref(&row));
    /// assert_eq!(words[..6], [1, 4000, 3000, 0x3, 1000, 1000]);
    /// assert_eq!(words.len(), 20);
    /// ```
    #[inline]
    pub fn words(rows: &[Task]) -> &[u32] {
        calls::task_words(rows)
    }
}
