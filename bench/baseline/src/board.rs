//! The board and refusals 2 to 8 and 26.

use crate::{demand, demand_rows, Refusal};

#[derive(Clone, Copy, Debug, PartialEq, Eq)]
pub struct Board {
    pub colours: u32,
    pub frames: u32,
    pub domains: u32,
    pub grants: [u32; 8],
    pub active: [u32; 8],
    pub quotas: [u32; 8],
}

#[inline]
pub fn is_count(n: u32) -> bool {
    matches!(n, 1 | 2 | 4 | 8 | 16)
}

/// Whether a domain may have this quota.
#[inline]
pub fn is_quota(quota: u32) -> bool {
    (1..=4096).contains(&quota)
}

impl Board {
    /// Refusals 2 to 7; the length is that of a lent frame table.
    #[inline]
    pub fn check(&self, length: Option<usize>) -> Result<(), Refusal> {
        demand(is_count(self.colours), 2, 0)?;
        let frames = self.frames as usize;
        let fits = length.is_none_or(|length| length == frames);
        demand((1..=4096).contains(&frames) && fits, 3, 0)?;
        demand((1..=8).contains(&self.domains), 4, 0)?;
        let count = self.domains as usize;
        let grants = &self.grants[..count];
        let active = &self.active[..count];
        demand_rows(count, 5, |d| {
            grants[d] == 0 || grants[d] >> self.colours != 0
        })?;
        // of two that share, the lower is at fault first
        demand_rows(count, 6, |d| {
            grants[d + 1..].iter().any(|other| other & grants[d] != 0)
        })?;
        demand_rows(count, 7, |d| active[d] == 0 || active[d] & !grants[d] != 0)
    }

    /// Refusals 2 to 7, 26 and 8.
    #[inline]
    pub fn check_call(&self, length: usize, domain: u32) -> Result<(), Refusal> {
        self.check(Some(length))?;
        let mut quotas = self.quotas[..self.domains as usize].iter();
        demand(quotas.all(|quota| is_quota(*quota)), 26, 0)?;
        demand(domain < self.domains, 8, 0)
    }
}
