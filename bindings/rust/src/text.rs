//! What the program `admit` makes of its input: the text that it prints, and whether the plan is
//! admitted.

use core::fmt;

use crate::{Refusal, TEXT_BYTES};

/// The reply of [`crate::admit`].
#[derive(Clone, Copy)]
pub struct Verdict {
    pub(crate) text: [u8; TEXT_BYTES],
    pub(crate) length: usize,
    pub(crate) words: usize,
    pub(crate) refusal: Option<Refusal>,
}

impl Verdict {
    /// What the program prints, each line with its newline.
    pub fn text(&self) -> &[u8] {
        &self.text[..self.length]
    }

    /// How many words of 32 bits the plan took; 0 where the refusal is 1.
    pub fn words(&self) -> usize {
        self.words
    }

    /// Whether the plan is admitted, or why not.
    pub fn admitted(&self) -> Result<(), Refusal> {
        match self.refusal {
            None => Ok(()),
            Some(refusal) => Err(refusal),
        }
    }
}

/// The text; a byte that were no ASCII would be shown escaped.
impl fmt::Display for Verdict {
    fn fmt(&self, f: &mut fmt::Formatter) -> fmt::Result {
        for chunk in self.text().utf8_chunks() {
            f.write_str(chunk.valid())?;
            for byte in chunk.invalid() {
                write!(f, "\\x{byte:02X}")?;
            }
        }
        Ok(())
    }
}

impl fmt::Debug for Verdict {
    fn fmt(&self, f: &mut fmt::Formatter) -> fmt::Result {
        f.debug_struct("Verdict")
            .field("text", &format_args!("{:?}", self.text().escape_ascii()))
            .field("words", &self.words)
            .field("refusal", &self.refusal)
            .finish()
    }
}
