//! Refusals as errors.

use crate::plain::Refusal;
use core::error::Error;
use core::fmt::{self, Display, Formatter};

impl Refusal {
    /// The number that documents 01 and 02 give it.
    pub const fn number(self) -> u32 {
        self as u32
    }

    /// The refusal that has this number, if there is one; 0 is that of an accepted call.
    pub fn of(number: u32) -> Option<Refusal> {
        Refusal::ALL
            .into_iter()
            .find(|refusal| refusal.number() == number)
    }
}

impl Display for Refusal {
    fn fmt(&self, f: &mut Formatter<'_>) -> fmt::Result {
        f.write_str(self.words())
    }
}

impl Error for Refusal {}
