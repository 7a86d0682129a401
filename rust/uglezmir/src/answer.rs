//! The library's numbers as answers. A call that is refused answers a number below 256.

use crate::Refusal;
use uglezmir_sys::numbers::{DONE, NO, YES};

/// Of a call that answers yes or no.
pub(crate) fn told(number: u32) -> Result<bool, Refusal> {
    match number {
        YES => Ok(true),
        NO => Ok(false),
        refused => Err(Refusal::of(refused)),
    }
}

/// Of a call that answers nothing, or what it leaves.
pub(crate) fn done(number: u32) -> Result<(), Refusal> {
    match number {
        DONE => Ok(()),
        refused => Err(Refusal::of(refused)),
    }
}
