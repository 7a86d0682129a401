//! An answer as a number and up to three values.
//!
//! A refusal is its own number (1 to 17); the answers of the Rust begin at 256.

use crate::cause::{self, Cause};

pub const ALLOW: u32 = 256;
pub const DISCONNECT: u32 = 257;
pub const BAN: u32 = 258;
pub const NO: u32 = 259;
pub const YES: u32 = 260;
/// The call answers nothing, or the values.
pub const DONE: u32 = 261;

#[derive(Clone, Copy, Debug, PartialEq, Eq)]
pub struct Answer {
    pub number: u32,
    pub values: [u64; 3],
}

impl Answer {
    pub const fn plain(number: u32) -> Self {
        Self { number, values: [0; 3] }
    }

    pub const fn done() -> Self {
        Self::plain(DONE)
    }

    pub const fn yes_or_no(yes: bool) -> Self {
        Self::plain(if yes { YES } else { NO })
    }

    pub const fn value(value: u64) -> Self {
        Self::values([value, 0, 0])
    }

    pub const fn values(values: [u64; 3]) -> Self {
        Self { number: DONE, values }
    }

    /// Of an admit: its cause in the first two values.
    pub const fn admitted(number: u32, cause: Cause) -> Self {
        Self::caused(number, cause.words())
    }

    /// The same, the cause as it crosses the C boundary.
    pub const fn caused(number: u32, [cause, short]: [u64; 2]) -> Self {
        Self {
            number,
            values: [cause, short, 0],
        }
    }

    /// Of an admit that isn't refused.
    pub fn cause(&self) -> [u64; 2] {
        [self.values[0], self.values[1]]
    }

    pub fn is_refusal(&self) -> bool {
        self.number < 256
    }

    pub fn is_admission(&self) -> bool {
        (ALLOW..=BAN).contains(&self.number)
    }

    pub fn text(&self) -> String {
        match self.number {
            ALLOW => "Allow".into(),
            DISCONNECT => "Disconnect".into(),
            BAN => "Ban".into(),
            NO => "no".into(),
            YES => "yes".into(),
            DONE => "done".into(),
            number => format!("refusal {number}"),
        }
    }
}

impl std::fmt::Display for Answer {
    fn fmt(&self, f: &mut std::fmt::Formatter<'_>) -> std::fmt::Result {
        if self.is_admission() {
            return write!(f, "{} ({})", self.text(), cause::text(self.cause()));
        }
        let [a, b, c] = self.values;
        write!(f, "{} ({a} {b} {c})", self.text())
    }
}
