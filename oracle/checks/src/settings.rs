//! What the Rust answers to a call on settings alone (`vocabulary::settings`).
//!
//! One difference is meant: the Rust's default for the tracked peers is 50,000, here it is 1,024 (docs/DIFFERENCES.md).

use vocabulary::{settings, Answer, Original, Words};

const DEFAULT: u64 = 0;
const MAX_TRACKED: usize = 6;

pub fn by_rust(original: &dyn Original, call: &Words) -> (Answer, [u64; 9]) {
    let (answer, mut after) = original.settings(call);
    if call[0] == DEFAULT && after[MAX_TRACKED] == 50_000 {
        after[MAX_TRACKED] = 1_024;
    }
    (answer, after)
}

/// Whether each operand is within its field.
pub fn in_domain(call: &Words) -> bool {
    call[0] < settings::NAMES.len() as u64 && settings::given(call).is_some()
}
