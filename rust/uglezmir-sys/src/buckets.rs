//! Buckets, settings and amounts by themselves (crate `c_buckets`): one function a subject, its first argument the operation's number,
//! `numbers::OP_..`. Each answers `YES`, `NO` or `DONE`, or a refusal, on which nothing changes: 3, or 0 where there is no such operation.

use crate::ffi;
use crate::numbers::{
    AMOUNT_WORDS, BYTE_LONGS, DISCRETE_LONGS, DISCRETE_SHORTS, LIMIT_WORDS, SETTINGS_LONGS, SETTINGS_SHORTS,
};

/// A sign (0 is plus, anything else minus), then four limbs, the least first.
pub type Amount = [u32; AMOUNT_WORDS];
pub type DiscreteLongs = [u64; DISCRETE_LONGS];
pub type DiscreteShorts = [u32; DISCRETE_SHORTS];
pub type ByteLongs = [u64; BYTE_LONGS];
pub type SettingsLongs = [u64; SETTINGS_LONGS];
pub type SettingsShorts = [u32; SETTINGS_SHORTS];
/// A rate and a burst.
pub type LimitWords = [u64; LIMIT_WORDS];

/// `OP_DISCRETE_..`; the value of a no is by how much it fell short.
#[inline]
pub fn discrete(
    operation: u32,
    longs: &mut DiscreteLongs,
    shorts: &mut DiscreteShorts,
    now_ms: u64,
    value: &mut u64,
) -> u32 {
    unsafe { ffi::uglezmir_discrete(operation, longs, shorts, now_ms, value) }
}

/// `OP_BYTE_..`; the value of a no is by how much it fell short, that of `DONE` a delay or the burst.
#[inline]
pub fn byte(
    operation: u32,
    longs: &mut ByteLongs,
    available: &mut Amount,
    bytes: u64,
    now_ms: u64,
    value: &mut u64,
) -> u32 {
    unsafe { ffi::uglezmir_byte(operation, longs, available, bytes, now_ms, value) }
}

/// `OP_AMOUNT_..`; 0 also for a division by 0.
#[inline]
pub fn amount(
    operation: u32,
    first: &Amount,
    second: &Amount,
    n: u64,
    m: u64,
    result: &mut Amount,
    value: &mut u64,
) -> u32 {
    unsafe { ffi::uglezmir_amount(operation, first, second, n, m, result, value) }
}

/// `OP_SETTINGS_..`, on the peers' settings.
#[inline]
pub fn settings(operation: u32, longs: &mut SettingsLongs, shorts: &mut SettingsShorts) -> u32 {
    unsafe { ffi::uglezmir_settings(operation, longs, shorts) }
}

/// `OP_LIMIT_..`, on a rate and a burst.
#[inline]
pub fn limit(operation: u32, words: &mut LimitWords) -> u32 {
    unsafe { ffi::uglezmir_limit(operation, words) }
}
