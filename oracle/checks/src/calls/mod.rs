//! Made-up calls: random and adversarial, from a seed.
//!
//! A plan knows where a trace is going (its clock, its peers, its mix of operations) and looks at the state before each
//! call, so that it can aim at what is about to turn: a ban's exact end, a window's last millisecond, the last byte left.

pub mod amounts;
pub mod buckets;
pub mod gossip;
pub mod inputs;
pub mod peers;
pub mod refusals;
pub mod settings;
pub mod snapshots;

use crate::dice::Dice;

/// Numbers at which something may turn.
pub const CORNERS: [u64; 18] = [
    0,
    1,
    2,
    999,
    1_000,
    1_001,
    (1 << 32) - 1,
    1 << 32,
    (1 << 32) + 1,
    1 << 53,
    (1 << 61) + 1,
    (1 << 63) - 1,
    1 << 63,
    (1 << 63) + 1,
    u64::MAX / 1_000,
    u64::MAX / 1_000 + 1,
    u64::MAX - 1,
    u64::MAX,
];

pub const SHORT_CORNERS: [u64; 6] = [0, 1, 2, 1 << 31, (1 << 32) - 2, (1 << 32) - 1];

/// A time at, just before or just after a turning point that lies `after` past `since`.
pub fn around(dice: &mut Dice, since: u64, after: u64) -> u64 {
    let at = since.saturating_add(after);
    dice.near(at)
}
