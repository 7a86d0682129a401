//! Sound states damaged in one known way, so that the refusal's number is known by construction.

use vocabulary::layout::ROW;
use vocabulary::peer::*;
use vocabulary::{Amount, Buckets, Words};

/// The ways, by name.
pub const PEER_DAMAGE: [&str; 15] = [
    "two keys equal",
    "keys descend",
    "more rows than the limit",
    "limit above 1,024",
    "table one byte short",
    "message tokens above the burst",
    "bytes above the burst",
    "rate count above u32",
    "invalid count above u32",
    "ban mark 2",
    "ban end without a mark",
    "messages above the ceiling",
    "bytes above the ceiling",
    "making: limit above 1,024",
    "making: table one byte short",
];

/// From this place on the damage is to what a policy is made of.
pub const MAKING_DAMAGE: usize = 13;

/// Where the damage is, and so which calls must refuse.
pub enum Damage {
    Record,
    Table,
    Making(u32),
}

/// Damages a sound policy in the way that word 0 names; nothing where this state can't be damaged so.
pub fn damage_peers(words: &Words, state: &PeerState, record: &mut Record, table: &mut Vec<u8>) -> Option<Damage> {
    let rows = state.rows.len();
    let row = (words[5] as usize).checked_rem(rows).unwrap_or(0);
    let limit = state.settings.row_limit() as usize;
    let mut put = |field: usize, number: Option<u64>| {
        let at = ROW * row + 33 + 8 * field;
        let place = table.get_mut(at..at + 8).filter(|_| rows > 0)?;
        place.copy_from_slice(&number?.to_le_bytes());
        Some(Damage::Table)
    };
    match words[0] {
        0 if rows > 1 => {
            let second = ROW * row.max(1);
            table.copy_within(second - ROW..second - ROW + 33, second);
            Some(Damage::Table)
        }
        1 if rows > 1 => {
            let second = ROW * row.max(1);
            for at in 0..33 {
                table.swap(second - ROW + at, second + at);
            }
            Some(Damage::Table)
        }
        2 => {
            record.longs[7] = if words[5].is_multiple_of(2) {
                limit as u64 + 1
            } else {
                u64::MAX - words[5] % 3
            };
            Some(Damage::Record)
        }
        3 => {
            record.longs[4] = if words[5].is_multiple_of(2) {
                1_025
            } else {
                u64::MAX / (words[5] % 200).max(1)
            };
            Some(Damage::Record)
        }
        4 => {
            table.truncate(ROW * limit - 1);
            Some(Damage::Table)
        }
        5 => put(MESSAGES, Some(u64::from(state.settings.burst) + 1)),
        6 => put(BYTES, state.settings.burst_bytes.checked_add(1)),
        7 => put(RATE_COUNT, Some(1 << 32)),
        8 => put(INVALID_COUNT, Some(1 << 32)),
        9 => put(BAN_MARK, Some(2)),
        10 => {
            put(BAN_MARK, Some(0))?;
            put(BAN_END, Some(words[5] | 1))
        }
        11 if !state.settings.unlimited() => {
            record.shorts[3] = state.settings.max_messages.checked_add(1)?;
            Some(Damage::Record)
        }
        12 if !state.settings.unlimited() => {
            record.longs[6] = state.settings.max_bytes.checked_add(1)?;
            Some(Damage::Record)
        }
        13 => {
            record.longs[4] = 1_025 + words[5] % 7;
            if words[5].is_multiple_of(2) {
                table.clear();
            }
            Some(Damage::Making(2))
        }
        14 => {
            table.truncate(ROW * limit - 1);
            Some(Damage::Making(1))
        }
        _ => None,
    }
}

/// Buckets that no call accepts: more than the capacity, minus zero, an amount out of range.
pub fn damaged_buckets(words: &Words) -> Buckets {
    let mut buckets = Buckets::default();
    buckets.discrete.interval = words[5];
    buckets.discrete.capacity = (words[4] as u32).saturating_sub(1);
    buckets.discrete.available = buckets.discrete.capacity + 1;
    buckets.discrete.last_refill = words[6];
    buckets.byte.rate = words[5];
    buckets.byte.burst = words[4];
    buckets.byte.last_refill = words[6];
    buckets.byte.available = match words[7] % 5 {
        0 => Amount::plus(u128::from(words[4]) + 1),
        1 => Amount {
            negative: true,
            magnitude: 0,
        },
        2 => Amount {
            negative: true,
            magnitude: (1 << 127) + 1,
        },
        3 => Amount::plus(1 << 127),
        _ => Amount {
            negative: words[5].is_multiple_of(2),
            magnitude: u128::MAX,
        },
    };
    buckets
}
