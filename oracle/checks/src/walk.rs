//! A walk over a peers' table written by hand, in safe Rust: the yardstick for the port's.
//!
//! It judges each row by the rules of docs/REFERENCE.md, looks that the keys ascend strictly, and finds a key's place, all in one pass. What the
//! record alone must keep (its limit, the ceiling) is left out: that is judged once a call, whatever the rows.
//!
//! A key's front is its first eight bytes as one number. Whole keys are compared only where fronts are equal, and once more where the sought key's
//! place is reached.

#![forbid(unsafe_code)]

use std::cmp::Ordering;
use vocabulary::layout::ROW;
use vocabulary::peer::{BAN_END, BAN_MARK, BYTES, INVALID_COUNT, MESSAGES, RATE_COUNT};
use vocabulary::{Key, Record};

type RowBytes = [u8; ROW];

/// Where a key stands among the rows, or would stand.
#[derive(Clone, Copy, Debug, PartialEq, Eq)]
pub enum Place {
    Found(usize),
    Gap(usize),
}

/// The sought key's place; nothing where a row breaks a rule. Never inlined, since the port's walk is called too.
#[inline(never)]
pub fn walk(record: &Record, table: &[u8], sought: &Key) -> Option<Place> {
    let [_, _, burst_bytes, .., rows] = record.longs;
    let burst = u64::from(record.shorts[0]);
    let rows = table.as_chunks().0.get(..usize::try_from(rows).ok()?)?;
    let sought_front = front(sought);
    let (mut front_before, mut place) = (0, None);
    for (at, row) in rows.iter().enumerate() {
        let here = front(key(row));
        if here <= front_before && !ascends(&rows[..=at]) || !is_sound(row, burst, burst_bytes) {
            return None;
        }
        front_before = here;
        if place.is_none() && here >= sought_front {
            place = place_at(at, key(row), sought);
        }
    }
    Some(place.unwrap_or(Place::Gap(rows.len())))
}

/// The sought key's place, where the key at hand is the first that doesn't come before it. Once or twice in a walk, so kept out of the loop's way.
#[cold]
fn place_at(at: usize, here: &Key, sought: &Key) -> Option<Place> {
    match here.cmp(sought) {
        Ordering::Less => None,
        Ordering::Equal => Some(Place::Found(at)),
        Ordering::Greater => Some(Place::Gap(at)),
    }
}

/// Whether the last key comes after the one before it, if there is one: a first row whose front is 0 has none.
#[cold]
fn ascends(rows: &[RowBytes]) -> bool {
    match rows {
        [.., before, last] => key(before) < key(last),
        _ => true,
    }
}

/// A row's own rules. Both counts are within 32 bits where no bit of either is beyond: one question for two.
fn is_sound(row: &RowBytes, burst: u64, burst_bytes: u64) -> bool {
    let most = u64::from(u32::MAX);
    let mark = number(row, BAN_MARK);
    number(row, MESSAGES) <= burst
        && number(row, BYTES) <= burst_bytes
        && (number(row, RATE_COUNT) | number(row, INVALID_COUNT)) <= most
        && ((mark | number(row, BAN_END)) == 0 || mark == 1)
}

fn key(row: &RowBytes) -> &Key {
    row.first_chunk().expect("a row begins with its key")
}

fn front(key: &Key) -> u64 {
    u64::from_be_bytes(*key.first_chunk().expect("a key is longer than its front"))
}

fn number(row: &RowBytes, at: usize) -> u64 {
    u64::from_le_bytes(*row[33 + 8 * at..].first_chunk().expect("eleven numbers behind the key"))
}
