//! Ties in a gossip eviction. Where several rows have the least (banned now, score, last update) the Rust drops any of them, as its
//! map happens to be ordered; the port drops the one of the smallest key. This is seen in the state before the call.

use vocabulary::gossip::*;
use vocabulary::{GossipCall, GossipRow, GossipState, LongKey};

/// The keys that tie at the least triple in the call that comes, in their order; empty where nothing is evicted or nothing ties.
pub fn tied(before: &GossipState, call: &GossipCall) -> Vec<LongKey> {
    if !call.records_violation() || before.words.is_off() {
        return Vec::new();
    }
    let (duration, now) = (before.words.longs[PERIOD], call.now);
    if before.row(0, &call.key).is_some() || (before.rows[0].len() as u64) < before.words.row_limit(0) {
        return Vec::new();
    }
    let left: Vec<&GossipRow> = before.rows[0]
        .iter()
        .filter(|row| !is_expired(row, duration, now))
        .collect();
    if left.len() < before.rows[0].len() {
        return Vec::new();
    }
    let least = left.iter().map(|row| triple(row, now)).min();
    let keys = left
        .iter()
        .filter(|row| Some(triple(row, now)) == least)
        .map(|row| row.key);
    let keys: Vec<LongKey> = keys.collect();
    if keys.len() > 1 {
        keys
    } else {
        Vec::new()
    }
}

pub fn is_expired(row: &GossipRow, duration: u64, now: u64) -> bool {
    now >= row.numbers[GossipRow::UPDATED].saturating_add(duration)
}

/// The Rust's order of eviction.
fn triple(row: &GossipRow, now: u64) -> (bool, u64, u64) {
    let n = &row.numbers;
    let banned = n[GossipRow::MARK] == 1 && now < n[GossipRow::END];
    (banned, n[GossipRow::SCORE], n[GossipRow::UPDATED])
}

/// Makes the state after an eviction in a tie the one that the port must reach: of the tied rows the smallest key's is gone. Answers
/// whether the Rust had dropped another one of them. Where it dropped anything else the state stays: a difference.
pub fn bring_together(tied: &[LongKey], before: &GossipState, after: &mut GossipState) -> bool {
    let Some(gone) = tied.iter().find(|key| after.row(0, key).is_none()) else {
        return false;
    };
    if gone == &tied[0] || after.row(0, &tied[0]).is_none() {
        return false;
    }
    let back = *before.row(0, gone).expect("a tied row");
    after.rows[0].retain(|row| row.key != tied[0]);
    after.rows[0].push(back);
    after.put_in_order();
    true
}
