//! The peers' calls on a record (crate `c_peers`).

use uglezmir_sys::peers;
use vocabulary::{answer, Answer, Key, Record};

pub fn new(record: &mut Record, table: &mut [u8]) -> u32 {
    peers::new(&mut record.longs, &mut record.shorts, table)
}

/// What the cause's words hold before a call.
const ANYTHING: [u64; 2] = [u64::MAX; 2];

/// With its cause; a refused call must leave the cause's words as they were.
pub fn admit(record: &mut Record, table: &mut [u8], peer: &Key, bytes: u64, now: u64) -> Answer {
    let mut cause = ANYTHING;
    let (longs, shorts) = (&mut record.longs, &mut record.shorts);
    let number = peers::admit_explained(longs, shorts, table, peer, bytes, now, &mut cause);
    let answer = Answer::caused(number, cause);
    if answer.is_refusal() && cause == ANYTHING {
        return Answer::plain(number);
    }
    answer
}

/// Whether the Rust's answer is Allow; no cause is asked for.
pub fn allows(record: &mut Record, table: &mut [u8], peer: &Key, bytes: u64, now: u64) -> bool {
    peers::admit(&mut record.longs, &mut record.shorts, table, peer, bytes, now) == answer::ALLOW
}

pub fn record_invalid(record: &mut Record, table: &mut [u8], peer: &Key, now: u64) -> u32 {
    peers::record_invalid(&mut record.longs, &mut record.shorts, table, peer, now)
}

pub fn is_banned(record: &mut Record, table: &mut [u8], peer: &Key, now: u64) -> u32 {
    peers::is_banned(&mut record.longs, &mut record.shorts, table, peer, now)
}

pub fn on_disconnected(record: &mut Record, table: &mut [u8], peer: &Key, now: u64) -> u32 {
    peers::on_disconnected(&mut record.longs, &mut record.shorts, table, peer, now)
}

pub fn release_ingress(record: &mut Record, bytes: u64) -> u32 {
    peers::release_ingress(&mut record.longs, &mut record.shorts, bytes)
}

pub fn in_flight(record: &Record, numbers: &mut [u64; 2]) -> u32 {
    peers::in_flight(&record.longs, &record.shorts, numbers)
}

pub fn held_time(record: &Record, table: &[u8], peer: &Key, given: u64, held: &mut u64) -> u32 {
    peers::held_time(&record.longs, &record.shorts, table, peer, given, held)
}
