//! The comparison of the gossip policy: ban tracker, limiter, and the state that holds a tracker and the outbound buckets.
//!
//! `start` is where a trace begins, `sides` runs a call on both sides and compares, `making` is what a making call reads, `ties`
//! brings the sides together where the Rust may drop any of several rows, `damage` makes sound states unsound in known ways, `watch`
//! sees what calls did.

pub mod damage;
mod making;
pub mod sides;
pub mod start;
pub mod ties;
pub mod watch;

use vocabulary::gossip::MOST_ROWS;
use vocabulary::{answer, Answer, GossipCall, GossipState, LongKey, Subject, Words};

/// A call that is written down as words: the operation's place in the kind's list, the key's place, the violation (or the limiter's
/// side), bytes, now.
pub fn call_of(subject: Subject, keys: &[LongKey], words: &Words) -> GossipCall {
    let [operation, place, violation, bytes, now, ..] = *words;
    let key = keys[place as usize];
    GossipCall {
        subject,
        operation: operation as u32 + 1,
        key,
        side: if key[69] == 0 { 0 } else { (violation as u32).max(1) },
        violation: violation as u32,
        bytes,
        now,
    }
}

/// The peer has no row, no row is left, and what the Rust answered makes one: outside its domain, since its map has no limit.
pub fn meets_refusal_5(before: &GossipState, call: &GossipCall, answer: &Answer) -> bool {
    let makes_a_row = match (call.subject, call.operation) {
        (Subject::Gossip, 6) => answer.number == answer::YES,
        (Subject::Gossip, 9) => true,
        (Subject::Gossip, 10) => !before.words.peer_limit_is_off(),
        _ => false,
    };
    makes_a_row && before.rows[1].len() as u64 == MOST_ROWS && before.row(1, &call.key).is_none()
}
