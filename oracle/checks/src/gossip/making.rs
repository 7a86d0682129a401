//! What a making call reads, and when it is refused.

use super::sides::Lent;
use vocabulary::gossip::*;
use vocabulary::{GossipCall, GossipWords, Shape, Subject};

/// Whether a making call takes the limit that stands in the words; others make 1,024 rows, the Rust 50,000.
pub fn takes_limit(call: &GossipCall) -> bool {
    call.subject != Subject::Gossip && call.operation == 2
}

pub fn limit_of(call: &GossipCall, words: &GossipWords) -> u64 {
    if takes_limit(call) {
        words.longs[LIMIT]
    } else {
        MOST_ROWS
    }
}

/// A limit above 1,024 is refused first, then a table that is too short.
pub fn making_refused(call: &GossipCall, lent: &Lent) -> Option<u32> {
    let limit = limit_of(call, &lent.words);
    if limit > MOST_ROWS {
        return Some(2);
    }
    let mut tables = call.subject.shapes().iter().zip(&lent.tables);
    let short = |shape: &Shape, table: &[u8]| table.len() < shape.width() * limit.max(1) as usize;
    tables.any(|(shape, table)| short(shape, table)).then_some(1)
}

/// The words with anything in all that a making call doesn't read.
pub fn with_anything_unread(call: &GossipCall, words: &GossipWords, anything: u64) -> GossipWords {
    let mut words = *words;
    let is_default = call.subject == Subject::Gossip && call.operation == 2;
    let used = match call.subject {
        Subject::Gossip => 10,
        _ => 3,
    };
    for (place, long) in words.longs[..used].iter_mut().enumerate() {
        let unread = matches!(place, ROWS | GLOBAL_REFILL | OUTBOUND_ROWS) || place == LIMIT && !takes_limit(call);
        if unread || is_default {
            *long = anything.rotate_left(place as u32);
        }
    }
    if call.subject == Subject::Gossip {
        let first = if is_default { MOST } else { GLOBAL_SIGN };
        words.shorts[first..].fill(anything as u32);
    }
    words
}
