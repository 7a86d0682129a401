//! The calls: their operations by number, and what each is judged on.

use super::rows::{outpoint, peer};
use super::{LongKey, Subject};
use crate::Key;

/// In the order of their numbers, which begin at 1.
pub const BANS_OPERATIONS: [&str; 7] = [
    "new",
    "with_max_entries",
    "record_violation",
    "is_banned",
    "score",
    "prune_expired",
    "tracked_peers",
];

pub const LIMITER_OPERATIONS: [&str; 4] = ["new", "with_max_entries", "try_acquire", "tracked_keys"];

pub const GOSSIP_OPERATIONS: [&str; 15] = [
    "new",
    "default",
    "record_violation",
    "is_banned",
    "prune_bans",
    "allow_outbound_message",
    "estimate_outbound_message_delay",
    "remove_outbound_peer",
    "reserve_outbound_message",
    "refund_outbound_message",
    "should_bypass_oversized_outbound_message",
    "outbound_message_exceeds_single_message_capacity",
    "outbound_delay_queue_capacity",
    "outbound_global_delayed_byte_capacity",
    "outbound_peer_delayed_byte_capacity",
];

/// The answer where there is no such operation, or no such violation.
pub const NO_OPERATION: u32 = 0;

/// What a call reads, and so what it is judged on.
#[derive(Clone, Copy, Debug, PartialEq, Eq)]
pub enum Reads {
    /// It makes a state of the words' settings.
    Making,
    /// Settings alone: it can't be refused.
    Settings,
    /// The words that belong to a table, without the table.
    Record(usize),
    /// A table and its words.
    Table(usize),
}

#[derive(Clone, Copy, Debug)]
pub struct GossipCall {
    pub subject: Subject,
    pub operation: u32,
    pub key: LongKey,
    /// The limiter's side as it crosses: 0 is false, anything else true.
    pub side: u32,
    pub violation: u32,
    pub bytes: u64,
    pub now: u64,
}

impl GossipCall {
    pub fn peer(&self) -> Key {
        peer(&self.key)
    }

    pub fn outpoint(&self) -> [u8; 36] {
        outpoint(&self.key)
    }

    pub fn name(&self) -> &'static str {
        self.subject.operations()[self.operation as usize - 1]
    }

    pub fn reads(&self) -> Reads {
        match (self.subject, self.operation) {
            (_, 1 | 2) => Reads::Making,
            (Subject::Bans, 7) | (Subject::Limiter, 4) => Reads::Record(0),
            (Subject::Gossip, 6..=11) => Reads::Table(1),
            (Subject::Gossip, 12..) => Reads::Settings,
            _ => Reads::Table(0),
        }
    }

    /// Whether it is the one call that takes a violation.
    pub fn records_violation(&self) -> bool {
        self.operation == 3 && self.subject != Subject::Limiter
    }
}
