//! The two sides of a comparison: the unchanged Rust, and the system under test.

use crate::{
    answer, Answer, BucketCall, Buckets, GossipCall, GossipState, GossipWords, Key, PeerCall, PeerOperation, PeerState,
    Record, Settings, Subject, Words,
};

/// The unchanged Rust. It keeps its own state, which can be read out and set.
pub trait Original {
    fn set_peers(&mut self, state: &PeerState);
    fn peers(&mut self, call: &PeerCall) -> Answer;
    fn read_peers(&self, into: &mut PeerState);

    fn bucket(&mut self, call: &BucketCall) -> Answer;
    fn buckets(&self) -> Buckets;

    fn default_settings(&self) -> Settings;
    /// A call on settings alone (`settings`): the answer, and the settings after it.
    fn settings(&self, call: &Words) -> (Answer, [u64; 9]);

    /// The gossip policy. The Rust keeps a limit of 0 as 1.
    fn set_gossip(&mut self, subject: Subject, state: &GossipState);
    /// A making call: of the settings in the words, and of the limit where the operation takes one.
    fn make_gossip(&mut self, call: &GossipCall, words: &GossipWords);
    /// Any other call.
    fn gossip(&mut self, call: &GossipCall) -> Answer;
    fn read_gossip(&self, subject: Subject, into: &mut GossipState);
}

/// The system under test. It keeps nothing: each call gets the record and the lent table that the one before it left,
/// as the functions of the C boundary do.
pub trait Port {
    fn name(&self) -> &'static str;

    /// `PeerMessagePolicy::new`: the settings stand in the record. Answers DONE or a refusal.
    fn make_peers(&self, record: &mut Record, table: &mut [u8]) -> Answer;
    fn peers(&self, call: &PeerCall, record: &mut Record, table: &mut [u8]) -> Answer;

    /// The bare call of admit, for timing: whether it allows. No cause is told, as the Rust tells none.
    fn allows(&self, key: &Key, bytes: u64, now: u64, record: &mut Record, table: &mut [u8]) -> bool {
        let call = PeerCall {
            operation: PeerOperation::Admit,
            key: *key,
            bytes,
            now,
        };
        self.peers(&call, record, table).number == answer::ALLOW
    }

    fn bucket(&self, call: &BucketCall, buckets: &mut Buckets) -> Answer;

    /// A call on settings alone (`settings`): the answer, and the settings after it.
    fn settings(&self, call: &Words) -> (Answer, [u64; 9]);

    /// A call on 128-bit amounts: operation, then operands (`checks::amounts`).
    fn amount(&self, call: &Words) -> Answer;

    /// All that the trace program writes for an input; the table is its memory, filled with anything.
    fn trace(&self, input: &[u8], table: &mut [u8]) -> Vec<u8>;

    /// Whether there are gossip calls to compare.
    fn has_gossip(&self) -> bool {
        false
    }

    /// A call on the gossip policy; the tracker and the limiter have the first table alone. A number that it gives is the answer's
    /// first value.
    fn gossip(&self, _call: &GossipCall, _words: &mut GossipWords, _tables: [&mut [u8]; 2]) -> Answer {
        unreachable!("no gossip calls to compare")
    }

    /// Its snapshots, if there are any to compare.
    fn snapshots(&self) -> Option<&dyn Snapshots> {
        None
    }
}

/// Snapshots of the system under test, as the functions of the C boundary have them: each answers a number, and leaves what it gives
/// where the caller's own stood.
pub trait Snapshots {
    fn write(&self, record: &Record, table: &[u8], output: &mut [u8], length: &mut u64) -> u32;
    fn read(&self, record: &mut Record, snapshot: &[u8], table: &mut [u8]) -> u32;
    /// Where the part of a kind begins and ends.
    fn place(&self, snapshot: &[u8], kind: u32, place: &mut [u64; 2]) -> u32;
    /// A row's key and eleven numbers, then the next row's place.
    fn row(&self, snapshot: &[u8], at: u64, key: &mut Key, numbers: &mut [u64; 12]) -> u32;
}
