//! What both sides of a comparison are read into: plain numbers, the calls, the answers, and the two sides as traits.

pub mod amounts;
pub mod answer;
pub mod bucket;
pub mod cause;
pub mod gossip;
pub mod layout;
pub mod peer;
pub mod settings;
pub mod sides;

pub use answer::Answer;
pub use bucket::{Amount, BucketCall, BucketOperation, Buckets, ByteBucket, DiscreteBucket};
pub use cause::Cause;
pub use gossip::{GossipCall, GossipRow, GossipState, GossipWords, LongKey, Reads, Shape, Subject};
pub use peer::{Key, PeerCall, PeerOperation, PeerState, Record, Row, Settings};
pub use sides::{Original, Port, Snapshots};

/// A call as eight words: the operation's number, then its operands. The recorded lists hold these, little-endian.
pub type Words = [u64; 8];
