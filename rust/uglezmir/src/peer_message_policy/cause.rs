use super::PeerMessageAdmission;
use crate::Refusal;
use std::fmt;
use uglezmir_sys::numbers::{
    CAUSE_ALLOWED, CAUSE_BAN_BEGUN, CAUSE_BYTES, CAUSE_CEILING_BYTES, CAUSE_LIVE_BAN, CAUSE_MESSAGES, CAUSE_SLOT,
};
use uglezmir_sys::peers::Cause as Words;

/// Why a message is let in or not, from [`try_admit_explained`](super::PeerMessagePolicy::try_admit_explained).
///
/// Where several limits would say no, the first in step order is named: the message bucket, the byte bucket, the ceiling. A bucket that runs
/// short is the peer's own doing and counts as a violation; a ceiling without room is not, and doesn't. It is proved that the ceiling is named exactly where
/// no ban on the peer is live, both its buckets pass and the ceiling has no room (the theorem `named`, `crates/promises/proofs/Promises.antt`).
///
/// ```
/// use uglezmir::peer_message_policy::{Cause, Limit, PeerMessageAdmission, Shortage};
///
/// let cause = Cause::Short(Shortage::Bytes(20));
/// assert_eq!(cause.merge(), PeerMessageAdmission::Disconnect);
/// assert_eq!(cause.limit(), Some(Limit::Bytes));
/// assert_eq!((Cause::LiveBan.merge(), Cause::LiveBan.limit()), (PeerMessageAdmission::Ban, None));
/// ```
#[derive(Clone, Copy, Debug, PartialEq, Eq, Hash)]
pub enum Cause {
    /// Nothing ran short: it is let in.
    Allowed,
    /// A limit ran short, by so much.
    Short(Shortage),
    /// The peer is banned since an earlier message.
    LiveBan,
    /// A bucket ran short once too often: the peer is banned from this message on.
    BanBegun,
}

/// What ran short, and by how much.
#[derive(Clone, Copy, Debug, PartialEq, Eq, Hash)]
pub enum Shortage {
    /// The peer's message bucket is empty: one message short.
    Messages,
    /// The message is larger than what is left in the peer's byte bucket, by so many bytes.
    Bytes(u64),
    /// As many messages are in flight as the ceiling has slots: one slot short.
    Slot,
    /// The message is larger than what is left under the ceiling, by so many bytes. The slot is judged first.
    CeilingBytes(u64),
}

/// The three limits, in the order in which they decide. What an operator tells a neighbour: `messages` and `bytes` are what the neighbour sent,
/// `ceiling` is the load of all.
///
/// ```
/// use uglezmir::peer_message_policy::Limit;
///
/// let names = [Limit::Messages, Limit::Bytes, Limit::Ceiling].map(|limit| limit.to_string());
/// assert_eq!(names, ["messages", "bytes", "ceiling"]);
/// ```
#[derive(Clone, Copy, Debug, PartialEq, Eq, Hash)]
pub enum Limit {
    /// The peer's message bucket.
    Messages,
    /// The peer's byte bucket.
    Bytes,
    /// The ceiling on the load in flight, which all peers share.
    Ceiling,
}

impl Cause {
    /// The answer that the Rust gives: which limit ran short is left out, and whether a ban is live or begins.
    pub fn merge(self) -> PeerMessageAdmission {
        match self {
            Self::Allowed => PeerMessageAdmission::Allow,
            Self::Short(_) => PeerMessageAdmission::Disconnect,
            Self::LiveBan | Self::BanBegun => PeerMessageAdmission::Ban,
        }
    }

    /// The limit that it names, if it names one.
    pub fn limit(self) -> Option<Limit> {
        match self {
            Self::Short(shortage) => Some(shortage.limit()),
            Self::Allowed | Self::LiveBan | Self::BanBegun => None,
        }
    }

    /// As it crosses. The amounts of a message and of a slot are 1, and go without saying.
    pub(super) fn of([number, short]: Words) -> Result<Self, Refusal> {
        match number {
            CAUSE_ALLOWED => Ok(Self::Allowed),
            CAUSE_MESSAGES => Ok(Self::Short(Shortage::Messages)),
            CAUSE_BYTES => Ok(Self::Short(Shortage::Bytes(short))),
            CAUSE_SLOT => Ok(Self::Short(Shortage::Slot)),
            CAUSE_CEILING_BYTES => Ok(Self::Short(Shortage::CeilingBytes(short))),
            CAUSE_LIVE_BAN => Ok(Self::LiveBan),
            CAUSE_BAN_BEGUN => Ok(Self::BanBegun),
            other => Err(Refusal::Unknown(other as u32)),
        }
    }
}

impl Shortage {
    /// The limit that ran short; the ceiling by a slot or by bytes.
    pub fn limit(self) -> Limit {
        match self {
            Self::Messages => Limit::Messages,
            Self::Bytes(_) => Limit::Bytes,
            Self::Slot | Self::CeilingBytes(_) => Limit::Ceiling,
        }
    }

    /// By how much: 1 for a message and a slot, else bytes.
    pub fn amount(self) -> u64 {
        match self {
            Self::Messages | Self::Slot => 1,
            Self::Bytes(short) | Self::CeilingBytes(short) => short,
        }
    }
}

impl fmt::Display for Limit {
    fn fmt(&self, f: &mut fmt::Formatter<'_>) -> fmt::Result {
        f.write_str(match self {
            Self::Messages => "messages",
            Self::Bytes => "bytes",
            Self::Ceiling => "ceiling",
        })
    }
}
