//! Calls and answers in plain numbers, so that one call can be made on both sides and both answers compared.

use ckb_types::packed::OutPoint;
use fiber_types::Pubkey;

/// Every public method with its arguments, but for makers. A violation is its place among three.
#[derive(Clone, Copy, Debug)]
pub enum Call {
    // PeerMessagePolicy
    Admit {
        peer: u64,
        bytes: u64,
        now: u64,
    },
    RecordInvalid {
        peer: u64,
        now: u64,
    },
    PeerIsBanned {
        peer: u64,
        now: u64,
    },
    OnDisconnected {
        peer: u64,
        now: u64,
    },
    ReleaseIngress {
        bytes: u64,
    },
    // GossipBanTracker
    RecordViolation {
        peer: u64,
        violation: usize,
        now: u64,
    },
    IsBanned {
        peer: u64,
        now: u64,
    },
    Score {
        peer: u64,
        now: u64,
    },
    PruneExpired {
        now: u64,
    },
    // ChannelUpdateLimiter
    TryAcquire {
        peer: u64,
        channel: u64,
        side: bool,
        now: u64,
    },
    // ByteTokenBucket
    ByteTryConsume {
        bytes: u64,
        now: u64,
    },
    ByteReserve {
        bytes: u64,
        now: u64,
    },
    ByteRefund {
        bytes: u64,
        now: u64,
    },
    ByteHasDebt {
        now: u64,
    },
    // DiscreteTokenBucket
    TryConsume {
        now: u64,
    },
    // GossipPolicyState
    StateRecordViolation {
        peer: u64,
        violation: usize,
        now: u64,
    },
    StateIsBanned {
        peer: u64,
        now: u64,
    },
    PruneBans {
        now: u64,
    },
    AllowOutbound {
        peer: u64,
        bytes: u64,
        now: u64,
    },
    EstimateDelay {
        peer: u64,
        bytes: u64,
        now: u64,
    },
    RemoveOutboundPeer {
        peer: u64,
    },
    ReserveOutbound {
        peer: u64,
        bytes: u64,
        now: u64,
    },
    RefundOutbound {
        peer: u64,
        bytes: u64,
        now: u64,
    },
    ShouldBypass {
        peer: u64,
        bytes: u64,
        now: u64,
    },
    Exceeds {
        bytes: u64,
    },
}

/// The answer, and what can be read off besides: the load in flight, how many rows there are.
#[derive(Clone, Copy, Debug, PartialEq, Eq)]
pub struct Answer {
    pub number: u64,
    pub besides: [u64; 2],
}

/// What the settings and limit of a run are.
#[derive(Clone, Copy, Debug)]
pub struct Settings {
    pub limit: usize,
    pub interval_ms: u64,
    pub burst: u32,
    pub rate: u64,
    pub burst_bytes: u64,
    pub peer_rate: u64,
    pub peer_burst_bytes: u64,
    pub threshold: u32,
    pub ban_duration_ms: u64,
    pub max_messages: u32,
    pub max_bytes: u64,
}

/// A key of a number: 33 bytes that differ at the front for some pairs, at the end for others.
pub fn pubkey(number: u64) -> Pubkey {
    let mut bytes = [2; 33];
    bytes[1] = (number % 3) as u8;
    bytes[25..].copy_from_slice(&number.to_be_bytes());
    Pubkey(bytes)
}

pub fn outpoint(number: u64) -> OutPoint {
    let mut bytes = [7; 36];
    bytes[..8].copy_from_slice(&number.to_le_bytes());
    OutPoint(bytes)
}
