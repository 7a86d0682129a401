//! The ban tracker, the limiter and the gossip state (crates `c_bans`, `c_limiter`, `c_gossip`): one function a subject, its first argument the operation's number,
//! `numbers::OP_..`. Each answers `YES`, `NO` or `DONE`, or a refusal, on which nothing changes; 0 where there is no such operation or violation.

// They take what the C functions take.
#![allow(clippy::too_many_arguments)]

use crate::numbers::{
    BAN_LONGS, BAN_SHORTS, GOSSIP_LONGS, GOSSIP_SHORTS, LIMITER_LONGS, LIMITER_SHORTS, OP_GOSSIP_ESTIMATE_DELAY,
    OP_GOSSIP_EXCEEDS, OP_GOSSIP_GLOBAL_CAPACITY, OP_GOSSIP_PEER_CAPACITY, OP_GOSSIP_QUEUE_CAPACITY,
    OP_GOSSIP_SHOULD_BYPASS,
};
use crate::{ffi, OutPointKey, PeerKey};

pub type BanLongs = [u64; BAN_LONGS];
pub type BanShorts = [u32; BAN_SHORTS];
pub type LimiterLongs = [u64; LIMITER_LONGS];
pub type LimiterShorts = [u32; LIMITER_SHORTS];
pub type GossipLongs = [u64; GOSSIP_LONGS];
pub type GossipShorts = [u32; GOSSIP_SHORTS];

/// `OP_BAN_..`, on a tracker's words and its table.
#[inline]
pub fn bans(
    operation: u32,
    longs: &mut BanLongs,
    shorts: &mut BanShorts,
    table: &mut [u8],
    peer: &PeerKey,
    violation: u32,
    now_ms: u64,
    value: &mut [u64; 1],
) -> u32 {
    let (rows, length) = (table.as_mut_ptr(), table.len());
    unsafe { ffi::uglezmir_bans(operation, longs, shorts, rows, length, peer, violation, now_ms, value) }
}

/// `OP_LIMITER_..`, on a limiter's words and its table; a side of 0 is false, any other true.
#[inline]
pub fn limiter(
    operation: u32,
    longs: &mut LimiterLongs,
    shorts: &mut LimiterShorts,
    table: &mut [u8],
    peer: &PeerKey,
    outpoint: &OutPointKey,
    side: u32,
    now_ms: u64,
    value: &mut [u64; 1],
) -> u32 {
    let (rows, length) = (table.as_mut_ptr(), table.len());
    unsafe {
        ffi::uglezmir_limiter(
            operation, longs, shorts, rows, length, peer, outpoint, side, now_ms, value,
        )
    }
}

/// `OP_GOSSIP_..`, on a state's words and its two tables.
#[inline]
pub fn gossip(
    operation: u32,
    longs: &mut GossipLongs,
    shorts: &mut GossipShorts,
    ban_table: &mut [u8],
    outbound_table: &mut [u8],
    peer: &PeerKey,
    violation: u32,
    bytes: u64,
    now_ms: u64,
    value: &mut [u64; 1],
) -> u32 {
    let (bans, ban_length) = (ban_table.as_mut_ptr(), ban_table.len());
    let (outbound, outbound_length) = (outbound_table.as_mut_ptr(), outbound_table.len());
    unsafe {
        ffi::uglezmir_gossip(
            operation,
            longs,
            shorts,
            bans,
            ban_length,
            outbound,
            outbound_length,
            peer,
            violation,
            bytes,
            now_ms,
            value,
        )
    }
}

/// The operations of the gossip state that change nothing.
#[derive(Clone, Copy, Debug, PartialEq, Eq)]
#[repr(u32)]
pub enum Question {
    EstimateDelay = OP_GOSSIP_ESTIMATE_DELAY,
    ShouldBypass = OP_GOSSIP_SHOULD_BYPASS,
    Exceeds = OP_GOSSIP_EXCEEDS,
    QueueCapacity = OP_GOSSIP_QUEUE_CAPACITY,
    GlobalCapacity = OP_GOSSIP_GLOBAL_CAPACITY,
    PeerCapacity = OP_GOSSIP_PEER_CAPACITY,
}

/// Asks, over an outbound table that is only read; the number, and the value that goes with it.
pub fn ask(
    question: Question,
    mut longs: GossipLongs,
    mut shorts: GossipShorts,
    outbound_table: &[u8],
    peer: &PeerKey,
    bytes: u64,
    now_ms: u64,
) -> (u32, u64) {
    let mut value = [0];
    let no_bans: &mut [u8] = &mut [];
    // SAFETY: as everywhere here; and nothing is written through the outbound table's pointer. The proved calls behind these operations take
    // the table as `&[u8]` (crates/gossip_policy/src/state.rt), or not at all, and none of them takes the bans' table.
    let number = unsafe {
        ffi::uglezmir_gossip(
            question as u32,
            &mut longs,
            &mut shorts,
            no_bans.as_mut_ptr(),
            no_bans.len(),
            outbound_table.as_ptr().cast_mut(),
            outbound_table.len(),
            peer,
            0,
            bytes,
            now_ms,
            &mut value,
        )
    };
    (number, value[0])
}
