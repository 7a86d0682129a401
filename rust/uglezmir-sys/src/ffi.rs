//! The C functions as they are exported. A slice crosses as a pointer, then its length.

use crate::buckets::{Amount, ByteLongs, DiscreteLongs, DiscreteShorts, LimitWords, SettingsLongs, SettingsShorts};
use crate::gossip::{BanLongs, BanShorts, GossipLongs, GossipShorts, LimiterLongs, LimiterShorts};
use crate::peers::{Cause, PolicyLongs, PolicyShorts};
use crate::snapshots::{PartPlace, RowNumbers};
use crate::traces::{Line, Place};
use crate::{OutPointKey, PeerKey};

// Crate c_peers.
extern "C" {
    pub fn uglezmir_new(longs: &mut PolicyLongs, shorts: &mut PolicyShorts, table: *mut u8, table_length: usize)
        -> u32;
    pub fn uglezmir_admit(
        longs: &mut PolicyLongs,
        shorts: &mut PolicyShorts,
        table: *mut u8,
        table_length: usize,
        peer: &PeerKey,
        bytes: u64,
        now_ms: u64,
    ) -> u32;
    pub fn uglezmir_admit_explained(
        longs: &mut PolicyLongs,
        shorts: &mut PolicyShorts,
        table: *mut u8,
        table_length: usize,
        peer: &PeerKey,
        bytes: u64,
        now_ms: u64,
        cause: &mut Cause,
    ) -> u32;
    pub fn uglezmir_record_invalid(
        longs: &mut PolicyLongs,
        shorts: &mut PolicyShorts,
        table: *mut u8,
        table_length: usize,
        peer: &PeerKey,
        now_ms: u64,
    ) -> u32;
    pub fn uglezmir_is_banned(
        longs: &mut PolicyLongs,
        shorts: &mut PolicyShorts,
        table: *mut u8,
        table_length: usize,
        peer: &PeerKey,
        now_ms: u64,
    ) -> u32;
    pub fn uglezmir_on_disconnected(
        longs: &mut PolicyLongs,
        shorts: &mut PolicyShorts,
        table: *mut u8,
        table_length: usize,
        peer: &PeerKey,
        now_ms: u64,
    ) -> u32;
    pub fn uglezmir_release_ingress(longs: &mut PolicyLongs, shorts: &mut PolicyShorts, bytes: u64) -> u32;
    pub fn uglezmir_in_flight(longs: &PolicyLongs, shorts: &PolicyShorts, numbers: &mut [u64; 2]) -> u32;
    #[doc(hidden)]
    pub fn uglezmir_held_time(
        longs: &PolicyLongs,
        shorts: &PolicyShorts,
        table: *const u8,
        table_length: usize,
        peer: &PeerKey,
        given_ms: u64,
        held: &mut u64,
    ) -> u32;
}

// Crate c_buckets.
extern "C" {
    pub fn uglezmir_discrete(
        operation: u32,
        longs: &mut DiscreteLongs,
        shorts: &mut DiscreteShorts,
        now_ms: u64,
        value: &mut u64,
    ) -> u32;
    pub fn uglezmir_byte(
        operation: u32,
        longs: &mut ByteLongs,
        available: &mut Amount,
        bytes: u64,
        now_ms: u64,
        value: &mut u64,
    ) -> u32;
    pub fn uglezmir_amount(
        operation: u32,
        first: &Amount,
        second: &Amount,
        n: u64,
        m: u64,
        result: &mut Amount,
        value: &mut u64,
    ) -> u32;
    pub fn uglezmir_settings(operation: u32, longs: &mut SettingsLongs, shorts: &mut SettingsShorts) -> u32;
    pub fn uglezmir_limit(operation: u32, words: &mut LimitWords) -> u32;
}

// Crates c_bans, c_limiter and c_gossip.
extern "C" {
    pub fn uglezmir_bans(
        operation: u32,
        longs: &mut BanLongs,
        shorts: &mut BanShorts,
        table: *mut u8,
        table_length: usize,
        peer: &PeerKey,
        violation: u32,
        now_ms: u64,
        value: &mut [u64; 1],
    ) -> u32;
    pub fn uglezmir_limiter(
        operation: u32,
        longs: &mut LimiterLongs,
        shorts: &mut LimiterShorts,
        table: *mut u8,
        table_length: usize,
        peer: &PeerKey,
        outpoint: &OutPointKey,
        side: u32,
        now_ms: u64,
        value: &mut [u64; 1],
    ) -> u32;
    pub fn uglezmir_gossip(
        operation: u32,
        longs: &mut GossipLongs,
        shorts: &mut GossipShorts,
        ban_table: *mut u8,
        ban_table_length: usize,
        outbound_table: *mut u8,
        outbound_table_length: usize,
        peer: &PeerKey,
        violation: u32,
        bytes: u64,
        now_ms: u64,
        value: &mut [u64; 1],
    ) -> u32;
}

// Crate c_snapshot.
extern "C" {
    pub fn uglezmir_snapshot_write(
        longs: &PolicyLongs,
        shorts: &PolicyShorts,
        table: *const u8,
        table_length: usize,
        output: *mut u8,
        output_length: usize,
        length: &mut u64,
    ) -> u32;
    pub fn uglezmir_snapshot_read(
        longs: &mut PolicyLongs,
        shorts: &mut PolicyShorts,
        snapshot: *const u8,
        snapshot_length: usize,
        table: *mut u8,
        table_length: usize,
    ) -> u32;
    pub fn uglezmir_snapshot_place(
        snapshot: *const u8,
        snapshot_length: usize,
        kind: u32,
        place: &mut PartPlace,
    ) -> u32;
    pub fn uglezmir_snapshot_row(
        snapshot: *const u8,
        snapshot_length: usize,
        at: u64,
        key: &mut PeerKey,
        numbers: &mut RowNumbers,
    ) -> u32;
}

// Crate c_trace.
extern "C" {
    pub fn uglezmir_trace_open(
        place: &mut Place,
        longs: &mut PolicyLongs,
        shorts: &mut PolicyShorts,
        input: *const u8,
        input_length: usize,
    );
    pub fn uglezmir_trace_next(
        place: &mut Place,
        longs: &mut PolicyLongs,
        shorts: &mut PolicyShorts,
        input: *const u8,
        input_length: usize,
        table: *mut u8,
        table_length: usize,
        line: &mut Line,
    ) -> u32;
}
