//! The peers' calls (crate `c_peers`), on a policy's words and its table.

use crate::numbers::{CAUSE_WORDS, POLICY_LONGS, POLICY_SHORTS};
use crate::{ffi, PeerKey};

/// A policy's numbers of 64 bits; `numbers::POLICY_LONG_..` are their places.
pub type PolicyLongs = [u64; POLICY_LONGS];
/// A policy's numbers of 32 bits; `numbers::POLICY_SHORT_..` are their places.
pub type PolicyShorts = [u32; POLICY_SHORTS];
/// A cause's number, one of `numbers::CAUSE_..`, and by how much its limit ran short.
pub type Cause = [u64; CAUSE_WORDS];

/// Makes a policy of the words' settings and zeroes the limit's rows. `DONE`, or 2, 1.
#[inline]
pub fn new(longs: &mut PolicyLongs, shorts: &mut PolicyShorts, table: &mut [u8]) -> u32 {
    unsafe { ffi::uglezmir_new(longs, shorts, table.as_mut_ptr(), table.len()) }
}

/// `ALLOW`, `DISCONNECT` or `BAN`, or 3, 4.
#[inline]
pub fn admit(
    longs: &mut PolicyLongs,
    shorts: &mut PolicyShorts,
    table: &mut [u8],
    peer: &PeerKey,
    bytes: u64,
    now_ms: u64,
) -> u32 {
    unsafe { ffi::uglezmir_admit(longs, shorts, table.as_mut_ptr(), table.len(), peer, bytes, now_ms) }
}

/// The same call and number, and leaves the cause; on 3 and 4 its words stay as they were.
#[inline]
pub fn admit_explained(
    longs: &mut PolicyLongs,
    shorts: &mut PolicyShorts,
    table: &mut [u8],
    peer: &PeerKey,
    bytes: u64,
    now_ms: u64,
    cause: &mut Cause,
) -> u32 {
    let (rows, length) = (table.as_mut_ptr(), table.len());
    unsafe { ffi::uglezmir_admit_explained(longs, shorts, rows, length, peer, bytes, now_ms, cause) }
}

/// `YES` where the peer is banned now, or `NO`, or 3.
#[inline]
pub fn record_invalid(
    longs: &mut PolicyLongs,
    shorts: &mut PolicyShorts,
    table: &mut [u8],
    peer: &PeerKey,
    now_ms: u64,
) -> u32 {
    unsafe { ffi::uglezmir_record_invalid(longs, shorts, table.as_mut_ptr(), table.len(), peer, now_ms) }
}

/// `YES` or `NO`, or 3.
#[inline]
pub fn is_banned(
    longs: &mut PolicyLongs,
    shorts: &mut PolicyShorts,
    table: &mut [u8],
    peer: &PeerKey,
    now_ms: u64,
) -> u32 {
    unsafe { ffi::uglezmir_is_banned(longs, shorts, table.as_mut_ptr(), table.len(), peer, now_ms) }
}

/// `DONE`, or 3.
#[inline]
pub fn on_disconnected(
    longs: &mut PolicyLongs,
    shorts: &mut PolicyShorts,
    table: &mut [u8],
    peer: &PeerKey,
    now_ms: u64,
) -> u32 {
    unsafe { ffi::uglezmir_on_disconnected(longs, shorts, table.as_mut_ptr(), table.len(), peer, now_ms) }
}

/// `DONE`, or 3.
#[inline]
pub fn release_ingress(longs: &mut PolicyLongs, shorts: &mut PolicyShorts, bytes: u64) -> u32 {
    unsafe { ffi::uglezmir_release_ingress(longs, shorts, bytes) }
}

/// Leaves the messages, then the bytes. `DONE`, or 3.
#[inline]
pub fn in_flight(longs: &PolicyLongs, shorts: &PolicyShorts, numbers: &mut [u64; 2]) -> u32 {
    unsafe { ffi::uglezmir_in_flight(longs, shorts, numbers) }
}

/// Leaves the later of the given time and the peer's last-used time. `DONE`, or 3. A later version of the library keeps the time itself and has
/// no such call: don't build on it.
#[doc(hidden)]
#[inline]
pub fn held_time(
    longs: &PolicyLongs,
    shorts: &PolicyShorts,
    table: &[u8],
    peer: &PeerKey,
    given_ms: u64,
    held: &mut u64,
) -> u32 {
    unsafe { ffi::uglezmir_held_time(longs, shorts, table.as_ptr(), table.len(), peer, given_ms, held) }
}
