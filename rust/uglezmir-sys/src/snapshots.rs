//! Snapshots of a peer policy (crate `c_snapshot`): written, read back, asked for their parts, and walked row by row.

use crate::numbers::SNAPSHOT_ROW_NUMBERS;
use crate::peers::{PolicyLongs, PolicyShorts};
use crate::{ffi, PeerKey};

/// Where a part begins, and where it ends: behind its last byte.
pub type PartPlace = [u64; 2];
/// A row's numbers, `numbers::SNAPSHOT_ROW_..`.
pub type RowNumbers = [u64; SNAPSHOT_ROW_NUMBERS];

/// Writes a policy, and leaves how many bytes of the output became the snapshot: `SNAPSHOT_WITHOUT_ROWS`, and `PEER_ROW` a row. `DONE`, or 3, 1.
pub fn write(longs: &PolicyLongs, shorts: &PolicyShorts, table: &[u8], output: &mut [u8], length: &mut u64) -> u32 {
    let (rows, table_length) = (table.as_ptr(), table.len());
    let (into, output_length) = (output.as_mut_ptr(), output.len());
    unsafe { ffi::uglezmir_snapshot_write(longs, shorts, rows, table_length, into, output_length, length) }
}

/// Leaves the policy that the snapshot describes; what the words held before is not read. `DONE`, or 6, 2, 3, 1.
pub fn read(longs: &mut PolicyLongs, shorts: &mut PolicyShorts, snapshot: &[u8], table: &mut [u8]) -> u32 {
    let (from, snapshot_length) = (snapshot.as_ptr(), snapshot.len());
    let (rows, table_length) = (table.as_mut_ptr(), table.len());
    unsafe { ffi::uglezmir_snapshot_read(longs, shorts, from, snapshot_length, rows, table_length) }
}

/// Leaves where the part of a kind stands, `numbers::SNAPSHOT_KIND_..`. `DONE`, or 6.
pub fn place(snapshot: &[u8], kind: u32, place: &mut PartPlace) -> u32 {
    unsafe { ffi::uglezmir_snapshot_place(snapshot.as_ptr(), snapshot.len(), kind, place) }
}

/// Leaves the row at a place, and where the next one begins; the first one's place is where part 3 begins. `DONE`, `NO` where all rows were
/// given, or 6.
pub fn row(snapshot: &[u8], at: u64, key: &mut PeerKey, numbers: &mut RowNumbers) -> u32 {
    unsafe { ffi::uglezmir_snapshot_row(snapshot.as_ptr(), snapshot.len(), at, key, numbers) }
}
