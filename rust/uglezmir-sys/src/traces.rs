//! The scan of an input of the trace program, line by line (crate `c_trace`).

use crate::ffi;
use crate::numbers::{TRACE_LINE, TRACE_PLACES};
use crate::peers::{PolicyLongs, PolicyShorts};

/// The place of the next line, its number, the phase.
pub type Place = [u64; TRACE_PLACES];
/// A line with its newline, zeros behind it.
pub type Line = [u8; TRACE_LINE];

/// Begins a scan: every word is written.
pub fn open(place: &mut Place, longs: &mut PolicyLongs, shorts: &mut PolicyShorts, input: &[u8]) {
    unsafe { ffi::uglezmir_trace_open(place, longs, shorts, input.as_ptr(), input.len()) }
}

/// Leaves the next line and answers its length; 0 where the scan is done: the words are then those behind, with the policy of settings
/// that nothing follows. Lend the same input and table at every call.
pub fn next(
    place: &mut Place,
    longs: &mut PolicyLongs,
    shorts: &mut PolicyShorts,
    input: &[u8],
    table: &mut [u8],
    line: &mut Line,
) -> u32 {
    let (from, input_length) = (input.as_ptr(), input.len());
    let (rows, table_length) = (table.as_mut_ptr(), table.len());
    unsafe { ffi::uglezmir_trace_next(place, longs, shorts, from, input_length, rows, table_length, line) }
}
