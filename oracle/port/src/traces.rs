//! The scan of an input, line by line (crate `c_trace`).

use uglezmir_sys::numbers::TRACE_LINE;
use uglezmir_sys::peers::{PolicyLongs, PolicyShorts};
use uglezmir_sys::traces::{self, Place};

/// The scan's own numbers (place, line number, phase), and the policy's words.
pub struct Scan {
    place: Place,
    longs: PolicyLongs,
    shorts: PolicyShorts,
}

impl Scan {
    /// All words are written by the call: what stands there before means nothing.
    pub fn open(input: &[u8]) -> Self {
        let mut scan = Self {
            place: [u64::MAX; 3],
            longs: [u64::MAX; 8],
            shorts: [u32::MAX; 4],
        };
        let Self { place, longs, shorts } = &mut scan;
        traces::open(place, longs, shorts, input);
        scan
    }

    /// The next line with its newline; empty where the scan is done.
    pub fn next(&mut self, input: &[u8], table: &mut [u8]) -> Vec<u8> {
        let Self { place, longs, shorts } = self;
        let mut line = [0xff; TRACE_LINE];
        let length = traces::next(place, longs, shorts, input, table, &mut line);
        line[..length as usize].to_vec()
    }
}
