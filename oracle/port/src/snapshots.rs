//! Snapshots (crate `c_snapshot`).

use crate::Proved;
use uglezmir_sys::snapshots;
use vocabulary::{Key, Record, Snapshots};

impl Snapshots for Proved {
    fn write(&self, record: &Record, table: &[u8], output: &mut [u8], length: &mut u64) -> u32 {
        snapshots::write(&record.longs, &record.shorts, table, output, length)
    }

    fn read(&self, record: &mut Record, snapshot: &[u8], table: &mut [u8]) -> u32 {
        snapshots::read(&mut record.longs, &mut record.shorts, snapshot, table)
    }

    fn place(&self, snapshot: &[u8], kind: u32, place: &mut [u64; 2]) -> u32 {
        snapshots::place(snapshot, kind, place)
    }

    fn row(&self, snapshot: &[u8], at: u64, key: &mut Key, numbers: &mut [u64; 12]) -> u32 {
        snapshots::row(snapshot, at, key, numbers)
    }
}
