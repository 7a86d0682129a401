//! What the functions on snapshots must leave where the caller's own stood, and the number that they must answer. A refusal is that number,
//! and leaves everything as it was.

use vocabulary::answer::{DONE, NO};
use vocabulary::layout::{self, ROW};
use vocabulary::peer::*;

pub fn by_write(expected: Result<&[u8], u32>, output: &mut [u8], length: &mut u64) -> u32 {
    match expected {
        Ok(snapshot) => {
            output[..snapshot.len()].copy_from_slice(snapshot);
            *length = snapshot.len() as u64;
            DONE
        }
        Err(refusal) => refusal,
    }
}

/// The rows, zeros in the limit's other places, and every further byte as it was.
pub fn by_read(expected: &Result<PeerState, u32>, record: &mut Record, table: &mut [u8]) -> u32 {
    match expected {
        Ok(state) => {
            *record = Record::of(state);
            table[..ROW * state.settings.row_limit() as usize].fill(0);
            layout::lay(table, 0, state);
            DONE
        }
        Err(refusal) => *refusal,
    }
}

pub fn by_place(expected: Result<[u64; 2], u32>, place: &mut [u64; 2]) -> u32 {
    match expected {
        Ok(found) => {
            *place = found;
            DONE
        }
        Err(refusal) => refusal,
    }
}

pub fn by_row(expected: Result<Option<(Row, u64)>, u32>, key: &mut Key, numbers: &mut [u64; 12]) -> u32 {
    match expected {
        Ok(Some((row, next))) => {
            *key = row.key;
            numbers[..11].copy_from_slice(&row.numbers);
            numbers[11] = next;
            DONE
        }
        Ok(None) => NO,
        Err(refusal) => refusal,
    }
}
