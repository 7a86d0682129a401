//! A policy's rows as bytes: 121 a row (the key, then eleven little-endian numbers), ascending by key.

use crate::peer::{PeerState, Row};

pub const ROW: usize = 121;

pub fn put_row(place: &mut [u8], row: &Row) {
    place[..33].copy_from_slice(&row.key);
    for (at, number) in row.numbers.iter().enumerate() {
        place[33 + 8 * at..41 + 8 * at].copy_from_slice(&number.to_le_bytes());
    }
}

pub fn get_row(place: &[u8]) -> Row {
    let mut row = Row {
        key: place[..33].try_into().unwrap(),
        numbers: [0; 11],
    };
    for at in 0..11 {
        row.numbers[at] = u64::from_le_bytes(place[33 + 8 * at..41 + 8 * at].try_into().unwrap());
    }
    row
}

/// The table after a call: the new rows, zeros in the places freed at the end, and every other byte as it was.
pub fn lay(table: &mut [u8], rows_before: usize, state: &PeerState) {
    for (row, place) in state.rows.iter().zip(table.chunks_exact_mut(ROW)) {
        put_row(place, row);
    }
    if state.rows.len() < rows_before {
        table[ROW * state.rows.len()..ROW * rows_before].fill(0);
    }
}

pub fn rows_of(table: &[u8], count: usize) -> Vec<Row> {
    table.chunks_exact(ROW).take(count).map(get_row).collect()
}
