//! Rows of the three tables and their bytes: the key, then little-endian numbers, ascending by key.

use crate::{Amount, Key};

/// A key with zeros behind it where it is shorter: a peer's 33 bytes, or a limiter's 70 (peer, out point, side).
pub type LongKey = [u8; 70];

/// The place of the limiter's side among a key's bytes: 0 or 1.
const SIDE: usize = 69;

/// How many bytes of a row are its key, and how many numbers follow.
#[derive(Clone, Copy, Debug, PartialEq, Eq)]
pub struct Shape {
    pub key: usize,
    pub numbers: usize,
}

/// Score, ban mark, ban end, last update.
pub const BAN_ROW: Shape = Shape { key: 33, numbers: 4 };
/// Available, last refill, last used.
pub const LIMITER_ROW: Shape = Shape { key: 70, numbers: 3 };
/// Sign, low and high half of the magnitude, last refill.
pub const OUTBOUND_ROW: Shape = Shape { key: 33, numbers: 4 };

#[derive(Clone, Copy, Debug, PartialEq, Eq)]
pub struct GossipRow {
    pub key: LongKey,
    /// As many as the table's shape says; the others are 0.
    pub numbers: [u64; 4],
}

impl GossipRow {
    /// The ban row's numbers by name.
    pub const SCORE: usize = 0;
    pub const MARK: usize = 1;
    pub const END: usize = 2;
    pub const UPDATED: usize = 3;
    /// The limiter's.
    pub const AVAILABLE: usize = 0;
    pub const REFILL: usize = 1;
    pub const USED: usize = 2;
    /// The outbound row's.
    pub const SIGN: usize = 0;
    pub const OUTBOUND_REFILL: usize = 3;

    pub fn of_peer(key: &Key, numbers: [u64; 4]) -> Self {
        Self {
            key: long(key),
            numbers,
        }
    }

    pub fn peer(&self) -> Key {
        peer(&self.key)
    }

    /// An outbound row's amount; a sign word above 1 is no sign.
    pub fn amount(&self) -> Amount {
        Amount::from_words(&self.numbers[..3])
    }
}

pub fn long(key: &Key) -> LongKey {
    let mut long = [0; 70];
    long[..33].copy_from_slice(key);
    long
}

pub fn peer(key: &LongKey) -> Key {
    key[..33].try_into().unwrap()
}

pub fn outpoint(key: &LongKey) -> [u8; 36] {
    key[33..SIDE].try_into().unwrap()
}

impl Shape {
    pub const fn width(&self) -> usize {
        self.key + 8 * self.numbers
    }

    pub fn put(&self, place: &mut [u8], row: &GossipRow) {
        place[..self.key].copy_from_slice(&row.key[..self.key]);
        for (word, number) in place[self.key..].chunks_exact_mut(8).zip(row.numbers) {
            word.copy_from_slice(&number.to_le_bytes());
        }
    }

    pub fn get(&self, place: &[u8]) -> GossipRow {
        let mut row = GossipRow {
            key: [0; 70],
            numbers: [0; 4],
        };
        row.key[..self.key].copy_from_slice(&place[..self.key]);
        let words = place[self.key..self.width()].chunks_exact(8);
        for (number, word) in row.numbers.iter_mut().zip(words) {
            *number = u64::from_le_bytes(word.try_into().unwrap());
        }
        row
    }

    /// The table after a call: the new rows, zeros in the places freed at the end, and every other byte as it was.
    pub fn lay(&self, table: &mut [u8], rows_before: usize, rows: &[GossipRow]) {
        for (row, place) in rows.iter().zip(table.chunks_exact_mut(self.width())) {
            self.put(place, row);
        }
        if rows.len() < rows_before {
            table[self.width() * rows.len()..self.width() * rows_before].fill(0);
        }
    }

    pub fn rows_of(&self, table: &[u8], count: usize) -> Vec<GossipRow> {
        let places = table.chunks_exact(self.width());
        places.take(count).map(|place| self.get(place)).collect()
    }
}
