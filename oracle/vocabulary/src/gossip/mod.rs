//! The gossip policy in plain numbers: the ban tracker, the limiter of channel updates, and the state that holds a tracker and the
//! outbound buckets. All three cross the C boundary as words and lent tables.

mod calls;
mod rows;
mod words;

pub use calls::{GossipCall, Reads, BANS_OPERATIONS, GOSSIP_OPERATIONS, LIMITER_OPERATIONS, NO_OPERATION};
pub use rows::{GossipRow, LongKey, Shape, BAN_ROW, LIMITER_ROW, OUTBOUND_ROW};
pub use words::*;

/// Which of the three a call is on: one C function each.
#[derive(Clone, Copy, Debug, PartialEq, Eq)]
pub enum Subject {
    Bans,
    Limiter,
    Gossip,
}

/// No limit of rows is above this one, and the outbound rows have no other.
pub const MOST_ROWS: u64 = 1_024;

impl Subject {
    /// The rows of each table that is lent.
    pub fn shapes(self) -> &'static [Shape] {
        match self {
            Self::Bans => &[BAN_ROW],
            Self::Limiter => &[LIMITER_ROW],
            Self::Gossip => &[BAN_ROW, OUTBOUND_ROW],
        }
    }

    /// The names of the operations, whose numbers begin at 1.
    pub fn operations(self) -> &'static [&'static str] {
        match self {
            Self::Bans => &BANS_OPERATIONS,
            Self::Limiter => &LIMITER_OPERATIONS,
            Self::Gossip => &GOSSIP_OPERATIONS,
        }
    }
}

/// A whole state; the rows of each table ascend by key, and their counts stand in the words too.
#[derive(Clone, Debug, Default, PartialEq, Eq)]
pub struct GossipState {
    pub words: GossipWords,
    pub rows: [Vec<GossipRow>; 2],
}

impl GossipState {
    pub fn row(&self, table: usize, key: &LongKey) -> Option<&GossipRow> {
        let found = self.rows[table].binary_search_by(|row| row.key.cmp(key));
        found.ok().map(|at| &self.rows[table][at])
    }

    /// Puts the rows in order and their counts into the words.
    pub fn put_in_order(&mut self) {
        for rows in &mut self.rows {
            rows.sort_unstable_by_key(|row| row.key);
        }
        self.words.longs[ROWS] = self.rows[0].len() as u64;
        self.words.longs[OUTBOUND_ROWS] = self.rows[1].len() as u64;
    }
}
