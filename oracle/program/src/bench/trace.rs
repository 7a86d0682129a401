//! Traces of admits, made up from a seed. Every event must be an Allow: a trace's pace sees to it that no limit runs short.

use checks::dice::Dice;
use vocabulary::{Key, PeerCall, PeerOperation};

pub const SEED: u64 = 1;
pub const FIRST_TIME: u64 = 1_700_000_000_000;
/// The most rows of a table.
pub const FULL: usize = 1_024;
/// The tables that are looked at closely.
pub const SMALL_AND_FULL: [usize; 2] = [16, FULL];

pub struct Event {
    pub key: Key,
    pub bytes: u64,
    pub now: u64,
}

impl Event {
    /// A call on the event's peer at its time.
    pub fn call(&self, operation: PeerOperation) -> PeerCall {
        PeerCall {
            operation,
            key: self.key,
            bytes: self.bytes,
            now: self.now,
        }
    }
}

/// When the event of a number comes, counted from the first one's time.
pub type Pace = fn(u64) -> u64;

/// Within every limit from 16 peers on: each then has 188 messages a second, and gets 200.
pub const THREE_A_MILLISECOND: Pace = |number| number / 3;
/// A single peer gets its messages back as fast.
pub const EVERY_5_MILLISECONDS: Pace = |number| 5 * number;

/// Makes events up, each later than the one before it by the pace.
pub struct Maker {
    dice: Dice,
    pace: Pace,
    made: u64,
}

impl Maker {
    pub fn new(pace: Pace) -> Self {
        Self {
            dice: Dice::new(SEED),
            pace,
            made: 0,
        }
    }

    pub fn keys(&mut self, count: usize) -> Vec<Key> {
        let mut key = || std::array::from_fn(|_| self.dice.roll() as u8);
        (0..count).map(|_| key()).collect()
    }

    /// An event of each, in turn.
    pub fn of_each(&mut self, keys: &[Key]) -> Vec<Event> {
        keys.iter().map(|key| self.event(*key)).collect()
    }

    /// Events spread evenly over the peers.
    pub fn of_any(&mut self, keys: &[Key], count: usize) -> Vec<Event> {
        let mut any = || {
            let key = self.dice.pick(keys);
            self.event(key)
        };
        (0..count).map(|_| any()).collect()
    }

    fn event(&mut self, key: Key) -> Event {
        let now = FIRST_TIME + (self.pace)(self.made);
        self.made += 1;
        let bytes = self.dice.between(100, 499);
        Event { key, bytes, now }
    }
}

pub struct Trace {
    /// Admits before the clock runs.
    pub opening: Vec<Event>,
    pub events: Vec<Event>,
    /// How many rows there must be at the end.
    pub rows: usize,
}

impl Trace {
    /// Every peer has its row before the clock runs.
    pub fn of_known(rows: usize, count: usize, pace: Pace) -> Self {
        let mut maker = Maker::new(pace);
        let keys = maker.keys(rows);
        Self {
            opening: maker.of_each(&keys),
            events: maker.of_any(&keys, count),
            rows,
        }
    }
}
