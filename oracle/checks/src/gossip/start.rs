//! Where a trace on gossip begins: any sound state (docs/REFERENCE.md, "Sound"), judged here apart from any port, and the lent tables.

use vocabulary::gossip::*;
use vocabulary::{GossipRow, GossipState, GossipWords, LongKey, Subject};

#[derive(Clone, Debug, Default)]
pub struct GossipStart {
    pub keys: Vec<LongKey>,
    /// As they cross, but for the counts of rows.
    pub longs: [u64; 10],
    pub shorts: [u64; 6],
    /// Of each table: the place of a key, and the row's numbers.
    pub rows: [Vec<(usize, [u64; 4])>; 2],
    /// Bytes of each table beyond the limit's rows.
    pub spare: [u64; 2],
    /// What places that hold nothing are filled with (0: zeros).
    pub filler: u64,
}

impl GossipStart {
    /// The state, if it is sound.
    pub fn state(&self, subject: Subject) -> Option<GossipState> {
        let mut words = GossipWords {
            longs: self.longs,
            shorts: [0; 6],
        };
        for (short, number) in words.shorts.iter_mut().zip(self.shorts) {
            *short = number.try_into().ok()?;
        }
        let mut state = GossipState {
            words,
            ..GossipState::default()
        };
        for (rows, started) in state.rows.iter_mut().zip(&self.rows) {
            for (place, numbers) in started {
                let key = *self.keys.get(*place)?;
                rows.push(GossipRow { key, numbers: *numbers });
            }
        }
        state.put_in_order();
        is_sound(subject, &state).then_some(state)
    }

    /// How many bytes of each table are lent.
    pub fn lengths(&self, subject: Subject, state: &GossipState) -> [usize; 2] {
        let mut lengths = [0; 2];
        for (table, shape) in subject.shapes().iter().enumerate() {
            lengths[table] = shape.width() * state.words.row_limit(table) as usize + self.spare[table] as usize;
        }
        lengths
    }
}

fn is_sound(subject: Subject, state: &GossipState) -> bool {
    let words = &state.words;
    let [first, second] = &state.rows;
    let in_order = |rows: &[GossipRow]| rows.windows(2).all(|pair| pair[0].key < pair[1].key);
    let fits = |table: usize| state.rows[table].len() as u64 <= words.row_limit(table);
    let row_is_sound = |row: &GossipRow| match subject {
        Subject::Limiter => row.numbers[GossipRow::AVAILABLE] <= words.shorts[MOST].into() && row.key[69] < 2,
        _ => ban_row_is_sound(row),
    };
    words.longs[LIMIT] <= MOST_ROWS
        && fits(0)
        && first.iter().all(row_is_sound)
        && in_order(first)
        && match subject {
            Subject::Gossip => {
                let burst = words.longs[PEER_BURST];
                let sound = |row: &GossipRow| row.numbers[GossipRow::SIGN] < 2 && amount_is_sound(&row.amount(), burst);
                let global = words.global();
                fits(1)
                    && words.shorts[GLOBAL_SIGN] < 2
                    && amount_is_sound(&global.available, global.burst)
                    && second.iter().all(sound)
                    && in_order(second)
            }
            _ => second.is_empty() && words.longs[ROWS + 1..] == [0; 7] && words.shorts[MOST + 1..] == [0; 5],
        }
}

fn ban_row_is_sound(row: &GossipRow) -> bool {
    let n = &row.numbers;
    n[GossipRow::SCORE] <= u32::MAX.into()
        && n[GossipRow::MARK] <= 1
        && (n[GossipRow::MARK] == 1 || n[GossipRow::END] == 0)
}

fn amount_is_sound(amount: &vocabulary::Amount, burst: u64) -> bool {
    amount.as_i128().is_some_and(|amount| amount <= i128::from(burst))
}
