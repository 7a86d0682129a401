//! Traces on the gossip policy: settings, a start (any sound state, or one that a making call makes), and calls that look at the state
//! before them.

mod bans;
mod keys;
mod limiter;
mod outbound;

use crate::dice::Dice;
use crate::gossip::start::GossipStart;
use crate::trace::{Kind, Trace};
use vocabulary::gossip::*;
use vocabulary::{GossipRow, GossipState, LongKey, Subject, Words};

/// How the clock moves between calls.
#[derive(Clone, Copy)]
enum Clock {
    Stands,
    /// By up to so many milliseconds.
    Runs(u64),
    /// By whole durations or intervals.
    ByPeriods,
    /// By about 2^32 of them.
    Jumps,
}

pub struct Plan {
    subject: Subject,
    clock: Clock,
    now: u64,
    goes_back: bool,
    /// Hundredths of the calls that aim at the state.
    aims: u64,
    /// Whether the first call makes the state.
    makes_first: bool,
    /// Whether the ban table is full of live rows and most calls need room in it.
    crowded: bool,
}

/// A trace without calls, how many it should have, and the plan that makes them.
pub fn begin(dice: &mut Dice, kind: Kind, subject: Subject) -> (Trace, usize, Plan) {
    let large = dice.chance(if subject == Subject::Gossip { 4 } else { 2 });
    let limit = if large {
        1_024
    } else {
        dice.pick(&[0, 1, 1, 2, 2, 2, 3, 3, 3, 3, 16])
    };
    let now = match dice.below(10) {
        0..=4 => dice.between(0, 2_000),
        5..=7 => dice.between(1_700_000_000_000, 1_800_000_000_000),
        8 => u64::MAX - dice.below(3_000),
        _ => dice.any_width(),
    };
    let crowded = subject != Subject::Limiter && !large && dice.chance(30);
    let mut start = GossipStart {
        keys: keys::pool(dice, subject, limit, crowded),
        filler: if dice.chance(70) { dice.roll() } else { 0 },
        ..GossipStart::default()
    };
    start.longs[LIMIT] = limit;
    match subject {
        Subject::Limiter => limiter::settings(dice, &mut start),
        _ => bans::settings(dice, &mut start, crowded),
    }
    if subject == Subject::Gossip {
        outbound::settings(dice, &mut start, now);
    }
    let makes_first = !large && !crowded && dice.chance(35);
    let plan = Plan {
        subject,
        clock: if crowded {
            Clock::Runs(1)
        } else {
            clock(dice, start.longs[PERIOD])
        },
        now,
        goes_back: dice.chance(40),
        aims: dice.pick(&[5, 20, 45]),
        makes_first,
        crowded,
    };
    for table in 0..subject.shapes().len() {
        let made = makes_first && subject == Subject::Gossip;
        start.spare[table] = spare(dice, subject, table, limit, made);
    }
    if makes_first || crowded || dice.chance(if large { 90 } else { 70 }) {
        fill(dice, subject, now, &mut start, large || crowded);
    }
    let mut trace = Trace::of_calls(kind, Vec::new());
    trace.gossip = start;
    let length = if large {
        dice.between(20, 60)
    } else {
        dice.between(10, 300)
    };
    (trace, length as usize, plan)
}

/// Some bytes more than the rows need; sometimes as many as a making of 1,024 rows needs (mostly where that comes), or one less.
fn spare(dice: &mut Dice, subject: Subject, table: usize, limit: u64, made: bool) -> u64 {
    let width = subject.shapes()[table].width() as u64;
    let few = dice.pick(&[0, 0, 1, width - 1, width, 300]);
    let missing = if table == 0 {
        width * (MOST_ROWS - limit.max(1))
    } else {
        0
    };
    match dice.below(10) {
        0 | 1 => missing + few,
        2 => missing.saturating_sub(1),
        _ if made => missing + few,
        _ => few,
    }
}

fn clock(dice: &mut Dice, period: u64) -> Clock {
    match dice.below(10) {
        0..=2 => Clock::Stands,
        3 | 4 => Clock::Runs(dice.pick(&[1, 2, 5, 30])),
        5 | 6 => Clock::Runs(period.clamp(1, 1_000_000)),
        7 | 8 => Clock::ByPeriods,
        _ => Clock::Jumps,
    }
}

/// Any sound state: rows near the clock or at corners.
fn fill(dice: &mut Dice, subject: Subject, now: u64, start: &mut GossipStart, full: bool) {
    for table in 0..subject.shapes().len() {
        let limit = if table == 0 {
            start.longs[LIMIT].max(1)
        } else {
            MOST_ROWS
        };
        let most = limit.min(start.keys.len() as u64);
        let count = match dice.below(3) {
            _ if full => most.saturating_sub(dice.pick(&[0, 0, 0, 1, 2])),
            0 => dice.below(most + 1),
            _ => most,
        };
        let rows = match (subject, table) {
            (Subject::Limiter, _) => limiter::rows(dice, start, count, now),
            (_, 0) => bans::rows(dice, start, count, now),
            _ => outbound::rows(dice, start, count, now),
        };
        start.rows[table] = rows;
    }
}

impl Plan {
    pub fn next(&mut self, dice: &mut Dice, state: &GossipState, keys: &[LongKey]) -> Words {
        let crowds = self.crowded && dice.chance(50);
        let operation = if crowds { 3 } else { self.operation(dice) };
        let table = usize::from(self.subject == Subject::Gossip && (6..=11).contains(&operation));
        let place = if crowds {
            absent(dice, state, keys)
        } else {
            key(dice, state, table, keys)
        };
        let row = state.row(table, &keys[place as usize]).copied();
        let now = match self.ban_end(dice, state, row.as_ref(), operation, crowds) {
            Some(end) if dice.chance(40) => {
                self.now = dice.near(end).max(self.now);
                self.now
            }
            _ => self.time(dice, state, table, row.as_ref()),
        };
        let violation = match self.subject {
            Subject::Limiter => dice.pick(&[0, 1, 2, u64::from(u32::MAX)]),
            _ => dice.pick(&[0, 1, 2, 2, 2]),
        };
        let bytes = if self.subject == Subject::Gossip {
            outbound::size(dice, state, row.as_ref(), now)
        } else {
            0
        };
        [operation - 1, place, violation, bytes, now, 0, dice.roll(), 0]
    }

    /// The end that is soon to come of the ban that is asked about, or of any ban where room is needed.
    fn ban_end(
        &self,
        dice: &mut Dice,
        state: &GossipState,
        row: Option<&GossipRow>,
        operation: u64,
        crowds: bool,
    ) -> Option<u64> {
        let rows = &state.rows[0];
        if crowds && !rows.is_empty() {
            let any = &rows[dice.below(rows.len() as u64) as usize];
            return bans::end_within(any, self.now, 50);
        }
        let row = row.filter(|_| operation == 4 && self.subject != Subject::Limiter)?;
        bans::end_within(row, self.now, 1 << 20)
    }

    /// The number of an operation; rarely a making in the middle.
    fn operation(&mut self, dice: &mut Dice) -> u64 {
        let first = std::mem::take(&mut self.makes_first);
        if first || dice.chance(1) {
            return if dice.chance(25) { 1 } else { 2 };
        }
        match self.subject {
            Subject::Bans => match dice.below(100) {
                0..=54 => 3,
                55..=74 => 4,
                75..=86 => 5,
                87..=93 => 6,
                _ => 7,
            },
            Subject::Limiter => match dice.below(100) {
                0..=94 => 3,
                _ => 4,
            },
            Subject::Gossip => match dice.below(100) {
                0..=11 => 3,
                12..=16 => 4,
                17 | 18 => 5,
                19..=41 => 6,
                42..=51 => 7,
                52..=56 => 8,
                57..=72 => 9,
                73..=81 => 10,
                82..=91 => 11,
                92..=94 => 12,
                95 | 96 => 13,
                97 | 98 => 14,
                _ => 15,
            },
        }
    }

    fn time(&mut self, dice: &mut Dice, state: &GossipState, table: usize, row: Option<&GossipRow>) -> u64 {
        let period = state.words.longs[PERIOD];
        if self.goes_back && dice.chance(8) {
            // A step back of the clock, or one call that comes late.
            let back = if dice.chance(40) { period } else { dice.below(40) };
            let earlier = self.now.saturating_sub(back);
            if dice.chance(50) {
                self.now = earlier;
            }
            return earlier;
        }
        let moved = if dice.chance(self.aims) {
            self.aimed(dice, state, table, row)
        } else {
            self.moved(dice, period)
        };
        if moved >= self.now || self.goes_back {
            let far = moved.saturating_sub(self.now) > 1 << 40;
            if !far || dice.chance(30) {
                self.now = moved;
            }
            return moved;
        }
        self.now
    }

    fn moved(&self, dice: &mut Dice, period: u64) -> u64 {
        let step = match self.clock {
            Clock::Stands if dice.chance(97) => 0,
            Clock::Stands => period,
            Clock::Runs(most) => dice.below(most + 1),
            Clock::ByPeriods => period.saturating_mul(dice.below(4)),
            Clock::Jumps if dice.chance(80) => dice.below(4),
            Clock::Jumps => {
                let jump = period.saturating_mul(1 << 32);
                dice.near(jump)
            }
        };
        self.now.saturating_add(step)
    }

    /// At a moment that means something to the call's own row, or to any row of its table.
    fn aimed(&self, dice: &mut Dice, state: &GossipState, table: usize, row: Option<&GossipRow>) -> u64 {
        let rows = &state.rows[table];
        let any = (!rows.is_empty()).then(|| &rows[dice.below(rows.len() as u64) as usize]);
        let row = if dice.chance(70) { row.or(any) } else { any };
        match (self.subject, table, row) {
            (_, 1, row) => outbound::moment(dice, &state.words, row),
            (Subject::Limiter, _, Some(row)) => limiter::moment(dice, &state.words, row),
            (_, _, Some(row)) => bans::moment(dice, &state.words, row),
            _ => self.moved(dice, state.words.longs[PERIOD]),
        }
    }
}

/// A peer without a ban row, if the first that is looked for has none.
fn absent(dice: &mut Dice, state: &GossipState, keys: &[LongKey]) -> u64 {
    let first = dice.below(keys.len() as u64);
    let mut places = (first..keys.len() as u64).chain(0..first);
    let place = places.find(|place| state.row(0, &keys[*place as usize]).is_none());
    place.unwrap_or(first)
}

/// Any peer, or one that has a row; of many peers sometimes one of the last, which mostly have none.
fn key(dice: &mut Dice, state: &GossipState, table: usize, keys: &[LongKey]) -> u64 {
    let rows = &state.rows[table];
    if keys.len() > 1_024 && dice.chance(30) {
        return dice.between(1_022, keys.len() as u64 - 1);
    }
    if !rows.is_empty() && keys.len() < 40 && dice.chance(40) {
        let row = &rows[dice.below(rows.len() as u64) as usize];
        if let Some(place) = keys.iter().position(|key| *key == row.key) {
            return place as u64;
        }
    }
    dice.below(keys.len() as u64)
}
