//! Traces on peers: settings, a start (fresh or any sound state), and calls that look at the state before them.

use super::{around, CORNERS, SHORT_CORNERS};
use crate::dice::Dice;
use crate::trace::{Kind, PeerStart, Trace};
use vocabulary::peer::*;
use vocabulary::Words;

/// How the clock moves between calls.
#[derive(Clone, Copy)]
enum Clock {
    Stands,
    /// By up to so many milliseconds.
    Runs(u64),
    /// By whole intervals.
    ByIntervals,
    /// By about 2^32 intervals.
    Jumps,
}

pub struct Plan {
    clock: Clock,
    now: u64,
    goes_back: bool,
    keys: u64,
    /// Hundredths of the calls that aim at the state.
    aims: u64,
    /// Hundredths of the admits that ask for more than is left.
    greed: u64,
    settings: Settings,
}

/// A trace without calls, how many it should have, and the plan that makes them.
pub fn begin(dice: &mut Dice) -> (Trace, usize, Plan) {
    let large = dice.chance(2);
    let limit = if large {
        1_024
    } else {
        dice.pick(&[0, 1, 1, 2, 2, 2, 3, 3, 3, 3, 5, 16])
    };
    let settings = settings(dice, limit);
    let now = match dice.below(10) {
        0..=4 => dice.between(0, 2_000),
        5..=7 => dice.between(1_700_000_000_000, 1_800_000_000_000),
        8 => u64::MAX - dice.below(3_000),
        _ => dice.any_width(),
    };
    let keys = key_pool(dice, limit);
    let plan = Plan {
        clock: clock(dice, &settings),
        now,
        goes_back: dice.chance(40),
        keys: keys.len() as u64,
        aims: dice.pick(&[5, 20, 45]),
        greed: dice.pick(&[3, 15, 40]),
        settings,
    };
    let mut start = PeerStart {
        settings: settings.words(),
        spare: dice.pick(&[0, 0, 1, 120, 121, 300]),
        filler: if dice.chance(70) { dice.roll() } else { 0 },
        ..PeerStart::default()
    };
    if dice.chance(if large { 80 } else { 40 }) {
        fill(dice, &plan, &mut start, large);
    }
    let mut trace = Trace::of_calls(Kind::Peers, Vec::new());
    (trace.keys, trace.start) = (keys, start);
    let length = if large {
        dice.between(20, 60)
    } else {
        dice.between(10, 400)
    };
    (trace, length as usize, plan)
}

/// Small settings that make every answer likely, some with one limit off, some at corners, some the defaults.
fn settings(dice: &mut Dice, limit: u64) -> Settings {
    let mut words = [
        dice.between(1, 12),
        dice.between(1, 4),
        dice.pick(&[1, 7, 125, 500, 999, 1_000, 1_001, 4_000, 20_000]),
        dice.pick(&[1, 2, 30, 100, 400]),
        dice.between(1, 4),
        dice.pick(&[0, 1, 5, 20, 20, 60, 60, 200]),
        limit,
        dice.between(1, 6),
        dice.pick(&[1, 20, 100, 300, 1_000]),
    ];
    match dice.below(100) {
        0..=24 => {
            let off = dice.below(9) as usize;
            if off != 6 {
                words[off] = 0;
            }
        }
        25..=39 => {
            for (place, word) in words.iter_mut().enumerate() {
                if place != 6 && dice.chance(50) {
                    let short = matches!(place, 1 | 4 | 7);
                    *word = if short {
                        dice.pick(&SHORT_CORNERS)
                    } else {
                        dice.pick(&CORNERS)
                    };
                }
            }
        }
        40..=49 => words = [5, 400, 1_048_576, 4_194_304, 20, 600_000, limit, 4_096, 33_554_432],
        50..=64 => words[7] = 0,
        _ => {}
    }
    Settings::from_words(&words).expect("corners fit their fields")
}

fn clock(dice: &mut Dice, settings: &Settings) -> Clock {
    match dice.below(10) {
        0 => Clock::Stands,
        1..=4 => Clock::Runs(dice.pick(&[1, 2, 5, 30])),
        5 | 6 => Clock::Runs(settings.ban_duration.clamp(1, 1_000_000)),
        7 | 8 => Clock::ByIntervals,
        _ => Clock::Jumps,
    }
}

/// As many keys as rows or somewhat more. Some differ in the first byte, some in the last, and most bytes are equal.
fn key_pool(dice: &mut Dice, limit: u64) -> Vec<Key> {
    let count = match limit {
        1_024 => 1_100,
        16 => dice.between(3, 24),
        // some traces without eviction, so that lives are long
        _ => limit.max(1) + dice.pick(&[0, 1, 1, 2, 3]),
    };
    let style = dice.below(4);
    let mut keys: Vec<Key> = (0..count)
        .map(|n| {
            let mut key = [dice.pick(&[0, 2, 0x7f, 0x80, 0xff]); 33];
            match (style, n < 250) {
                (0, true) => key = [n as u8 + 2; 33],
                (1, true) => key = with_last([2; 33], n as u8),
                (2, true) => key[dice.below(33) as usize] = dice.roll() as u8,
                _ => key.fill_with(|| dice.roll() as u8),
            }
            key
        })
        .collect();
    keys.sort();
    keys.dedup();
    // Not in their order, so that the table doesn't simply grow at its end.
    for at in (1..keys.len()).rev() {
        keys.swap(at, dice.below(at as u64 + 1) as usize);
    }
    keys
}

fn with_last(mut key: Key, byte: u8) -> Key {
    key[32] = byte;
    key
}

/// Any sound state: rows near the clock or at corners, in-flight numbers within the ceiling.
fn fill(dice: &mut Dice, plan: &Plan, start: &mut PeerStart, large: bool) {
    let s = &plan.settings;
    let most = s.row_limit().min(plan.keys);
    let rows = match dice.below(3) {
        _ if large => most - dice.below(3),
        0 => dice.below(most + 1),
        _ => most,
    };
    let base = plan.now;
    let all_banned = dice.chance(15);
    for place in 0..rows {
        let near = |dice: &mut Dice| time_near(dice, base, s.ban_duration);
        let banned = all_banned || dice.chance(25);
        let numbers = [
            up_to(dice, s.burst.into()),
            last_refill(dice, base, s.interval),
            up_to(dice, s.burst_bytes),
            near(dice),
            count(dice, s.threshold),
            near(dice),
            count(dice, s.threshold),
            near(dice),
            banned.into(),
            if banned { near(dice) } else { 0 },
            if dice.chance(30) { base } else { near(dice) },
        ];
        start.rows.push((place as usize, numbers));
    }
    let (messages, bytes) = if s.unlimited() {
        (u32::MAX.into(), u64::MAX)
    } else {
        (s.max_messages.into(), s.max_bytes)
    };
    start.in_flight = match dice.below(4) {
        0 => [messages, bytes],
        1 => [up_to(dice, messages), up_to(dice, bytes)],
        2 => [messages / 2, bytes / 2],
        _ => [0, 0],
    };
}

pub(super) fn up_to(dice: &mut Dice, most: u64) -> u64 {
    match dice.below(4) {
        0 => 0,
        1 => most,
        2 => most.saturating_sub(1),
        _ => dice.below(most.saturating_add(1).max(1)),
    }
}

fn count(dice: &mut Dice, threshold: u32) -> u64 {
    let threshold = u64::from(threshold);
    match dice.below(8) {
        0..=2 => 0,
        3 => 1,
        4 | 5 => threshold.saturating_sub(1),
        6 => threshold,
        _ => dice.pick(&SHORT_CORNERS),
    }
}

pub(super) fn time_near(dice: &mut Dice, base: u64, duration: u64) -> u64 {
    match dice.below(8) {
        0 => base,
        1 => base.saturating_sub(duration),
        2 => base.saturating_add(duration),
        3 => base.saturating_sub(dice.below(50)),
        4 | 5 => base.saturating_add(dice.below(50)),
        6 => dice.pick(&CORNERS),
        _ => dice.between(base.saturating_sub(duration), base.saturating_add(duration)),
    }
}

/// Some intervals before the base, or some 2^32 of them.
pub(super) fn last_refill(dice: &mut Dice, base: u64, interval: u64) -> u64 {
    let back = match dice.below(4) {
        0 => interval.saturating_mul(dice.below(6)),
        1 => interval.saturating_mul(1 << 32),
        2 => return time_near(dice, base, interval),
        _ => interval.saturating_mul((1 << 32) - 1),
    };
    base.saturating_sub(dice.near(back))
}

impl Plan {
    pub fn next(&mut self, dice: &mut Dice, state: &PeerState, keys: &[Key]) -> Words {
        let operation = self.operation(dice, state);
        let place = self.key(dice, state, keys);
        let row = state.row(&keys[place as usize]);
        let now = self.time(dice, row);
        let bytes = match operation {
            PeerOperation::Admit => self.size(dice, state, row, now),
            PeerOperation::ReleaseIngress => self.released(dice, state),
            _ => 0,
        };
        [operation as u64, place, bytes, now, 0, 0, 0, 0]
    }

    /// Mostly admits; more releases the fuller the ceiling is, so that it isn't the only thing tried.
    fn operation(&self, dice: &mut Dice, state: &PeerState) -> PeerOperation {
        let s = &self.settings;
        let full = !s.unlimited()
            && (state.in_flight_messages >= s.max_messages
                || state.in_flight_bytes / 4 >= s.max_bytes.div_ceil(4).div_ceil(2));
        if full && dice.chance(45) || s.unlimited() && dice.chance(8) {
            return PeerOperation::ReleaseIngress;
        }
        match dice.below(100) {
            0..=64 => PeerOperation::Admit,
            65..=78 => PeerOperation::RecordInvalid,
            79..=84 => PeerOperation::IsBanned,
            85..=90 => PeerOperation::OnDisconnected,
            91..=94 => PeerOperation::ReleaseIngress,
            95 | 96 => PeerOperation::InFlight,
            _ => PeerOperation::HeldTime,
        }
    }

    /// Any peer, or one that has a row.
    fn key(&self, dice: &mut Dice, state: &PeerState, keys: &[Key]) -> u64 {
        if !state.rows.is_empty() && keys.len() < 40 && dice.chance(40) {
            let row = &state.rows[dice.below(state.rows.len() as u64) as usize];
            if let Some(place) = keys.iter().position(|key| *key == row.key) {
                return place as u64;
            }
        }
        dice.below(self.keys)
    }

    fn time(&mut self, dice: &mut Dice, row: Option<&Row>) -> u64 {
        if self.goes_back && dice.chance(8) {
            // A step back of the clock, or one call that comes late.
            let back = match dice.below(4) {
                0 => self.settings.interval,
                1 => self.settings.ban_duration,
                _ => dice.below(40),
            };
            let earlier = self.now.saturating_sub(back);
            if dice.chance(50) {
                self.now = earlier;
            }
            return earlier;
        }
        let moved = match (row, dice.chance(self.aims)) {
            (Some(row), true) => self.aimed(dice, row),
            _ => self.moved(dice),
        };
        if moved >= self.now || self.goes_back {
            let far = moved.saturating_sub(self.now) > 1 << 40;
            if !far || dice.chance(30) {
                self.now = moved;
            }
            return moved;
        }
        self.now
    }

    fn moved(&self, dice: &mut Dice) -> u64 {
        let interval = self.settings.interval;
        let step = match self.clock {
            Clock::Stands if dice.chance(97) => 0,
            Clock::Stands => interval,
            Clock::Runs(most) => dice.below(most + 1),
            Clock::ByIntervals => interval.saturating_mul(dice.below(4)),
            Clock::Jumps if dice.chance(80) => dice.below(4),
            Clock::Jumps => {
                let jump = interval.saturating_mul(1 << 32);
                dice.near(jump)
            }
        };
        self.now.saturating_add(step)
    }

    /// At a moment that means something to the row.
    fn aimed(&self, dice: &mut Dice, row: &Row) -> u64 {
        let s = &self.settings;
        let n = &row.numbers;
        if n[BAN_MARK] == 1 && dice.chance(60) {
            return dice.near(n[BAN_END]);
        }
        match dice.below(6) {
            0 => around(dice, n[RATE_START], s.ban_duration),
            1 => around(dice, n[INVALID_START], s.ban_duration),
            2 => {
                let intervals = dice.between(1, 3);
                around(dice, n[MESSAGES_REFILL], s.interval.saturating_mul(intervals))
            }
            3 => around(dice, n[MESSAGES_REFILL], s.interval.saturating_mul(1 << 32)),
            4 => n[LAST_USED],
            _ => dice.near(n[BYTES_REFILL]),
        }
    }

    /// Mostly well within what is left; sometimes all of it, one more, or far more.
    fn size(&self, dice: &mut Dice, state: &PeerState, row: Option<&Row>, now: u64) -> u64 {
        let s = &self.settings;
        let left = row.map_or(s.burst_bytes, |row| {
            let elapsed = now.saturating_sub(row.numbers[BYTES_REFILL]);
            let earned = u128::from(elapsed) * u128::from(s.rate) / 1_000;
            let full = earned.saturating_add(row.numbers[BYTES].into());
            full.min(s.burst_bytes.into()) as u64
        });
        let room = s.max_bytes.saturating_sub(state.in_flight_bytes);
        if dice.chance(self.greed) {
            return match dice.below(6) {
                0..=2 => dice.near(left),
                3 => dice.near(room),
                4 => dice.pick(&CORNERS),
                _ => dice.any_width(),
            };
        }
        let most = if s.unlimited() { left } else { left.min(room) };
        let most = if s.rate == 0 || s.burst_bytes == 0 { room } else { most };
        let part = most / dice.pick(&[1, 4, 16]);
        dice.below(part.saturating_add(1).max(1))
    }

    /// Mostly what an average message holds.
    fn released(&self, dice: &mut Dice, state: &PeerState) -> u64 {
        let average = state.in_flight_bytes / u64::from(state.in_flight_messages).max(1);
        match dice.below(10) {
            0..=5 => average,
            6 => state.in_flight_bytes,
            7 => dice.near(state.in_flight_bytes),
            8 => dice.pick(&CORNERS),
            _ => dice.below(average.saturating_add(1).max(1)),
        }
    }
}
