//! Outbound messages: settings of both limits, the global bucket, rows, sizes, and the moments at which a bucket turns.

use crate::calls::buckets::{amount, rate};
use crate::calls::peers::time_near;
use crate::calls::{around, CORNERS};
use crate::dice::Dice;
use crate::gossip::start::GossipStart;
use vocabulary::gossip::*;
use vocabulary::{Amount, ByteBucket, GossipRow, GossipState};

/// Small limits that make every answer likely, one of them off, corners, or the defaults; and a global bucket of any sound amount.
pub fn settings(dice: &mut Dice, start: &mut GossipStart, now: u64) {
    let [mut global, mut peer] = [0; 2].map(|_| {
        let rate = dice.pick(&[1, 3, 125, 999, 1_000, 1_001, 20_000]);
        [rate, dice.pick(&[1, 2, 30, 100, 400])]
    });
    match dice.below(20) {
        0 | 1 => peer[dice.below(2) as usize] = 0,
        2 | 3 => global[dice.below(2) as usize] = 0,
        4 => (global, peer) = ([1_024_000, 2_048_000], [51_200, 102_400]),
        5..=8 => {
            for number in global.iter_mut().chain(&mut peer) {
                *number = if dice.chance(50) { rate(dice) } else { *number };
            }
        }
        // so that the peer's limit says no more often
        9..=13 => global[1] = global[1].saturating_mul(100),
        _ => {}
    }
    [start.longs[GLOBAL_RATE], start.longs[GLOBAL_BURST]] = global;
    [start.longs[PEER_RATE], start.longs[PEER_BURST]] = peer;
    start.longs[QUEUE_CAPACITY] = if dice.chance(50) { 1_024 } else { dice.pick(&CORNERS) };
    let fresh = dice.chance(30);
    let available = if fresh || dice.chance(50) {
        i128::from(global[1])
    } else {
        amount(dice, global[1])
    };
    let mut words = GossipWords::default();
    words.set_global(&ByteBucket {
        rate: global[0],
        burst: global[1],
        available: Amount::of(available),
        last_refill: if fresh { 0 } else { time_near(dice, now, 20) },
    });
    start.longs[GLOBAL_REFILL] = words.longs[GLOBAL_REFILL];
    for place in GLOBAL_SIGN..words.shorts.len() {
        start.shorts[place] = words.shorts[place].into();
    }
}

pub fn rows(dice: &mut Dice, start: &GossipStart, count: u64, now: u64) -> Vec<(usize, [u64; 4])> {
    let burst = start.longs[PEER_BURST];
    let row = |place: u64| {
        let available = if dice.chance(60) {
            amount(dice, burst)
        } else {
            i128::from(dice.below(burst.max(1)))
        };
        let [sign, low, high] = Amount::of(available).words();
        let refilled = if dice.chance(20) { 0 } else { time_near(dice, now, 20) };
        (place as usize, [sign, low, high, refilled])
    };
    (0..count).map(row).collect()
}

fn bucket_of(words: &GossipWords, row: Option<&GossipRow>) -> ByteBucket {
    let (rate, burst) = (words.longs[PEER_RATE], words.longs[PEER_BURST]);
    let fresh = Amount::plus(burst.into());
    ByteBucket {
        rate,
        burst,
        available: row.map_or(fresh, GossipRow::amount),
        last_refill: row.map_or(0, |row| row.numbers[GossipRow::OUTBOUND_REFILL]),
    }
}

/// What a bucket has left at a time; a debt counts as nothing.
fn left(bucket: &ByteBucket, now: u64) -> u64 {
    let earned = u128::from(now.saturating_sub(bucket.last_refill)) * u128::from(bucket.rate) / 1_000;
    let available = bucket.available.as_i128().unwrap_or(0).saturating_add(earned as i128);
    available.clamp(0, bucket.burst.into()) as u64
}

/// Mostly well within what is left; sometimes all of it, one more, as much as a burst, or anything.
pub fn size(dice: &mut Dice, state: &GossipState, row: Option<&GossipRow>, now: u64) -> u64 {
    let (global, peer) = (state.words.global(), bucket_of(&state.words, row));
    let lefts = [left(&global, now), left(&peer, now)];
    match dice.below(20) {
        0..=8 => {
            let most = lefts[0].min(lefts[1]) / dice.pick(&[1, 4, 16]);
            dice.below(most.saturating_add(1).max(1))
        }
        9..=11 => {
            let left = dice.pick(&lefts);
            dice.near(left)
        }
        12..=15 => {
            let burst = dice.pick(&[global.burst, peer.burst]);
            dice.near(burst)
        }
        16 => global.burst.max(peer.burst).saturating_add(dice.below(50)),
        17 => dice.any_width(),
        18 => {
            let debt = dice.pick(&[&global, &peer]).available.magnitude.min(u64::MAX.into());
            dice.near(debt as u64)
        }
        _ => dice.pick(&CORNERS),
    }
}

/// Around the last refill, about a byte later, or where a debt is paid.
pub fn moment(dice: &mut Dice, words: &GossipWords, row: Option<&GossipRow>) -> u64 {
    let bucket = if dice.chance(40) {
        words.global()
    } else {
        bucket_of(words, row)
    };
    let owed = match bucket.available.negative {
        true => bucket.available.magnitude,
        false => 1,
    };
    let rate = u128::from(bucket.rate.max(1));
    let paid = owed.saturating_mul(1_000).div_ceil(rate).min(u64::MAX.into()) as u64;
    match dice.below(4) {
        0 => dice.near(bucket.last_refill),
        _ => around(dice, bucket.last_refill, paid),
    }
}
