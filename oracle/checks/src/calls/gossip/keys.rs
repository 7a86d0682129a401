//! Keys of a trace: as many as rows or somewhat more, alike in most bytes.

use crate::dice::Dice;
use vocabulary::{LongKey, Subject};

pub fn pool(dice: &mut Dice, subject: Subject, limit: u64, crowded: bool) -> Vec<LongKey> {
    let count = match limit {
        1_024 => 1_100,
        _ if crowded => limit + dice.between(2, 6),
        16 => dice.between(3, 24),
        _ => limit.max(1) + dice.pick(&[0, 1, 1, 2, 3, 6]),
    };
    // The place of the byte in which most keys differ: the first or last of the peer, of the out point, the side, or any.
    let bytes = match subject {
        Subject::Limiter => 70,
        _ => 33,
    };
    let place = dice.pick(&[0, 32, 33, 68, 69, 100]).min(bytes);
    let mut keys: Vec<LongKey> = (0..count)
        .map(|number| {
            let mut key = [0; 70];
            key[..bytes].fill(dice.pick(&[0, 2, 2, 2, 0x7f, 0x80, 0xff]));
            if number >= 250 || place >= bytes || dice.chance(20) {
                key[..bytes].fill_with(|| dice.roll() as u8);
            } else {
                key[place] = number as u8;
            }
            if subject == Subject::Limiter {
                key[69] = dice.below(2) as u8;
            }
            key
        })
        .collect();
    keys.sort();
    keys.dedup();
    // Not in their order, so that the table doesn't simply grow at its end.
    for at in (1..keys.len()).rev() {
        keys.swap(at, dice.below(at as u64 + 1) as usize);
    }
    keys
}
