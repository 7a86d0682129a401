//! Sound gossip states damaged in one known way, so that the refusal's number is known by construction.

use super::making::with_anything_unread;
use super::sides::Lent;
use vocabulary::gossip::*;
use vocabulary::{Amount, GossipCall, GossipRow, GossipState, Reads, Shape, Subject, Words};

/// A way to damage, and the table (with its words) that is damaged.
#[derive(Clone, Copy)]
pub struct Sort {
    name: &'static str,
    harm: Harm,
    table: usize,
}

#[derive(Clone, Copy)]
enum Harm {
    KeysEqual,
    KeysDescend,
    RowsAboveLimit,
    LimitAboveMost,
    TableShort,
    /// A number of a row.
    Number(usize, fn(&GossipWords, &GossipRow, u64) -> Option<u64>),
    SideByte,
    /// A row's amount, or the global bucket's.
    RowAmount(fn(u64) -> Amount),
    GlobalAmount(fn(u64) -> Amount),
    MakingLimit,
    MakingShort,
    NoOperation,
    NoViolation,
}

const fn sort(name: &'static str, table: usize, harm: Harm) -> Sort {
    Sort { name, harm, table }
}

pub const BAN_DAMAGE: [Sort; 12] = [
    sort("two keys equal", 0, Harm::KeysEqual),
    sort("keys descend", 0, Harm::KeysDescend),
    sort("more rows than the limit", 0, Harm::RowsAboveLimit),
    sort("limit above 1,024", 0, Harm::LimitAboveMost),
    sort("table one byte short", 0, Harm::TableShort),
    sort(
        "score above u32",
        0,
        Harm::Number(GossipRow::SCORE, |_, _, _| Some(1 << 32)),
    ),
    sort("ban mark 2", 0, Harm::Number(GossipRow::MARK, |_, _, _| Some(2))),
    sort(
        "ban end without a mark",
        0,
        Harm::Number(GossipRow::END, end_without_a_mark),
    ),
    sort("making: limit above 1,024", 0, Harm::MakingLimit),
    sort("making: table one byte short", 0, Harm::MakingShort),
    sort("no such operation", 0, Harm::NoOperation),
    sort("no such violation", 0, Harm::NoViolation),
];

pub const LIMITER_DAMAGE: [Sort; 10] = [
    sort("two keys equal", 0, Harm::KeysEqual),
    sort("keys descend", 0, Harm::KeysDescend),
    sort("more rows than the limit", 0, Harm::RowsAboveLimit),
    sort("limit above 1,024", 0, Harm::LimitAboveMost),
    sort("table one byte short", 0, Harm::TableShort),
    sort(
        "available above the burst",
        0,
        Harm::Number(GossipRow::AVAILABLE, above_the_burst),
    ),
    sort("side byte 2", 0, Harm::SideByte),
    sort("making: limit above 1,024", 0, Harm::MakingLimit),
    sort("making: table one byte short", 0, Harm::MakingShort),
    sort("no such operation", 0, Harm::NoOperation),
];

pub const GOSSIP_DAMAGE: [Sort; 25] = [
    sort("bans: two keys equal", 0, Harm::KeysEqual),
    sort("bans: keys descend", 0, Harm::KeysDescend),
    sort("bans: more rows than the limit", 0, Harm::RowsAboveLimit),
    sort("bans: limit above 1,024", 0, Harm::LimitAboveMost),
    sort("bans: table one byte short", 0, Harm::TableShort),
    sort(
        "bans: score above u32",
        0,
        Harm::Number(GossipRow::SCORE, |_, _, _| Some(1 << 32)),
    ),
    sort("bans: ban mark 2", 0, Harm::Number(GossipRow::MARK, |_, _, _| Some(2))),
    sort(
        "bans: ban end without a mark",
        0,
        Harm::Number(GossipRow::END, end_without_a_mark),
    ),
    sort("two keys equal", 1, Harm::KeysEqual),
    sort("keys descend", 1, Harm::KeysDescend),
    sort("more rows than 1,024", 1, Harm::RowsAboveLimit),
    sort("table one byte short", 1, Harm::TableShort),
    sort("sign word 2", 1, Harm::Number(GossipRow::SIGN, |_, _, _| Some(2))),
    sort("minus zero", 1, Harm::RowAmount(minus_zero)),
    sort("2^127", 1, Harm::RowAmount(past_the_most)),
    sort("below -2^127", 1, Harm::RowAmount(below_the_least)),
    sort("above the burst", 1, Harm::RowAmount(above)),
    sort("global: minus zero", 1, Harm::GlobalAmount(minus_zero)),
    sort("global: 2^127", 1, Harm::GlobalAmount(past_the_most)),
    sort("global: below -2^127", 1, Harm::GlobalAmount(below_the_least)),
    sort("global: above the burst", 1, Harm::GlobalAmount(above)),
    sort("making: ban table one byte short", 0, Harm::MakingShort),
    sort("making: outbound table one byte short", 1, Harm::MakingShort),
    sort("no such operation", 0, Harm::NoOperation),
    sort("no such violation", 0, Harm::NoViolation),
];

pub const BAN_DAMAGE_NAMES: [&str; BAN_DAMAGE.len()] = names(&BAN_DAMAGE);
pub const LIMITER_DAMAGE_NAMES: [&str; LIMITER_DAMAGE.len()] = names(&LIMITER_DAMAGE);
pub const GOSSIP_DAMAGE_NAMES: [&str; GOSSIP_DAMAGE.len()] = names(&GOSSIP_DAMAGE);

const fn names<const N: usize>(sorts: &[Sort; N]) -> [&'static str; N] {
    let mut names = [""; N];
    let mut at = 0;
    while at < N {
        names[at] = sorts[at].name;
        at += 1;
    }
    names
}

fn end_without_a_mark(_: &GossipWords, row: &GossipRow, chosen: u64) -> Option<u64> {
    (row.numbers[GossipRow::MARK] == 0).then_some(chosen | 1)
}

fn above_the_burst(words: &GossipWords, _: &GossipRow, _: u64) -> Option<u64> {
    Some(u64::from(words.shorts[MOST]) + 1)
}

fn minus_zero(_: u64) -> Amount {
    Amount {
        negative: true,
        magnitude: 0,
    }
}

fn past_the_most(_: u64) -> Amount {
    Amount::plus(1 << 127)
}

fn below_the_least(_: u64) -> Amount {
    Amount {
        negative: true,
        magnitude: (1 << 127) + 1,
    }
}

fn above(burst: u64) -> Amount {
    Amount::plus(u128::from(burst) + 1)
}

/// What a call on a damaged state must do.
pub enum Harmed {
    Refused(u32),
    /// It doesn't read what is damaged.
    Unread,
}

fn sorts(subject: Subject) -> &'static [Sort] {
    match subject {
        Subject::Bans => &BAN_DAMAGE,
        Subject::Limiter => &LIMITER_DAMAGE,
        Subject::Gossip => &GOSSIP_DAMAGE,
    }
}

/// The table that is damaged in the way of this number.
pub fn damaged_table(subject: Subject, sort: u64) -> usize {
    sorts(subject)[sort as usize].table
}

/// Damages what is lent in the way that word 0 names (word 6 chooses where), or the call; nothing where this state can't be damaged so.
pub fn damaged(words: &Words, state: &GossipState, call: &mut GossipCall, lent: &mut Lent) -> Option<Harmed> {
    let Sort { harm, table, .. } = sorts(call.subject)[words[0] as usize];
    let chosen = words[6];
    match harm {
        Harm::NoOperation => {
            let past = call.subject.operations().len() as u32 + 1;
            call.operation = [0, past, past + 1 + chosen as u32 % 1_000, u32::MAX][chosen as usize % 4];
            return Some(Harmed::Refused(NO_OPERATION));
        }
        Harm::NoViolation => {
            call.operation = 3;
            call.violation = [3, 4, 100, u32::MAX][chosen as usize % 4];
            return Some(Harmed::Refused(NO_OPERATION));
        }
        Harm::MakingLimit | Harm::MakingShort => return Some(damage_making(harm, table, chosen, call, lent)),
        _ => {}
    }
    let is_in_record = damage_state(harm, table, &call.subject.shapes()[table], chosen, state, lent)?;
    Some(match call.reads() {
        Reads::Table(read) if read == table => Harmed::Refused(3),
        Reads::Record(read) if read == table && is_in_record => Harmed::Refused(3),
        _ => Harmed::Unread,
    })
}

fn damage_making(harm: Harm, table: usize, chosen: u64, call: &mut GossipCall, lent: &mut Lent) -> Harmed {
    // The tracker and the limiter take a limit from the words.
    call.operation = if call.subject == Subject::Gossip {
        1 + chosen as u32 % 2
    } else {
        2
    };
    lent.words = with_anything_unread(call, &lent.words, chosen);
    let shapes = call.subject.shapes();
    if let Harm::MakingLimit = harm {
        lent.words.longs[LIMIT] = if chosen.is_multiple_of(3) {
            u64::MAX - chosen
        } else {
            1_025 + chosen % 7
        };
        if chosen.is_multiple_of(2) {
            lent.tables[0].clear();
        }
        return Harmed::Refused(2);
    }
    let limit = match call.subject {
        Subject::Gossip => MOST_ROWS,
        _ => lent.words.row_limit(0),
    };
    for (number, shape) in shapes.iter().enumerate() {
        let enough = shape.width() * limit as usize;
        lent.tables[number].resize(if number == table { enough - 1 } else { enough }, 0);
    }
    Harmed::Refused(1)
}

/// Whether the damage is in the words.
fn damage_state(
    harm: Harm,
    table: usize,
    shape: &Shape,
    chosen: u64,
    state: &GossipState,
    lent: &mut Lent,
) -> Option<bool> {
    let rows = &state.rows[table];
    let limit = state.words.row_limit(table);
    let row = (chosen as usize).checked_rem(rows.len());
    let second = shape.width() * row.unwrap_or(0).max(1);
    let bytes = &mut lent.tables[table];
    match harm {
        Harm::KeysEqual if rows.len() > 1 => {
            bytes.copy_within(second - shape.width()..second - shape.width() + shape.key, second);
        }
        Harm::KeysDescend if rows.len() > 1 => {
            for at in 0..shape.key {
                bytes.swap(second - shape.width() + at, second + at);
            }
        }
        Harm::RowsAboveLimit => {
            let count = if table == 0 { ROWS } else { OUTBOUND_ROWS };
            lent.words.longs[count] = if chosen.is_multiple_of(2) {
                limit + 1
            } else {
                u64::MAX / (chosen % 200).max(1)
            };
            return Some(true);
        }
        Harm::LimitAboveMost => {
            lent.words.longs[LIMIT] = if chosen.is_multiple_of(2) {
                1_025
            } else {
                u64::MAX / (chosen % 200).max(1)
            };
            return Some(true);
        }
        Harm::TableShort => bytes.truncate(shape.width() * limit as usize - 1),
        Harm::Number(number, wrong) => {
            let mut damaged = rows[row?];
            damaged.numbers[number] = wrong(&state.words, &damaged, chosen)?;
            shape.put(&mut bytes[shape.width() * row?..], &damaged);
        }
        Harm::SideByte => bytes[shape.width() * row? + shape.key - 1] = 2 + (chosen % 254) as u8,
        Harm::RowAmount(wrong) => {
            let mut damaged = rows[row?];
            damaged.numbers[..3].copy_from_slice(&wrong(state.words.longs[PEER_BURST]).words());
            shape.put(&mut bytes[shape.width() * row?..], &damaged);
        }
        Harm::GlobalAmount(wrong) => {
            let mut global = state.words.global();
            global.available = wrong(global.burst);
            lent.words.set_global(&global);
            return Some(true);
        }
        _ => return None,
    }
    Some(false)
}
