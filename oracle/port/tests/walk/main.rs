//! The yardstick of the bench agrees with the port on sound and on damaged tables, and the comparison notices walks that are wrong.

mod tables;
mod wrong;

use checks::walk::{walk, Place};
use port::Proved;
use std::sync::LazyLock;
use tables::{Case, ANY_NUMBER, SOUND};
use vocabulary::layout::{get_row, ROW};
use vocabulary::{answer, Key, PeerCall, PeerOperation, Port, Record};

/// What the port's calls show of its walk.
#[derive(Clone, Copy, Debug, PartialEq)]
enum Shown {
    Unsound,
    Place(Place),
    /// No row has the key, and there is no room for one, so that the gap isn't seen.
    NoRow,
}

impl Shown {
    fn agrees(self, walked: Option<Place>) -> bool {
        match self {
            Self::Unsound => walked.is_none(),
            Self::Place(place) => walked == Some(place),
            Self::NoRow => matches!(walked, Some(Place::Gap(_))),
        }
    }
}

/// The cases, with what the port shows for each sought key.
static SHOWN: LazyLock<Vec<(Case, Vec<Shown>)>> = LazyLock::new(|| {
    let with_shown = |case: Case| {
        let shown = case.sought.iter().map(|key| shown(&case, key)).collect();
        (case, shown)
    };
    tables::cases().into_iter().map(with_shown).collect()
});

/// The held time at a given time of 0 is the found row's last-used time: its place and 1.
fn shown(case: &Case, key: &Key) -> Shown {
    let mut call = PeerCall {
        operation: PeerOperation::HeldTime,
        key: *key,
        bytes: 0,
        now: 0,
    };
    let (mut record, mut table) = (case.record, case.table.clone());
    let held = Proved.peers(&call, &mut record, &mut table);
    match (held.number, held.values[0]) {
        (3, _) => return Shown::Unsound,
        (answer::DONE, 0) => {}
        (answer::DONE, time) => return Shown::Place(Place::Found(time as usize - 1)),
        _ => panic!("the held time answers {held}"),
    }
    let [.., limit, _, _, rows] = record.longs;
    if rows == limit {
        return Shown::NoRow;
    }
    call.operation = PeerOperation::Admit;
    assert_eq!(Proved.peers(&call, &mut record, &mut table).number, answer::ALLOW);
    let gap = table.chunks_exact(ROW).position(|row| get_row(row).key == *key);
    Shown::Place(Place::Gap(gap.expect("a row for the new peer")))
}

/// The first case in which a walk says something else than the port.
fn disagreement(walk: impl Fn(&Record, &[u8], &Key) -> Option<Place>) -> Option<String> {
    SHOWN.iter().find_map(|(case, shown)| {
        case.sought.iter().zip(shown).find_map(|(key, shown)| {
            let walked = walk(&case.record, &case.table, key);
            let (what, rows) = (case.what, case.record.longs[7]);
            let difference = || format!("{what}, {rows} rows, {key:?}: the port {shown:?}, the walk {walked:?}");
            (!shown.agrees(walked)).then(difference)
        })
    })
}

#[test]
fn the_yardstick_agrees_with_the_port() {
    assert_eq!(disagreement(walk), None);
}

#[test]
fn the_port_judges_as_each_case_says() {
    for (case, shown) in SHOWN.iter() {
        let unsound = shown.iter().filter(|shown| **shown == Shown::Unsound).count();
        match case.what {
            SOUND => assert_eq!(unsound, 0),
            ANY_NUMBER => assert!(unsound == 0 || unsound == shown.len()),
            damage => assert_eq!(unsound, shown.len(), "{damage}"),
        }
    }
}

#[test]
fn every_sort_of_place_is_asked_for() {
    let count = |wanted: fn(&Shown) -> bool| {
        let all = SHOWN.iter().flat_map(|(_, shown)| shown);
        all.filter(|shown| wanted(shown)).count()
    };
    let found = count(|shown| matches!(shown, Shown::Place(Place::Found(_))));
    let gaps = count(|shown| matches!(shown, Shown::Place(Place::Gap(_))));
    let unsound = count(|shown| *shown == Shown::Unsound);
    let without_room = count(|shown| *shown == Shown::NoRow);
    println!("{found} found, {gaps} gaps, {without_room} without room, {unsound} unsound");
    assert!(found > 1_000 && gaps > 5_000 && without_room > 10 && unsound > 10_000);
}
