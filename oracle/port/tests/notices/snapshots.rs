//! Wrong snapshots, each the proved library's with one fault.

use crate::{is_noticed, Wrong, FAITHFUL};
use port::Proved;
use vocabulary::answer::{DONE, NO};
use vocabulary::layout::ROW;
use vocabulary::{Key, Record, Snapshots};

type Write = fn(&Record, &[u8], &mut [u8], &mut u64) -> u32;
type Read = fn(&mut Record, &[u8], &mut [u8]) -> u32;
type Place = fn(&[u8], u32, &mut [u64; 2]) -> u32;
type AtRow = fn(&[u8], u64, &mut Key, &mut [u64; 12]) -> u32;

pub struct WrongSnapshots {
    write: Write,
    read: Read,
    place: Place,
    row: AtRow,
}

/// No fault yet.
const RIGHT: WrongSnapshots = WrongSnapshots {
    write: |record, table, output, length| Proved.write(record, table, output, length),
    read: |record, snapshot, table| Proved.read(record, snapshot, table),
    place: |snapshot, kind, place| Proved.place(snapshot, kind, place),
    row: |snapshot, at, key, numbers| Proved.row(snapshot, at, key, numbers),
};

impl Snapshots for WrongSnapshots {
    fn write(&self, record: &Record, table: &[u8], output: &mut [u8], length: &mut u64) -> u32 {
        (self.write)(record, table, output, length)
    }
    fn read(&self, record: &mut Record, snapshot: &[u8], table: &mut [u8]) -> u32 {
        (self.read)(record, snapshot, table)
    }
    fn place(&self, snapshot: &[u8], kind: u32, place: &mut [u64; 2]) -> u32 {
        (self.place)(snapshot, kind, place)
    }
    fn row(&self, snapshot: &[u8], at: u64, key: &mut Key, numbers: &mut [u64; 12]) -> u32 {
        (self.row)(snapshot, at, key, numbers)
    }
}

/// A trace has the kind's name, the settings, what is lent and in flight, two keys, two rows and a call at most.
fn is_noticed_in(snapshots: WrongSnapshots) {
    let port = Wrong {
        snapshots: Some(snapshots),
        ..FAITHFUL
    };
    is_noticed(&port, 9);
}

fn in_write(write: Write) {
    is_noticed_in(WrongSnapshots { write, ..RIGHT });
}

fn in_read(read: Read) {
    is_noticed_in(WrongSnapshots { read, ..RIGHT });
}

fn in_place(place: Place) {
    is_noticed_in(WrongSnapshots { place, ..RIGHT });
}

fn in_row(row: AtRow) {
    is_noticed_in(WrongSnapshots { row, ..RIGHT });
}

/// The limit that stands in a snapshot.
fn limit_in(snapshot: &[u8]) -> Option<u64> {
    let bytes = snapshot.get(80..88)?;
    Some(u64::from_le_bytes(bytes.try_into().unwrap()))
}

/// Where the contents tell that the rows end.
fn told_end(snapshot: &[u8]) -> Option<usize> {
    let number = |at: usize| Some(u32::from_le_bytes(snapshot.get(at..at + 4)?.try_into().unwrap()));
    Some(number(24)? as usize + number(28)? as usize)
}

#[test]
fn a_byte_behind_what_is_written() {
    in_write(|record, table, output, length| {
        let number = Proved.write(record, table, output, length);
        if let (DONE, Some(byte)) = (number, output.get_mut(*length as usize)) {
            *byte = byte.wrapping_add(1);
        }
        number
    });
}

#[test]
fn a_length_left_on_a_refusal() {
    in_write(|record, table, output, length| {
        let number = Proved.write(record, table, output, length);
        if number != DONE {
            *length = 0;
        }
        number
    });
}

#[test]
fn an_output_judged_before_the_policy() {
    in_write(|record, table, output, length| {
        let size = (record.longs[7] as usize).saturating_mul(ROW).saturating_add(120);
        match output.len() < size {
            true => 1,
            false => Proved.write(record, table, output, length),
        }
    });
}

#[test]
fn the_ceiling_written_for_the_load() {
    in_write(|record, table, output, length| {
        let number = Proved.write(record, table, output, length);
        if number == DONE {
            output.copy_within(96..104, 112);
        }
        number
    });
}

#[test]
fn a_free_place_that_is_not_zeroed() {
    in_read(|record, snapshot, table| {
        let number = Proved.read(record, snapshot, table);
        if number == DONE && record.longs[7] < record.longs[4] {
            table[ROW * record.longs[7] as usize] = 1;
        }
        number
    });
}

#[test]
fn a_byte_of_the_table_beyond_the_limit() {
    in_read(|record, snapshot, table| {
        let number = Proved.read(record, snapshot, table);
        let limit = ROW * record.longs[4].clamp(1, 1_024) as usize;
        if let (DONE, Some(byte)) = (number, table.get_mut(limit)) {
            *byte = 0;
        }
        number
    });
}

#[test]
fn a_limit_of_0_kept_as_1() {
    in_read(|record, snapshot, table| {
        let number = Proved.read(record, snapshot, table);
        if number == DONE {
            record.longs[4] = record.longs[4].max(1);
        }
        number
    });
}

#[test]
fn words_left_on_a_refusal() {
    in_read(|record, snapshot, table| {
        let number = Proved.read(record, snapshot, table);
        if number != DONE {
            record.shorts[3] = 0;
        }
        number
    });
}

#[test]
fn a_limit_judged_before_the_layout() {
    in_read(|record, snapshot, table| match limit_in(snapshot) {
        Some(1_025..) => 2,
        _ => Proved.read(record, snapshot, table),
    });
}

#[test]
fn a_table_judged_before_the_rows() {
    in_read(|record, snapshot, table| {
        let number = Proved.read(record, snapshot, table);
        let limit = limit_in(snapshot).map_or(0, |limit| limit.clamp(1, 1_024) as usize);
        match (number, table.len() < ROW * limit) {
            (3, true) => 1,
            _ => number,
        }
    });
}

#[test]
fn bytes_after_the_end_that_are_passed_over() {
    in_read(|record, snapshot, table| {
        let told = told_end(snapshot).and_then(|end| snapshot.get(..end));
        Proved.read(record, told.unwrap_or(snapshot), table)
    });
}

#[test]
fn lengths_that_are_summed_in_32_bits() {
    in_read(|record, snapshot, table| {
        let mut repaired = snapshot.to_vec();
        let length = |at: usize| Some(u32::from_le_bytes(snapshot.get(at..at + 4)?.try_into().unwrap()));
        if length(8).is_some_and(|settings| settings > u32::MAX - 2_000) {
            repaired[2..32].copy_from_slice(&fitting(snapshot.len() as u32));
        }
        Proved.read(record, &repaired, table)
    });
}

/// What the contents of a snapshot of this length tell.
fn fitting(length: u32) -> Vec<u8> {
    let parts = [(1u16, 32, 72), (2, 104, 16), (3, 120, length - 120)];
    let slot = |(kind, place, length): (u16, u32, u32)| {
        let numbers = [place, length].into_iter().flat_map(u32::to_le_bytes);
        kind.to_le_bytes().into_iter().chain(numbers).collect::<Vec<u8>>()
    };
    parts.into_iter().flat_map(slot).collect()
}

#[test]
fn a_kind_of_which_16_bits_are_taken() {
    in_place(|snapshot, kind, place| Proved.place(snapshot, kind & 0xffff, place));
}

#[test]
fn an_empty_part_that_is_refused() {
    in_place(|snapshot, kind, place| {
        let before = *place;
        let number = Proved.place(snapshot, kind, place);
        if number == DONE && place[0] == place[1] {
            *place = before;
            return 6;
        }
        number
    });
}

#[test]
fn a_place_within_a_row() {
    in_row(|snapshot, at, key, numbers| {
        let within = at.saturating_sub(120) % ROW as u64;
        Proved.row(snapshot, at - within, key, numbers)
    });
}

#[test]
fn an_end_that_is_told_as_a_row() {
    in_row(|snapshot, at, key, numbers| {
        let number = Proved.row(snapshot, at, key, numbers);
        match number {
            NO => DONE,
            _ => number,
        }
    });
}

#[test]
fn a_row_that_does_not_go_on() {
    in_row(|snapshot, at, key, numbers| {
        let number = Proved.row(snapshot, at, key, numbers);
        if number == DONE {
            numbers[11] = at;
        }
        number
    });
}
