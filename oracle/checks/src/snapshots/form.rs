//! A snapshot's bytes as docs/REFERENCE.md has them: those of a state, and what any bytes must be taken for. Little-endian. First the
//! contents: a count, and of each part its kind, place and length; then the bodies.

use crate::trace::is_sound;
use vocabulary::layout::{self, ROW};
use vocabulary::peer::*;

pub const PARTS: usize = 3;
/// The bytes of the count, and of what the contents tell of one part.
pub const COUNT: usize = 2;
pub const SLOT: usize = 10;
/// Where the settings, the load in flight and the rows stand.
pub const SETTINGS_AT: usize = COUNT + SLOT * PARTS;
pub const LOAD_AT: usize = SETTINGS_AT + 8 * 9;
pub const ROWS_AT: usize = LOAD_AT + 8 * 2;

// Refusals.
pub const TOO_SHORT: u32 = 1;
pub const LIMIT_LARGE: u32 = 2;
pub const UNSOUND: u32 = 3;
pub const LAYOUT: u32 = 6;

/// What the contents tell of a part.
#[derive(Clone, Copy)]
pub struct Slot {
    pub kind: u16,
    pub place: u32,
    pub length: u32,
}

impl Slot {
    fn at(number: usize) -> std::ops::Range<usize> {
        COUNT + SLOT * number..COUNT + SLOT * (number + 1)
    }

    /// Of a snapshot that has this one.
    pub fn get(snapshot: &[u8], number: usize) -> Self {
        let bytes = &snapshot[Self::at(number)];
        Self {
            kind: u16::from_le_bytes(bytes[..2].try_into().unwrap()),
            place: u32::from_le_bytes(bytes[2..6].try_into().unwrap()),
            length: u32::from_le_bytes(bytes[6..].try_into().unwrap()),
        }
    }

    pub fn put(&self, snapshot: &mut [u8], number: usize) {
        snapshot[Self::at(number)].copy_from_slice(&self.bytes());
    }

    fn bytes(&self) -> Vec<u8> {
        let kind = self.kind.to_le_bytes().into_iter();
        let numbers = [self.place, self.length].into_iter().flat_map(u32::to_le_bytes);
        kind.chain(numbers).collect()
    }
}

pub type Part = (u16, Vec<u8>);

/// Parts one behind the other, and the contents that tell of them.
pub fn laid_out(parts: &[Part]) -> Vec<u8> {
    let mut snapshot = (parts.len() as u16).to_le_bytes().to_vec();
    let mut place = COUNT + SLOT * parts.len();
    for (kind, body) in parts {
        let slot = Slot {
            kind: *kind,
            place: place as u32,
            length: body.len() as u32,
        };
        snapshot.extend(slot.bytes());
        place += body.len();
    }
    for (_, body) in parts {
        snapshot.extend(body);
    }
    snapshot
}

fn bytes_of(numbers: &[u64]) -> Vec<u8> {
    numbers.iter().flat_map(|n| n.to_le_bytes()).collect()
}

fn numbers_of(bytes: &[u8]) -> Vec<u64> {
    let words = bytes.chunks_exact(8);
    words.map(|word| u64::from_le_bytes(word.try_into().unwrap())).collect()
}

/// The snapshot of a state.
pub fn written(state: &PeerState) -> Vec<u8> {
    let mut rows = vec![0; ROW * state.rows.len()];
    for (place, row) in rows.chunks_exact_mut(ROW).zip(&state.rows) {
        layout::put_row(place, row);
    }
    let load = [state.in_flight_messages.into(), state.in_flight_bytes];
    laid_out(&[(1, bytes_of(&state.settings.words())), (2, bytes_of(&load)), (3, rows)])
}

/// The bodies of bytes whose contents tell of just these: kinds 1, 2, 3 in this order, without gaps, and nothing after.
fn bodies(bytes: &[u8]) -> Option<[&[u8]; PARTS]> {
    if bytes.len() < SETTINGS_AT || bytes[..COUNT] != (PARTS as u16).to_le_bytes() {
        return None;
    }
    let mut rest = &bytes[SETTINGS_AT..];
    let mut bodies = [rest; PARTS];
    for (number, body) in bodies.iter_mut().enumerate() {
        let slot = Slot::get(bytes, number);
        if slot.kind != number as u16 + 1 || slot.place as usize != bytes.len() - rest.len() {
            return None;
        }
        *body = rest.get(..slot.length as usize)?;
        rest = &rest[body.len()..];
    }
    let [settings, load, rows] = bodies;
    let sizes_are_right = settings.len() == 8 * 9 && load.len() == 8 * 2 && rows.len().is_multiple_of(ROW);
    (rest.is_empty() && sizes_are_right).then_some(bodies)
}

/// The settings, if the layout is right: a u32 setting above its range makes it wrong.
fn settings_of(bytes: &[u8]) -> Option<Settings> {
    Settings::from_words(&numbers_of(bodies(bytes)?[0]))
}

/// What the bytes describe: 6, 2, then 3, judged on the bytes alone.
fn described(bytes: &[u8]) -> Result<PeerState, u32> {
    let settings = settings_of(bytes).ok_or(LAYOUT)?;
    let [_, load, rows] = bodies(bytes).ok_or(LAYOUT)?;
    if settings.max_tracked > 1_024 {
        return Err(LIMIT_LARGE);
    }
    let load = numbers_of(load);
    let state = PeerState {
        settings,
        in_flight_messages: load[0].try_into().map_err(|_| UNSOUND)?,
        in_flight_bytes: load[1],
        rows: layout::rows_of(rows, rows.len() / ROW),
    };
    if is_sound(&state) {
        Ok(state)
    } else {
        Err(UNSOUND)
    }
}

/// What reading the bytes into a table of this length must give.
pub fn read(bytes: &[u8], table: usize) -> Result<PeerState, u32> {
    let state = described(bytes)?;
    if table < ROW * state.settings.row_limit() as usize {
        return Err(TOO_SHORT);
    }
    Ok(state)
}

/// Where asking for a kind must find it: where its part begins and ends.
pub fn place_of(bytes: &[u8], kind: u32) -> Result<[u64; 2], u32> {
    settings_of(bytes).ok_or(LAYOUT)?;
    if !(1..=PARTS as u32).contains(&kind) {
        return Err(LAYOUT);
    }
    let slot = Slot::get(bytes, kind as usize - 1);
    let from = u64::from(slot.place);
    Ok([from, from + u64::from(slot.length)])
}

/// What a step at the place must give: a row and the next one's place, or nothing at the end.
pub fn row_at(bytes: &[u8], at: u64) -> Result<Option<(Row, u64)>, u32> {
    let [from, end] = place_of(bytes, 3)?;
    if !(from..=end).contains(&at) || !(at - from).is_multiple_of(ROW as u64) {
        return Err(LAYOUT);
    }
    if at == end {
        return Ok(None);
    }
    let row = layout::get_row(&bytes[at as usize..]);
    Ok(Some((row, at + ROW as u64)))
}

#[cfg(test)]
mod tests {
    use super::*;

    /// Numbers 1 to 22 in their order: nine settings, the load, one row.
    #[test]
    fn a_state_by_hand() {
        let state = PeerState {
            settings: Settings::from_words(&[1, 2, 3, 4, 5, 6, 7, 8, 9]).unwrap(),
            in_flight_messages: 10,
            in_flight_bytes: 11,
            rows: vec![Row {
                key: [0xee; 33],
                numbers: std::array::from_fn(|at| at as u64 + 12),
            }],
        };
        let contents = [
            [3, 0].as_slice(),
            &[1, 0, 32, 0, 0, 0, 72, 0, 0, 0],
            &[2, 0, 104, 0, 0, 0, 16, 0, 0, 0],
            &[3, 0, 120, 0, 0, 0, 121, 0, 0, 0],
        ];
        let number = |n: u8| [n, 0, 0, 0, 0, 0, 0, 0];
        let mut expected = contents.concat();
        expected.extend((1..=11).flat_map(number));
        expected.extend([0xee; 33]);
        expected.extend((12..=22).flat_map(number));
        assert_eq!(written(&state), expected);
        assert_eq!(place_of(&expected, 3), Ok([120, 241]));
        assert_eq!(row_at(&expected, 120), Ok(Some((state.rows[0], 241))));
        assert_eq!(row_at(&expected, 241), Ok(None));
    }
}
