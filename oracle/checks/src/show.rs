//! A trace as text and back: admit-trace's input format where it has one.
//!
//! A trace on peers begins with the nine settings. Lines `I MESSAGES BYTES`, `R KEY` and eleven numbers, and
//! `L SPARE FILLER` (the lent table) give a start that isn't fresh; `f` and `h KEY GIVEN` ask for the numbers in flight
//! and the held time. admit-trace reads none of these; all other lines it does. A trace on anything else begins with its
//! name, and each call is its eight words; an input of the trace program is the command that gives it to admit-trace, and a trace on
//! the gossip policy gives its start as words too (`gossip`).

pub mod gossip;

use crate::trace::{Kind, PeerStart, Trace};
use vocabulary::peer::*;
use vocabulary::{answer, cause, Answer, BucketOperation, Buckets, Words};

/// 2 digits where all bytes are equal, else 66.
pub fn key(key: &Key) -> String {
    if key.iter().all(|byte| *byte == key[0]) {
        return format!("{:02x}", key[0]);
    }
    key.iter().map(|byte| format!("{byte:02x}")).collect()
}

pub fn numbers(numbers: &[u64]) -> String {
    let words: Vec<String> = numbers.iter().map(u64::to_string).collect();
    words.join(" ")
}

pub fn row(row: &Row) -> String {
    format!("{} {}", key(&row.key), numbers(&row.numbers))
}

pub fn bucket(operation: BucketOperation, buckets: &Buckets) -> String {
    if operation.is_discrete() {
        let bucket = &buckets.discrete;
        numbers(&[bucket.available.into(), bucket.last_refill])
    } else {
        let [sign, low, high] = buckets.byte.available.words();
        numbers(&[sign, low, high, buckets.byte.last_refill])
    }
}

pub fn peer_event(keys: &[Key], words: &Words) -> String {
    let operation = PeerOperation::ALL[words[0] as usize];
    let mut text = operation.letter().to_string();
    if operation.uses_key() {
        text += &format!(" {}", key(&keys[words[1] as usize]));
    }
    if operation.uses_bytes() {
        text += &format!(" {}", words[2]);
    }
    if operation.uses_key() {
        text += &format!(" {}", words[3]);
    }
    text
}

/// The line that admit-trace writes for a call: the answer's word, in-flight messages, bytes, rows held.
pub fn output_line(words: &Words, answer: &Answer, state: &PeerState) -> String {
    let operation = PeerOperation::ALL[words[0] as usize];
    let yes = answer.number == answer::YES;
    let word = match operation {
        PeerOperation::RecordInvalid => if yes { "Banned" } else { "Noted" }.to_string(),
        PeerOperation::IsBanned => if yes { "Banned" } else { "Free" }.to_string(),
        PeerOperation::OnDisconnected => "Closed".to_string(),
        PeerOperation::ReleaseIngress => "Released".to_string(),
        PeerOperation::InFlight => "InFlight".to_string(),
        PeerOperation::HeldTime => format!("Held {}", answer.values[0]),
        PeerOperation::Admit if answer.is_refusal() => return answer.text(),
        PeerOperation::Admit => cause::WORDS[answer.cause()[0] as usize].to_string(),
    };
    let (messages, bytes) = (state.in_flight_messages, state.in_flight_bytes);
    format!("{word} {messages} {bytes} {}", state.rows.len())
}

pub fn call(trace: &Trace, words: &Words) -> String {
    match trace.kind {
        Kind::Peers => peer_event(&trace.keys, words),
        kind => format!("{} {}", numbers(words), kind.operations()[words[0] as usize]),
    }
}

pub fn trace(trace: &Trace) -> String {
    let mut text = String::new();
    if trace.kind != Kind::Peers {
        text += &format!("{}\n", trace.kind.name());
    }
    if trace.kind == Kind::Inputs {
        return text + &format!("{GIVE}{}{TO_ADMIT_TRACE}\n", escaped(&trace.input.bytes));
    }
    if trace.kind.begins_with_peers() {
        text += &start(trace);
    }
    if let Some(subject) = trace.kind.gossip_subject() {
        text += &gossip::start(trace, subject);
    }
    for words in &trace.calls {
        text += &format!("{}\n", call(trace, words));
    }
    text
}

fn start(trace: &Trace) -> String {
    let start = &trace.start;
    let mut text = format!("{}\n", numbers(&start.settings));
    if start.spare != 0 || start.filler != 0 {
        text += &format!("L {} {}\n", start.spare, start.filler);
    }
    if start.in_flight != [0, 0] {
        text += &format!("I {}\n", numbers(&start.in_flight));
    }
    // A call that is written as words names its key by its place, so the keys come first.
    if trace.kind != Kind::Peers {
        for known in &trace.keys {
            text += &format!("K {}\n", key(known));
        }
    }
    for (place, row) in &start.rows {
        text += &format!("R {} {}\n", key(&trace.keys[*place]), numbers(row));
    }
    text
}

/// The command that gives admit-trace an input stands around it.
const GIVE: &str = "printf '";
const TO_ADMIT_TRACE: &str = "' | ./admit-trace";

/// Bytes as they stand between a shell's quotes as printf's format; none of them begins an option.
pub fn escaped(bytes: &[u8]) -> String {
    let escape = |byte: &u8| match byte {
        b'\n' => "\\n".to_string(),
        b'%' => "%%".to_string(),
        b'\\' | b'\'' | b'-' | 0..=31 | 127.. => format!("\\{byte:03o}"),
        _ => char::from(*byte).to_string(),
    };
    bytes.iter().map(escape).collect()
}

/// Reads what `escaped` writes.
fn unescaped(text: &str) -> Option<Vec<u8>> {
    let mut bytes = Vec::new();
    let mut rest = text;
    while let Some(first) = rest.bytes().next() {
        let (byte, length) = match (first, rest.as_bytes().get(1)) {
            (b'\\', Some(b'n')) => (b'\n', 2),
            (b'\\', _) => (u8::from_str_radix(rest.get(1..4)?, 8).ok()?, 4),
            (b'%', Some(b'%')) => (b'%', 2),
            _ => (first, 1),
        };
        bytes.push(byte);
        rest = rest.get(length..)?;
    }
    Some(bytes)
}

fn read_input(trace: &mut Trace, line: &str) -> Option<()> {
    let text = line.strip_prefix(GIVE)?.strip_suffix(TO_ADMIT_TRACE)?;
    trace.input.bytes = unescaped(text)?;
    trace.calls.push([0; 8]);
    Some(())
}

/// Reads what `trace` writes.
pub fn parse(text: &str) -> Result<Trace, String> {
    let mut lines = text.lines().enumerate().peekable();
    let first = lines.peek().ok_or("an empty file")?.1;
    let kind = Kind::ALL.into_iter().find(|kind| kind.name() == first);
    if kind.is_some() {
        lines.next();
    }
    let mut trace = Trace::of_calls(kind.unwrap_or(Kind::Peers), Vec::new());
    if trace.kind.begins_with_peers() {
        let (_, settings) = lines.next().ok_or("no settings")?;
        trace.start.settings = exactly(&settings.split(' ').collect::<Vec<_>>()).ok_or("line 1: not nine numbers")?;
    }
    for (number, line) in lines {
        let words: Vec<&str> = line.split(' ').collect();
        let read = match (trace.kind, trace.kind.gossip_subject()) {
            (Kind::Inputs, _) => read_input(&mut trace, line),
            (_, Some(subject)) => gossip::read_line(&mut trace, subject, &words),
            _ => read_line(&mut trace, &words),
        };
        read.ok_or(format!("line {}: {line}", number + 1))?;
    }
    if !trace.is_valid() {
        return Err("the start isn't sound, or a call has no answer in the Rust".into());
    }
    Ok(trace)
}

fn exactly<const N: usize>(words: &[&str]) -> Option<[u64; N]> {
    let numbers: Option<Vec<u64>> = words.iter().map(|word| word.parse().ok()).collect();
    numbers?.try_into().ok()
}

fn read_line(trace: &mut Trace, words: &[&str]) -> Option<()> {
    let start: &mut PeerStart = &mut trace.start;
    match (words[0], trace.kind) {
        ("L", _) => [start.spare, start.filler] = exactly(&words[1..])?,
        ("I", _) => start.in_flight = exactly(&words[1..])?,
        ("R", _) => {
            let place = place_of(&mut trace.keys, words.get(1)?)?;
            start.rows.push((place, exactly(&words[2..])?));
        }
        ("K", _) => {
            place_of(&mut trace.keys, words.get(1)?)?;
        }
        (letter, Kind::Peers) => {
            let event = read_event(&mut trace.keys, letter, &words[1..])?;
            trace.calls.push(event);
        }
        _ => trace.calls.push(exactly(words.get(..8)?)?),
    }
    Some(())
}

fn read_event(keys: &mut Vec<Key>, letter: &str, fields: &[&str]) -> Option<Words> {
    let mut all = PeerOperation::ALL.iter().enumerate();
    let (number, operation) = all.find(|(_, known)| letter == known.letter().to_string())?;
    let mut words = [number as u64, 0, 0, 0, 0, 0, 0, 0];
    let mut fields = fields.iter();
    if operation.uses_key() {
        words[1] = place_of(keys, fields.next()?)? as u64;
    } else if keys.is_empty() {
        keys.push([2; 33]);
    }
    if operation.uses_bytes() {
        words[2] = fields.next()?.parse().ok()?;
    }
    if operation.uses_key() {
        words[3] = fields.next()?.parse().ok()?;
    }
    fields.next().is_none().then_some(words)
}

fn place_of(keys: &mut Vec<Key>, digits: &str) -> Option<usize> {
    let byte = |at: usize| u8::from_str_radix(digits.get(at..at + 2)?, 16).ok();
    let mut key = [byte(0)?; 33];
    match digits.len() {
        2 => {}
        66 => {
            for (at, place) in key.iter_mut().enumerate() {
                *place = byte(2 * at)?;
            }
        }
        _ => return None,
    }
    let known = keys.iter().position(|known| *known == key);
    Some(known.unwrap_or_else(|| {
        keys.push(key);
        keys.len() - 1
    }))
}

/// Whether admit-trace can be given the text as it stands.
pub fn is_for_admit_trace(trace: &Trace) -> bool {
    let asks_more = |words: &Words| words[0] > PeerOperation::ReleaseIngress as u64;
    trace.kind == Kind::Peers
        && trace.start.is_fresh()
        && trace.start.spare == 0
        && trace.start.filler == 0
        && trace.start.settings[6] <= 256
        && !trace.calls.iter().any(asks_more)
}

#[cfg(test)]
mod tests {
    use super::*;

    #[test]
    fn an_input_of_any_bytes_is_read_back() {
        let mut input = Trace::of_calls(Kind::Inputs, vec![[0; 8]]);
        input.input.bytes = (0..=255).chain(*b"%%\\n0\\0127-").collect();
        let read = parse(&trace(&input)).unwrap();
        assert_eq!(read.input.bytes, input.input.bytes);
        assert_eq!(read.calls, input.calls);
    }
}
