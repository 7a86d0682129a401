//! The recorded list of gossip is replayed as its description says, by the stand-in: what the list holds is enough, and each line is what
//! comes out.

use crate::stand_in::StandIn;
use checks::lists::gossip::record;
use original::UnchangedRust;
use std::collections::BTreeMap;
use vocabulary::{GossipCall, GossipWords, Port, Subject};

const MEMORY: usize = 96_560;
const MODULUS: u64 = (1 << 55) - 55;

fn step(sum: u64, n: u64) -> u64 {
    ((u128::from(sum) * 257 + u128::from(n) + 1) % u128::from(MODULUS)) as u64
}

struct Replay {
    words: GossipWords,
    memory: [Vec<u8>; 2],
    lent: [usize; 2],
    peer: Vec<u8>,
    outpoint: Vec<u8>,
}

impl Replay {
    fn record(&mut self, record: &[u64]) -> String {
        let [a, b, c, d, e, f, g] = record[1..].try_into().unwrap();
        match record[0] {
            0 => {
                let mut sum = a;
                for byte in self.memory.iter_mut().flatten() {
                    sum = step(sum, 7);
                    *byte = sum as u8;
                }
                self.lent = [b as usize, c as usize];
                self.words = GossipWords::default();
                (self.peer, self.outpoint) = (vec![0; 33], vec![0; 36]);
            }
            1 => self.words.longs[..7].copy_from_slice(&[a, b, c, d, e, f, g]),
            2 => {
                self.words.longs[7..].copy_from_slice(&[a, b, c]);
                for (place, word) in [d, e, f].into_iter().enumerate() {
                    self.words.shorts[2 * place] = word as u32;
                    self.words.shorts[2 * place + 1] = (word >> 32) as u32;
                }
            }
            3 => self.peer = bytes(&[a, b, c, d, e], 33),
            4 => self.outpoint = bytes(&[a, b, c, d, e], 36),
            5 => return self.call(&[a, b, c, d, e, f]),
            6 => self.memory[a as usize][b as usize..b as usize + 8].copy_from_slice(&c.to_le_bytes()),
            7 => self.fill_rows(a as usize, b as usize, c as usize, &[d, e, f, g]),
            8 => self.lent = [a as usize, b as usize],
            other => panic!("no record {other}"),
        }
        "-".into()
    }

    fn fill_rows(&mut self, memory: usize, count: usize, key: usize, numbers: &[u64]) {
        let numbers = if key == 33 { numbers } else { &numbers[..3] };
        let width = key + 8 * numbers.len();
        for place in 0..count {
            let row = &mut self.memory[memory][width * place..width * (place + 1)];
            row.fill(0);
            row[..2].copy_from_slice(&(place as u16).to_be_bytes());
            for (at, number) in numbers.iter().enumerate() {
                row[key + 8 * at..key + 8 * at + 8].copy_from_slice(&number.to_le_bytes());
            }
        }
    }

    fn call(&mut self, given: &[u64; 6]) -> String {
        let mut key = [0; 70];
        key[..33].copy_from_slice(&self.peer);
        let subject = [Subject::Bans, Subject::Limiter, Subject::Gossip][given[0] as usize];
        if subject == Subject::Limiter {
            key[33..69].copy_from_slice(&self.outpoint);
            key[69] = (given[5] != 0).into();
        }
        let call = GossipCall {
            subject,
            operation: given[1] as u32,
            key,
            side: given[5] as u32,
            violation: given[2] as u32,
            bytes: given[3],
            now: given[4],
        };
        let [first, second] = &mut self.memory;
        let lent = [&mut first[..self.lent[0]], &mut second[..self.lent[1]]];
        let answer = StandIn.gossip(&call, &mut self.words, lent);
        let longs = self.words.longs;
        let (number, value) = (answer.number, answer.values[0]);
        format!("{number} {value} {} {} {}", longs[2], longs[8], self.checksum())
    }

    fn checksum(&self) -> u64 {
        let longs = self.words.longs.iter().flat_map(|long| [long % (1 << 32), long >> 32]);
        let shorts = self.words.shorts.iter().map(|short| u64::from(*short));
        let lent = (0..2).flat_map(|memory| &self.memory[memory][..self.lent[memory]]);
        longs
            .chain(shorts)
            .chain(lent.map(|byte| u64::from(*byte)))
            .fold(0, step)
    }
}

fn bytes(words: &[u64], count: usize) -> Vec<u8> {
    words.iter().flat_map(|word| word.to_le_bytes()).take(count).collect()
}

#[test]
fn the_recorded_list_is_what_the_stand_in_answers() {
    let list = record(&mut UnchangedRust::default());
    let mut replay = Replay {
        words: GossipWords::default(),
        memory: [vec![0; MEMORY], vec![0; MEMORY]],
        lent: [0; 2],
        peer: vec![0; 33],
        outpoint: vec![0; 36],
    };
    let mut answers: BTreeMap<String, usize> = BTreeMap::new();
    for (number, (record, line)) in list.input.chunks_exact(64).zip(list.output.lines()).enumerate() {
        let words: Vec<u64> = record
            .chunks_exact(8)
            .map(|word| u64::from_le_bytes(word.try_into().unwrap()))
            .collect();
        assert_eq!(replay.record(&words), line, "record {number}: {words:?}");
        let answer = line.split(' ').next().unwrap();
        *answers.entry(format!("record {} {answer}", words[0])).or_default() += 1;
    }
    assert!(list.input.len() < 400_000, "{} records", list.records);
    for answer in ["0", "1", "2", "3", "5", "259", "260", "261"] {
        assert!(
            answers.contains_key(&format!("record 5 {answer}")),
            "no {answer} in {answers:?}"
        );
    }
    println!("{} records: {answers:?}", list.records);
}
