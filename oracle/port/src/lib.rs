//! The proved library as the port under test: each call goes to a C function of crate `c_peers` (peers), `c_trace` (inputs of
//! the trace program), `c_gossip` (bans, limiter and gossip state), `c_snapshot` (snapshots) or `c_buckets` (the rest).

mod gossip;
mod peers;
mod plain;
mod snapshots;
mod traces;

use traces::Scan;
use vocabulary::amounts::{DIV_CEIL_LOW, FROM_U64, PRODUCT_PER_THOUSAND, TO_U64};
use vocabulary::settings::{self, SettingsCall};
use vocabulary::{
    Amount, Answer, BucketCall, BucketOperation, Buckets, Key, PeerCall, PeerOperation, Port, Record, Words,
};
use vocabulary::{GossipCall, GossipWords, Snapshots};

pub struct Proved;

impl Port for Proved {
    fn name(&self) -> &'static str {
        "the proved library"
    }

    fn make_peers(&self, record: &mut Record, table: &mut [u8]) -> Answer {
        Answer::plain(peers::new(record, table))
    }

    fn peers(&self, call: &PeerCall, record: &mut Record, table: &mut [u8]) -> Answer {
        let (key, bytes, now) = (&call.key, call.bytes, call.now);
        match call.operation {
            PeerOperation::Admit => peers::admit(record, table, key, bytes, now),
            PeerOperation::RecordInvalid => Answer::plain(peers::record_invalid(record, table, key, now)),
            PeerOperation::IsBanned => Answer::plain(peers::is_banned(record, table, key, now)),
            PeerOperation::OnDisconnected => Answer::plain(peers::on_disconnected(record, table, key, now)),
            PeerOperation::ReleaseIngress => Answer::plain(peers::release_ingress(record, bytes)),
            PeerOperation::InFlight => {
                let mut numbers = [0; 2];
                let number = peers::in_flight(record, &mut numbers);
                let values = [numbers[0], numbers[1], 0];
                Answer { number, values }
            }
            PeerOperation::HeldTime => {
                let mut held = 0;
                let number = peers::held_time(record, table, key, now, &mut held);
                let values = [held, 0, 0];
                Answer { number, values }
            }
        }
    }

    fn allows(&self, key: &Key, bytes: u64, now: u64, record: &mut Record, table: &mut [u8]) -> bool {
        peers::allows(record, table, key, bytes, now)
    }

    /// The C functions go by the numbers of the recorded lists. A `set` is no call of the library: it writes the bucket.
    fn bucket(&self, call: &BucketCall, buckets: &mut Buckets) -> Answer {
        let number = call.operation as u32;
        let [a, b, ..] = call.operands;
        match call.operation {
            BucketOperation::DiscreteSet => buckets.discrete = call.discrete_to_set().expect("numbers within u32"),
            BucketOperation::ByteSet => buckets.byte = call.byte_to_set(),
            BucketOperation::DiscreteNew => {
                (buckets.discrete.interval, buckets.discrete.capacity) = (a, b as u32);
                return plain::discrete(number, &mut buckets.discrete, 0);
            }
            BucketOperation::ByteNew => {
                (buckets.byte.rate, buckets.byte.burst) = (a, b);
                return plain::byte(number, &mut buckets.byte, 0, 0);
            }
            BucketOperation::DiscreteRefill | BucketOperation::DiscreteTryConsume | BucketOperation::DiscreteIsFull => {
                return plain::discrete(number, &mut buckets.discrete, a);
            }
            BucketOperation::ByteRefill | BucketOperation::ByteHasDebt => {
                return plain::byte(number, &mut buckets.byte, 0, a);
            }
            _ => return plain::byte(number, &mut buckets.byte, a, b),
        }
        Answer::done()
    }

    fn settings(&self, call: &Words) -> (Answer, [u64; 9]) {
        match settings::read(call) {
            SettingsCall::Peers(operation, mut s) => (plain::settings(operation as u32, &mut s), s.words()),
            SettingsCall::Bytes(operation, mut limit) => {
                let answer = plain::limit(operation as u32, &mut limit);
                (answer, settings::as_nine(&limit))
            }
        }
    }

    /// Numbers come where the recorded lists have them: alone in front, or behind an amount.
    fn amount(&self, call: &Words) -> Answer {
        let (a, b) = (Amount::from_words(&call[1..4]), Amount::from_words(&call[4..7]));
        let (n, m) = match call[0] {
            FROM_U64 | PRODUCT_PER_THOUSAND => (call[1], call[2]),
            _ => (call[4], 0),
        };
        let (answer, amount) = plain::amount(call[0] as u32, &a, &b, n, m);
        match call[0] {
            TO_U64 | DIV_CEIL_LOW => answer,
            _ if answer == Answer::done() => Answer::values(amount.words()),
            _ => answer,
        }
    }

    /// A scan hands out at most a line for each of the input's, and one for an input without any.
    fn trace(&self, input: &[u8], table: &mut [u8]) -> Vec<u8> {
        let mut scan = Scan::open(input);
        let mut written = Vec::new();
        for _ in 0..input.len() + 2 {
            let line = scan.next(input, table);
            if line.is_empty() {
                return written;
            }
            written.extend(line);
        }
        panic!("more lines written than read");
    }

    fn has_gossip(&self) -> bool {
        true
    }

    fn gossip(&self, call: &GossipCall, words: &mut GossipWords, tables: [&mut [u8]; 2]) -> Answer {
        gossip::call(call, words, tables)
    }

    fn snapshots(&self) -> Option<&dyn Snapshots> {
        Some(self)
    }
}
