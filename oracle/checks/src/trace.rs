//! A trace: what it is about, where it begins, its calls, and whether the Rust has an answer to each.

use crate::damage::PEER_DAMAGE;
use crate::gossip::damage::{BAN_DAMAGE_NAMES, GOSSIP_DAMAGE_NAMES, LIMITER_DAMAGE_NAMES};
use crate::gossip::start::GossipStart;
use crate::inputs::damage::SORTS;
use crate::{amounts, settings, snapshots};
use vocabulary::peer::*;
use vocabulary::{BucketCall, BucketOperation, Subject, Words};

/// What a trace is about. Another subject is a line in each list here, a step in `both_sides` and a plan in `calls`.
#[derive(Clone, Copy, Debug, PartialEq, Eq)]
pub enum Kind {
    Peers,
    Buckets,
    Amounts,
    Settings,
    PeerRefusals,
    BucketRefusals,
    Inputs,
    Bans,
    Limiter,
    Gossip,
    BanRefusals,
    LimiterRefusals,
    GossipRefusals,
    Snapshots,
    SnapshotRefusals,
}

/// The operations on peers, then the making of a fresh policy, with which a trace begins.
const PEER_OPERATIONS: [&str; MAKING as usize + 1] = [
    "admit",
    "record_invalid",
    "is_banned",
    "on_disconnected",
    "release_ingress",
    "in_flight",
    "held_time",
    "new",
];

/// The place of the making among the operations on peers; no call has this number.
pub const MAKING: u64 = PeerOperation::ALL.len() as u64;

impl Kind {
    pub const ALL: [Self; 15] = [
        Self::Peers,
        Self::Buckets,
        Self::Amounts,
        Self::Settings,
        Self::PeerRefusals,
        Self::BucketRefusals,
        Self::Inputs,
        Self::Bans,
        Self::Limiter,
        Self::Gossip,
        Self::BanRefusals,
        Self::LimiterRefusals,
        Self::GossipRefusals,
        Self::Snapshots,
        Self::SnapshotRefusals,
    ];

    pub fn name(self) -> &'static str {
        match self {
            Self::Peers => "peers",
            Self::Buckets => "buckets",
            Self::Amounts => "amounts",
            Self::Settings => "settings",
            Self::PeerRefusals => "peer-refusals",
            Self::BucketRefusals => "bucket-refusals",
            Self::Inputs => "inputs",
            Self::Bans => "bans",
            Self::Limiter => "limiter",
            Self::Gossip => "gossip",
            Self::BanRefusals => "ban-refusals",
            Self::LimiterRefusals => "limiter-refusals",
            Self::GossipRefusals => "gossip-refusals",
            Self::Snapshots => "snapshots",
            Self::SnapshotRefusals => "snapshot-refusals",
        }
    }

    pub fn operations(self) -> &'static [&'static str] {
        match self {
            Self::Peers => &PEER_OPERATIONS,
            Self::Buckets => &BucketOperation::NAMES,
            Self::Amounts => &amounts::NAMES,
            Self::Settings => &vocabulary::settings::NAMES,
            Self::PeerRefusals => &PEER_DAMAGE,
            Self::BucketRefusals => &BucketOperation::NAMES,
            Self::Inputs => &SORTS,
            Self::Bans => Subject::Bans.operations(),
            Self::Limiter => Subject::Limiter.operations(),
            Self::Gossip => Subject::Gossip.operations(),
            Self::BanRefusals => &BAN_DAMAGE_NAMES,
            Self::LimiterRefusals => &LIMITER_DAMAGE_NAMES,
            Self::GossipRefusals => &GOSSIP_DAMAGE_NAMES,
            Self::Snapshots => &snapshots::OPERATIONS,
            Self::SnapshotRefusals => &snapshots::damage::NAMES,
        }
    }

    /// The part of the gossip policy that it is about.
    pub fn gossip_subject(self) -> Option<Subject> {
        match self {
            Self::Bans | Self::BanRefusals => Some(Subject::Bans),
            Self::Limiter | Self::LimiterRefusals => Some(Subject::Limiter),
            Self::Gossip | Self::GossipRefusals => Some(Subject::Gossip),
            _ => None,
        }
    }

    /// Whether it is about snapshots.
    pub fn is_of_snapshots(self) -> bool {
        matches!(self, Self::Snapshots | Self::SnapshotRefusals)
    }

    /// Whether it begins with a peers' policy and its table.
    pub fn begins_with_peers(self) -> bool {
        matches!(self, Self::Peers | Self::PeerRefusals) || self.is_of_snapshots()
    }

    /// Whether its calls are on damaged gossip states.
    pub fn is_gossip_refusals(self) -> bool {
        matches!(self, Self::BanRefusals | Self::LimiterRefusals | Self::GossipRefusals)
    }
}

/// Everything that a replay needs. A call on peers names its key by its place in `keys`.
#[derive(Clone, Debug)]
pub struct Trace {
    pub kind: Kind,
    pub keys: Vec<Key>,
    pub start: PeerStart,
    pub calls: Vec<Words>,
    /// Of the kind `Inputs`, which has one call.
    pub input: Input,
    /// Of the kinds about the gossip policy; a call names its key by its place in the start's keys.
    pub gossip: GossipStart,
}

/// A whole input of the trace program, and the sort of its damage.
#[derive(Clone, Debug, Default)]
pub struct Input {
    pub sort: u64,
    pub bytes: Vec<u8>,
}

/// The state that a trace on peers begins with, and the lent table.
#[derive(Clone, Debug, Default)]
pub struct PeerStart {
    /// The nine settings.
    pub settings: [u64; 9],
    pub in_flight: [u64; 2],
    /// The place of a key and the row's eleven numbers.
    pub rows: Vec<(usize, [u64; 11])>,
    /// Bytes of the table beyond the limit's rows.
    pub spare: u64,
    /// What places that hold nothing are filled with (0: zeros).
    pub filler: u64,
}

impl PeerStart {
    pub fn is_fresh(&self) -> bool {
        self.rows.is_empty() && self.in_flight == [0, 0]
    }
}

impl Trace {
    pub fn of_calls(kind: Kind, calls: Vec<Words>) -> Self {
        Self {
            kind,
            keys: Vec::new(),
            start: PeerStart::default(),
            calls,
            input: Input::default(),
            gossip: GossipStart::default(),
        }
    }

    /// The state that it begins with, if that is sound (docs/REFERENCE.md, "Sound"); judged here apart from any port.
    pub fn peer_state(&self) -> Option<PeerState> {
        let settings = Settings::from_words(&self.start.settings)?;
        let mut state = PeerState::fresh(settings);
        state.in_flight_messages = self.start.in_flight[0].try_into().ok()?;
        state.in_flight_bytes = self.start.in_flight[1];
        for (place, numbers) in &self.start.rows {
            let key = *self.keys.get(*place)?;
            state.rows.push(Row { key, numbers: *numbers });
        }
        state.rows.sort_by_key(|row| row.key);
        is_sound(&state).then_some(state)
    }

    /// Whether the Rust has an answer to each call. A shrunk trace must stay so.
    pub fn is_valid(&self) -> bool {
        let operations = match self.kind {
            Kind::Peers => MAKING,
            kind => kind.operations().len() as u64,
        };
        if self.calls.iter().any(|call| call[0] >= operations) {
            return false;
        }
        match self.kind {
            kind if kind.begins_with_peers() => {
                let keys = self.keys.len() as u64;
                self.peer_state().is_some() && self.calls.iter().all(|call| call[1] < keys)
            }
            Kind::Buckets => self.calls.iter().all(bucket_call_is_valid),
            Kind::BucketRefusals | Kind::Inputs => true,
            Kind::Amounts => self.calls.iter().all(amounts::in_domain),
            Kind::Settings => self.calls.iter().all(settings::in_domain),
            kind => {
                let keys = self.gossip.keys.len() as u64;
                let state = kind.gossip_subject().and_then(|subject| self.gossip.state(subject));
                state.is_some()
                    && self
                        .calls
                        .iter()
                        .all(|call| call[1] < keys && (call[2] < 3 || kind == Kind::Limiter))
            }
        }
    }
}

/// Judged here apart from any port.
pub(crate) fn is_sound(state: &PeerState) -> bool {
    let s = &state.settings;
    let within = s.unlimited() || state.in_flight_messages <= s.max_messages && state.in_flight_bytes <= s.max_bytes;
    let row_is_sound = |row: &Row| {
        let n = &row.numbers;
        n[MESSAGES] <= s.burst.into()
            && n[BYTES] <= s.burst_bytes
            && n[RATE_COUNT].max(n[INVALID_COUNT]) <= u32::MAX.into()
            && n[BAN_MARK] <= 1
            && (n[BAN_MARK] == 1 || n[BAN_END] == 0)
    };
    s.max_tracked <= 1_024
        && state.rows.len() as u64 <= s.row_limit()
        && within
        && state.rows.iter().all(row_is_sound)
        && state.rows.windows(2).all(|pair| pair[0].key < pair[1].key)
}

fn bucket_call_is_valid(words: &Words) -> bool {
    let call = BucketCall::of(words);
    match call.operation {
        BucketOperation::DiscreteNew => call.operands[1] <= u32::MAX.into(),
        BucketOperation::DiscreteSet => call
            .discrete_to_set()
            .is_some_and(|bucket| bucket.available <= bucket.capacity),
        BucketOperation::ByteSet => {
            let bucket = call.byte_to_set();
            let available = bucket.available.as_i128();
            call.operands[2] < 2 && available.is_some_and(|n| n <= i128::from(bucket.burst))
        }
        _ => true,
    }
}
