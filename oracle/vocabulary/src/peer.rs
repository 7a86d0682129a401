//! The peers' policy in plain numbers: settings, rows, state, calls, and the record that crosses the C boundary.

pub type Key = [u8; 33];

/// The nine settings, in the Rust's field order.
#[derive(Clone, Copy, Debug, PartialEq, Eq)]
pub struct Settings {
    pub interval: u64,
    pub burst: u32,
    pub rate: u64,
    pub burst_bytes: u64,
    pub threshold: u32,
    pub ban_duration: u64,
    pub max_tracked: u64,
    pub max_messages: u32,
    pub max_bytes: u64,
}

impl Settings {
    pub fn words(&self) -> [u64; 9] {
        [
            self.interval,
            self.burst.into(),
            self.rate,
            self.burst_bytes,
            self.threshold.into(),
            self.ban_duration,
            self.max_tracked,
            self.max_messages.into(),
            self.max_bytes,
        ]
    }

    /// Nothing where a number is too large for its field.
    pub fn from_words(words: &[u64]) -> Option<Self> {
        Some(Self {
            interval: words[0],
            burst: words[1].try_into().ok()?,
            rate: words[2],
            burst_bytes: words[3],
            threshold: words[4].try_into().ok()?,
            ban_duration: words[5],
            max_tracked: words[6],
            max_messages: words[7].try_into().ok()?,
            max_bytes: words[8],
        })
    }

    /// A limit of 0 counts as 1.
    pub fn row_limit(&self) -> u64 {
        self.max_tracked.max(1)
    }

    pub fn unlimited(&self) -> bool {
        self.max_messages == 0 || self.max_bytes == 0
    }
}

/// The eleven numbers of a row by name.
pub const MESSAGES: usize = 0;
pub const MESSAGES_REFILL: usize = 1;
pub const BYTES: usize = 2;
pub const BYTES_REFILL: usize = 3;
pub const RATE_COUNT: usize = 4;
pub const RATE_START: usize = 5;
pub const INVALID_COUNT: usize = 6;
pub const INVALID_START: usize = 7;
pub const BAN_MARK: usize = 8;
pub const BAN_END: usize = 9;
pub const LAST_USED: usize = 10;

#[derive(Clone, Copy, Debug, PartialEq, Eq)]
pub struct Row {
    pub key: Key,
    pub numbers: [u64; 11],
}

/// A whole policy; the rows ascend by key.
#[derive(Clone, Debug, PartialEq, Eq)]
pub struct PeerState {
    pub settings: Settings,
    pub in_flight_messages: u32,
    pub in_flight_bytes: u64,
    pub rows: Vec<Row>,
}

impl PeerState {
    pub fn fresh(settings: Settings) -> Self {
        Self {
            settings,
            in_flight_messages: 0,
            in_flight_bytes: 0,
            rows: Vec::new(),
        }
    }

    pub fn row(&self, key: &Key) -> Option<&Row> {
        let found = self.rows.binary_search_by(|row| row.key.cmp(key));
        found.ok().map(|at| &self.rows[at])
    }
}

#[derive(Clone, Copy, Debug, PartialEq, Eq)]
pub enum PeerOperation {
    Admit,
    RecordInvalid,
    IsBanned,
    OnDisconnected,
    ReleaseIngress,
    InFlight,
    HeldTime,
}

impl PeerOperation {
    pub const ALL: [Self; 7] = [
        Self::Admit,
        Self::RecordInvalid,
        Self::IsBanned,
        Self::OnDisconnected,
        Self::ReleaseIngress,
        Self::InFlight,
        Self::HeldTime,
    ];

    /// The first letter of the event's line; `f` and `h` are no events of admit-trace.
    pub fn letter(self) -> char {
        match self {
            Self::Admit => 'a',
            Self::RecordInvalid => 'i',
            Self::IsBanned => 'b',
            Self::OnDisconnected => 'd',
            Self::ReleaseIngress => 'r',
            Self::InFlight => 'f',
            Self::HeldTime => 'h',
        }
    }

    pub fn uses_key(self) -> bool {
        !matches!(self, Self::ReleaseIngress | Self::InFlight)
    }

    pub fn uses_bytes(self) -> bool {
        matches!(self, Self::Admit | Self::ReleaseIngress)
    }
}

#[derive(Clone, Copy, Debug)]
pub struct PeerCall {
    pub operation: PeerOperation,
    pub key: Key,
    pub bytes: u64,
    pub now: u64,
}

/// The policy's record as it crosses the C boundary: nothing in it can be out of its field's range.
#[derive(Clone, Copy, Debug, PartialEq, Eq)]
pub struct Record {
    /// interval, rate, burst_bytes, ban_duration, max_tracked, max_bytes, in_flight_bytes, rows
    pub longs: [u64; 8],
    /// burst, threshold, max_messages, in_flight_messages
    pub shorts: [u32; 4],
}

impl Record {
    pub fn of(state: &PeerState) -> Self {
        let s = &state.settings;
        Self {
            longs: [
                s.interval,
                s.rate,
                s.burst_bytes,
                s.ban_duration,
                s.max_tracked,
                s.max_bytes,
                state.in_flight_bytes,
                state.rows.len() as u64,
            ],
            shorts: [s.burst, s.threshold, s.max_messages, state.in_flight_messages],
        }
    }
}
