//! Why a message is admitted or not. The Rust doesn't say, so `original` works it out from its state before the call.

/// What decided, in step order; a limit that ran short by bytes says by how many.
#[derive(Clone, Copy, Debug, PartialEq, Eq)]
pub enum Cause {
    Allowed,
    Messages,
    Bytes(u64),
    Slot,
    CeilingBytes(u64),
    LiveBan,
    BanBegun,
}

/// The numbers.
pub const ALLOWED: u64 = 0;
pub const MESSAGES: u64 = 1;
pub const BYTES: u64 = 2;
pub const SLOT: u64 = 3;
pub const CEILING_BYTES: u64 = 4;
pub const LIVE_BAN: u64 = 5;
pub const BAN_BEGUN: u64 = 6;

/// The names by number, as a recorded list has them.
pub const NAMES: [&str; 7] = [
    "Allow",
    "Disconnect-messages",
    "Disconnect-bytes",
    "Disconnect-slot",
    "Disconnect-ceiling-bytes",
    "Ban-live",
    "Ban-begun",
];

/// The trace program's words by number: of a limit it says which, of a ban no more than that.
pub const WORDS: [&str; 7] = [
    "Allow",
    "Disconnect-messages",
    "Disconnect-bytes",
    "Disconnect-ceiling",
    "Disconnect-ceiling",
    "Ban",
    "Ban",
];

impl Cause {
    /// Its number, and by how much its limit ran short, as they cross the C boundary.
    pub const fn words(self) -> [u64; 2] {
        match self {
            Self::Allowed => [ALLOWED, 0],
            Self::Messages => [MESSAGES, 1],
            Self::Bytes(short) => [BYTES, short],
            Self::Slot => [SLOT, 1],
            Self::CeilingBytes(short) => [CEILING_BYTES, short],
            Self::LiveBan => [LIVE_BAN, 0],
            Self::BanBegun => [BAN_BEGUN, 0],
        }
    }
}

/// The name, and by how much a limit ran short, if one did.
pub fn text([number, short]: [u64; 2]) -> String {
    match (NAMES.get(number as usize), short) {
        (Some(name), 0) => name.to_string(),
        (Some(name), short) => format!("{name} {short}"),
        (None, _) => format!("unknown cause {number} {short}"),
    }
}
