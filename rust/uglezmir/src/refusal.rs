use std::error::Error;
use std::fmt;
use uglezmir_sys::numbers;

/// Why a call was refused. A refused call has changed nothing.
///
/// The Rust has no refusals: it trusts its caller and its own state. Here [`LimitTooLarge`](Self::LimitTooLarge) comes from makers,
/// [`NoRoomInFlight`](Self::NoRoomInFlight) and [`NoOutboundRow`](Self::NoOutboundRow) from the `try_` calls, [`WrongLayout`](Self::WrongLayout) and
/// [`Unsound`](Self::Unsound) from reading a snapshot. The others can't come from this crate: a policy owns its memory, sized by its limit, and
/// it is proved that a policy which was made stays sound.
///
/// ```
/// use uglezmir::peer_message_policy::{PeerMessagePolicy, PeerMessagePolicyConfig};
/// use uglezmir::Refusal;
///
/// let config = PeerMessagePolicyConfig { max_tracked_peers: 50_000, ..Default::default() };
/// let refusal = PeerMessagePolicy::new(config).unwrap_err();
/// assert_eq!(refusal, Refusal::LimitTooLarge);
/// assert_eq!(refusal.number(), 2);
/// assert_eq!(refusal.to_string(), "refusal 2: a limit above 1,024 rows");
/// ```
#[derive(Clone, Copy, Debug, PartialEq, Eq, Hash)]
#[non_exhaustive]
pub enum Refusal {
    /// 1: the memory of a table is shorter than its limit, or an output shorter than what is written.
    TooShort,
    /// 2: a table's limit is above 1,024.
    LimitTooLarge,
    /// 3: the state is unsound: no policy could have come to it.
    Unsound,
    /// 4: the message would be let in, but the ceiling is unlimited, and the count or the bytes in flight have no room in their numbers.
    NoRoomInFlight,
    /// 5: the call would make an outbound row, and 1,024 exist.
    NoOutboundRow,
    /// 6: the snapshot's layout is wrong.
    WrongLayout,
    /// A number that none of these has: the library that is linked is not the one that this crate was written for.
    Unknown(u32),
}

impl Refusal {
    /// The refusal of a number below 256.
    pub(crate) fn of(number: u32) -> Self {
        match number {
            numbers::REFUSAL_TOO_SHORT => Self::TooShort,
            numbers::REFUSAL_LIMIT_TOO_LARGE => Self::LimitTooLarge,
            numbers::REFUSAL_UNSOUND => Self::Unsound,
            numbers::REFUSAL_OVERFLOW => Self::NoRoomInFlight,
            numbers::REFUSAL_NO_ROW => Self::NoOutboundRow,
            numbers::REFUSAL_WRONG_LAYOUT => Self::WrongLayout,
            other => Self::Unknown(other),
        }
    }

    /// The number under which the library's documents know it.
    pub fn number(self) -> u32 {
        match self {
            Self::TooShort => numbers::REFUSAL_TOO_SHORT,
            Self::LimitTooLarge => numbers::REFUSAL_LIMIT_TOO_LARGE,
            Self::Unsound => numbers::REFUSAL_UNSOUND,
            Self::NoRoomInFlight => numbers::REFUSAL_OVERFLOW,
            Self::NoOutboundRow => numbers::REFUSAL_NO_ROW,
            Self::WrongLayout => numbers::REFUSAL_WRONG_LAYOUT,
            Self::Unknown(number) => number,
        }
    }
}

impl fmt::Display for Refusal {
    fn fmt(&self, f: &mut fmt::Formatter<'_>) -> fmt::Result {
        let what = match self {
            Self::TooShort => "a table or an output is too short",
            Self::LimitTooLarge => "a limit above 1,024 rows",
            Self::Unsound => "an unsound state",
            Self::NoRoomInFlight => "no room in the numbers of the load in flight",
            Self::NoOutboundRow => "no outbound row left: 1,024 peers have one",
            Self::WrongLayout => "a snapshot whose layout is wrong",
            Self::Unknown(_) => "unknown to this crate: is another version of the library linked?",
        };
        write!(f, "refusal {}: {what}", self.number())
    }
}

impl Error for Refusal {}
