//! The numbers that cross, by name. `include/uglezmir.h` has each of them as `UGLEZMIR_..`; a test compares the two.

// How many words things cross in. A later request adds two to a policy's: name the number, don't write it.
pub const POLICY_LONGS: usize = 8;
pub const POLICY_SHORTS: usize = 4;
pub const CAUSE_WORDS: usize = 2;
pub const SETTINGS_LONGS: usize = 6;
pub const SETTINGS_SHORTS: usize = 3;
pub const LIMIT_WORDS: usize = 2;
pub const AMOUNT_WORDS: usize = 5;
pub const DISCRETE_LONGS: usize = 2;
pub const DISCRETE_SHORTS: usize = 2;
pub const BYTE_LONGS: usize = 3;
pub const BAN_LONGS: usize = 3;
pub const BAN_SHORTS: usize = 1;
pub const LIMITER_LONGS: usize = 3;
pub const LIMITER_SHORTS: usize = 1;
pub const GOSSIP_LONGS: usize = 10;
pub const GOSSIP_SHORTS: usize = 6;
pub const TRACE_PLACES: usize = 3;
pub const SNAPSHOT_ROW_NUMBERS: usize = 12;

// How many bytes keys, rows and lines have, and how many rows a table has at most.
pub const PEER_KEY: usize = 33;
pub const OUTPOINT_KEY: usize = 36;
pub const PEER_ROW: usize = 121;
pub const BAN_ROW: usize = 65;
pub const LIMITER_ROW: usize = 94;
pub const OUTBOUND_ROW: usize = 65;
pub const TRACE_LINE: usize = 73;
pub const SNAPSHOT_WITHOUT_ROWS: usize = 120;
pub const MOST_ROWS: usize = 1024;

// Refusals: a number below FIRST_ANSWER. A refused call changes nothing.
pub const REFUSAL_UNKNOWN: u32 = 0;
pub const REFUSAL_TOO_SHORT: u32 = 1;
pub const REFUSAL_LIMIT_TOO_LARGE: u32 = 2;
pub const REFUSAL_UNSOUND: u32 = 3;
pub const REFUSAL_OVERFLOW: u32 = 4;
pub const REFUSAL_NO_ROW: u32 = 5;
pub const REFUSAL_WRONG_LAYOUT: u32 = 6;

// Answers.
pub const FIRST_ANSWER: u32 = 256;
pub const ALLOW: u32 = 256;
pub const DISCONNECT: u32 = 257;
pub const BAN: u32 = 258;
pub const NO: u32 = 259;
pub const YES: u32 = 260;
pub const DONE: u32 = 261;

// Causes of an answer to a message: the first of a cause's words. The second is by how much its limit ran short: one message, bytes, one slot,
// bytes under the ceiling; 0 where none did.
pub const CAUSE_ALLOWED: u64 = 0;
pub const CAUSE_MESSAGES: u64 = 1;
pub const CAUSE_BYTES: u64 = 2;
pub const CAUSE_SLOT: u64 = 3;
pub const CAUSE_CEILING_BYTES: u64 = 4;
pub const CAUSE_LIVE_BAN: u64 = 5;
pub const CAUSE_BAN_BEGUN: u64 = 6;

// A policy's words. The settings' own words are the first six and the first three of these.
pub const POLICY_LONG_INTERVAL_MS: usize = 0;
pub const POLICY_LONG_RATE_BYTES_PER_SEC: usize = 1;
pub const POLICY_LONG_BURST_BYTES: usize = 2;
pub const POLICY_LONG_BAN_DURATION_MS: usize = 3;
pub const POLICY_LONG_MAX_TRACKED_PEERS: usize = 4;
pub const POLICY_LONG_MAX_IN_FLIGHT_BYTES: usize = 5;
pub const POLICY_LONG_IN_FLIGHT_BYTES: usize = 6;
pub const POLICY_LONG_ROWS: usize = 7;
pub const POLICY_SHORT_BURST: usize = 0;
pub const POLICY_SHORT_VIOLATION_BAN_THRESHOLD: usize = 1;
pub const POLICY_SHORT_MAX_IN_FLIGHT_MESSAGES: usize = 2;
pub const POLICY_SHORT_IN_FLIGHT_MESSAGES: usize = 3;

// The words of buckets.
pub const DISCRETE_LONG_INTERVAL_MS: usize = 0;
pub const DISCRETE_LONG_LAST_REFILL_MS: usize = 1;
pub const DISCRETE_SHORT_CAPACITY: usize = 0;
pub const DISCRETE_SHORT_AVAILABLE: usize = 1;
pub const BYTE_LONG_RATE_BYTES_PER_SEC: usize = 0;
pub const BYTE_LONG_BURST_BYTES: usize = 1;
pub const BYTE_LONG_LAST_REFILL_MS: usize = 2;

// The words of bans, limiter and gossip state.
pub const BAN_LONG_DURATION_MS: usize = 0;
pub const BAN_LONG_MAX_ENTRIES: usize = 1;
pub const BAN_LONG_ROWS: usize = 2;
pub const BAN_SHORT_THRESHOLD: usize = 0;
pub const LIMITER_LONG_INTERVAL_MS: usize = 0;
pub const LIMITER_LONG_MAX_ENTRIES: usize = 1;
pub const LIMITER_LONG_ROWS: usize = 2;
pub const LIMITER_SHORT_BURST: usize = 0;
pub const GOSSIP_LONG_BAN_DURATION_MS: usize = 0;
pub const GOSSIP_LONG_BAN_MAX_ENTRIES: usize = 1;
pub const GOSSIP_LONG_BAN_ROWS: usize = 2;
pub const GOSSIP_LONG_GLOBAL_RATE_BYTES_PER_SEC: usize = 3;
pub const GOSSIP_LONG_GLOBAL_BURST_BYTES: usize = 4;
pub const GOSSIP_LONG_GLOBAL_LAST_REFILL_MS: usize = 5;
pub const GOSSIP_LONG_PEER_RATE_BYTES_PER_SEC: usize = 6;
pub const GOSSIP_LONG_PEER_BURST_BYTES: usize = 7;
pub const GOSSIP_LONG_OUTBOUND_ROWS: usize = 8;
pub const GOSSIP_LONG_QUEUE_CAPACITY: usize = 9;
pub const GOSSIP_SHORT_BAN_THRESHOLD: usize = 0;
pub const GOSSIP_SHORT_GLOBAL_AVAILABLE: usize = 1;

// The parts of a snapshot, and the numbers of one of its rows; behind them stands where the next row begins.
pub const SNAPSHOT_KIND_SETTINGS: u32 = 1;
pub const SNAPSHOT_KIND_LOAD: u32 = 2;
pub const SNAPSHOT_KIND_ROWS: u32 = 3;
pub const SNAPSHOT_ROW_MESSAGES_AVAILABLE: usize = 0;
pub const SNAPSHOT_ROW_MESSAGES_LAST_REFILL_MS: usize = 1;
pub const SNAPSHOT_ROW_BYTES_AVAILABLE: usize = 2;
pub const SNAPSHOT_ROW_BYTES_LAST_REFILL_MS: usize = 3;
pub const SNAPSHOT_ROW_VIOLATIONS: usize = 4;
pub const SNAPSHOT_ROW_VIOLATIONS_STARTED_AT_MS: usize = 5;
pub const SNAPSHOT_ROW_INVALID: usize = 6;
pub const SNAPSHOT_ROW_INVALID_STARTED_AT_MS: usize = 7;
pub const SNAPSHOT_ROW_BAN_MARK: usize = 8;
pub const SNAPSHOT_ROW_BANNED_UNTIL_MS: usize = 9;
pub const SNAPSHOT_ROW_LAST_USED_MS: usize = 10;
pub const SNAPSHOT_ROW_NEXT_PLACE: usize = 11;

// Violations.
pub const VIOLATION_INVALID_SYNC_RESPONSE: u32 = 0;
pub const VIOLATION_INVALID_BROADCAST_MESSAGE: u32 = 1;
pub const VIOLATION_POLICY_REJECTED_MESSAGE: u32 = 2;

// Operations on the peers' settings.
pub const OP_SETTINGS_DEFAULT: u32 = 0;
pub const OP_SETTINGS_WITH_LIMITS: u32 = 1;
pub const OP_SETTINGS_MESSAGE_LIMIT_DISABLED: u32 = 2;
pub const OP_SETTINGS_BAN_DISABLED: u32 = 3;
pub const OP_SETTINGS_IS_UNLIMITED: u32 = 4;

// Operations on a byte limit.
pub const OP_LIMIT_DEFAULT_GLOBAL: u32 = 0;
pub const OP_LIMIT_DEFAULT_PEER: u32 = 1;
pub const OP_LIMIT_IS_DISABLED: u32 = 2;

// Operations on a discrete bucket.
pub const OP_DISCRETE_NEW: u32 = 0;
pub const OP_DISCRETE_REFILL: u32 = 1;
pub const OP_DISCRETE_TRY_CONSUME: u32 = 2;
pub const OP_DISCRETE_IS_FULL: u32 = 3;

// Operations on a byte bucket.
pub const OP_BYTE_NEW: u32 = 4;
pub const OP_BYTE_REFILL: u32 = 5;
pub const OP_BYTE_TRY_CONSUME: u32 = 6;
pub const OP_BYTE_RESERVE: u32 = 7;
pub const OP_BYTE_PEEK_DELAY: u32 = 8;
pub const OP_BYTE_REFUND: u32 = 9;
pub const OP_BYTE_HAS_DEBT: u32 = 10;
pub const OP_BYTE_BURST_BYTES: u32 = 11;
pub const OP_BYTE_IS_DISABLED: u32 = 12;

// Operations on amounts.
pub const OP_AMOUNT_FROM_U64: u32 = 0;
pub const OP_AMOUNT_IS_NEGATIVE: u32 = 1;
pub const OP_AMOUNT_IS_BELOW: u32 = 2;
pub const OP_AMOUNT_IS_ABOVE: u32 = 3;
pub const OP_AMOUNT_LESSER: u32 = 4;
pub const OP_AMOUNT_SATURATING_ADD: u32 = 5;
pub const OP_AMOUNT_SATURATING_SUB: u32 = 6;
pub const OP_AMOUNT_DEFICIT: u32 = 7;
pub const OP_AMOUNT_TO_U64: u32 = 8;
pub const OP_AMOUNT_IS_I128: u32 = 9;
pub const OP_AMOUNT_PRODUCT_PER_THOUSAND: u32 = 10;
pub const OP_AMOUNT_TIMES_THOUSAND: u32 = 11;
pub const OP_AMOUNT_DIV_CEIL_LOW: u32 = 12;

// Operations on the bans.
pub const OP_BAN_NEW: u32 = 1;
pub const OP_BAN_WITH_MAX_ENTRIES: u32 = 2;
pub const OP_BAN_RECORD_VIOLATION: u32 = 3;
pub const OP_BAN_IS_BANNED: u32 = 4;
pub const OP_BAN_SCORE: u32 = 5;
pub const OP_BAN_PRUNE_EXPIRED: u32 = 6;
pub const OP_BAN_TRACKED_PEERS: u32 = 7;

// Operations on the limiter.
pub const OP_LIMITER_NEW: u32 = 1;
pub const OP_LIMITER_WITH_MAX_ENTRIES: u32 = 2;
pub const OP_LIMITER_TRY_ACQUIRE: u32 = 3;
pub const OP_LIMITER_TRACKED_KEYS: u32 = 4;

// Operations on the gossip state.
pub const OP_GOSSIP_NEW: u32 = 1;
pub const OP_GOSSIP_DEFAULT: u32 = 2;
pub const OP_GOSSIP_RECORD_VIOLATION: u32 = 3;
pub const OP_GOSSIP_IS_BANNED: u32 = 4;
pub const OP_GOSSIP_PRUNE_BANS: u32 = 5;
pub const OP_GOSSIP_ALLOW: u32 = 6;
pub const OP_GOSSIP_ESTIMATE_DELAY: u32 = 7;
pub const OP_GOSSIP_REMOVE_PEER: u32 = 8;
pub const OP_GOSSIP_RESERVE: u32 = 9;
pub const OP_GOSSIP_REFUND: u32 = 10;
pub const OP_GOSSIP_SHOULD_BYPASS: u32 = 11;
pub const OP_GOSSIP_EXCEEDS: u32 = 12;
pub const OP_GOSSIP_QUEUE_CAPACITY: u32 = 13;
pub const OP_GOSSIP_GLOBAL_CAPACITY: u32 = 14;
pub const OP_GOSSIP_PEER_CAPACITY: u32 = 15;
