//! Small edits of the Rust, each of which the comparison should notice. An edit that changes no answer and no kept state
//! says why (`same`); all others must be caught. Those of the gossip policy's tracker, limiter and state stand in `gossip`.

mod gossip;

use crate::compare::Part;

pub const PEERS: &str = "peer_message_policy.rs";
pub const GOSSIP: &str = "gossip_policy.rs";

pub struct Mutant {
    pub name: &'static str,
    pub file: &'static str,
    /// Stands exactly once in the file.
    pub old: &'static str,
    pub new: &'static str,
    /// Why nobody can tell the edited Rust from the unchanged one; empty where one can.
    pub same: &'static str,
}

const fn peers(name: &'static str, old: &'static str, new: &'static str) -> Mutant {
    Mutant {
        name,
        file: PEERS,
        old,
        new,
        same: "",
    }
}

const fn gossip(name: &'static str, old: &'static str, new: &'static str) -> Mutant {
    Mutant {
        name,
        file: GOSSIP,
        old,
        new,
        same: "",
    }
}

impl Mutant {
    const fn same(self, why: &'static str) -> Self {
        Self { same: why, ..self }
    }

    /// The edited text, if `old` stands in it exactly once.
    pub fn apply(&self, text: &str) -> Option<String> {
        (text.matches(self.old).count() == 1).then(|| text.replacen(self.old, self.new, 1))
    }
}

/// Those that a part of the comparison should notice.
pub fn of_part(part: Part) -> &'static [Mutant] {
    match part {
        Part::Gossip => gossip::MUTANTS,
        Part::Rest => MUTANTS,
    }
}

const MUTANTS: &[Mutant] = &[
    // Settings of the peers' policy.
    peers("default_interval", "PEER_MESSAGE_INTERVAL_MS: u64 = 5;", "PEER_MESSAGE_INTERVAL_MS: u64 = 6;"),
    peers("default_burst", "PEER_MESSAGE_BURST: u32 = 400;", "PEER_MESSAGE_BURST: u32 = 401;"),
    peers("default_rate", "_PER_SEC: u64 = 1024 * 1024;", "_PER_SEC: u64 = 1024 * 1000;"),
    peers("default_threshold", "THRESHOLD: u32 = 20;", "THRESHOLD: u32 = 21;"),
    peers("default_max_messages", "MESSAGES: u32 = 4_096;", "MESSAGES: u32 = 4_097;"),
    peers("default_max_tracked", "PEERS: usize = 50_000;", "PEERS: usize = 50_001;"),
    peers(
        "message_limit_off_needs_both",
        "self.peer_message_interval_ms == 0 || self.peer_message_burst == 0",
        "self.peer_message_interval_ms == 0 && self.peer_message_burst == 0",
    ),
    peers(
        "message_limit_off_by_interval_alone",
        "self.peer_message_interval_ms == 0 || self.peer_message_burst == 0",
        "self.peer_message_interval_ms == 0",
    ),
    peers("bans_off_at_one", "self.violation_ban_threshold == 0", "self.violation_ban_threshold <= 1"),
    // Windows.
    peers("window_begins_at_one", "            count: 0,", "            count: 1,"),
    peers("window_of_one_never_expires", "self.count > 0 && now_ms", "self.count > 1 && now_ms"),
    peers("empty_window_expires_too", "self.count > 0 && now_ms", "now_ms"),
    peers("window_expires_late", ">= window_duration_ms", "> window_duration_ms"),
    peers("window_start_after_now_is_far", "now_ms.saturating_sub(self.started_at_ms)", "now_ms.abs_diff(self.started_at_ms)"),
    peers("window_start_after_now_wraps", "now_ms.saturating_sub(self.started_at_ms)", "now_ms.wrapping_sub(self.started_at_ms)"),
    peers(
        "expired_window_keeps_its_start",
        "            self.count = 0;\n            self.started_at_ms = now_ms;",
        "            self.count = 0;",
    ),
    peers("expired_window_counts_one", "            self.count = 0;", "            self.count = 1;"),
    peers(
        "first_violation_keeps_the_start",
        "        if self.count == 0 {\n            self.started_at_ms = now_ms;\n        }",
        "",
    ),
    peers("second_violation_moves_the_start", "        if self.count == 0 {", "        if self.count <= 1 {"),
    peers("violations_wrap", "self.count.saturating_add(1)", "self.count.wrapping_add(1)"),
    peers("violations_count_twice", "self.count.saturating_add(1)", "self.count.saturating_add(2)"),
    peers(
        "record_does_not_expire",
        "        self.expire(now_ms, window_duration_ms);\n        if self.count",
        "        if self.count",
    )
    .same("both callers have expired both windows at the same time just before"),
    // A new entry.
    peers("new_entry_rate_start_0", "rate_limit_violations: ViolationWindow::new(now_ms)", "rate_limit_violations: ViolationWindow::new(0)"),
    peers("new_entry_invalid_start_0", "invalid_messages: ViolationWindow::new(now_ms)", "invalid_messages: ViolationWindow::new(0)"),
    peers("new_entry_banned", "            banned_until_ms: None,", "            banned_until_ms: Some(now_ms),"),
    peers("new_entry_last_used_0", "            last_used_ms: now_ms,\n        }\n    }\n\n    fn is_banned", "            last_used_ms: 0,\n        }\n    }\n\n    fn is_banned")
        .same("both callers set the last-used time of the entry to now before they keep it"),
    peers(
        "new_entry_swaps_rate_and_burst",
        "                burst_bytes: config.peer_message_burst_bytes,",
        "                burst_bytes: config.peer_message_rate_bytes_per_sec,",
    ),
    peers(
        "new_entry_interval_off_by_one",
        "                config.peer_message_interval_ms,\n",
        "                config.peer_message_interval_ms.saturating_add(1),\n",
    ),
    // Bans of an entry.
    peers("ban_live_at_its_end", "|banned_until_ms| now_ms < banned_until_ms", "|banned_until_ms| now_ms <= banned_until_ms"),
    peers("ban_end_wraps", "Some(now_ms.saturating_add(ban_duration_ms))", "Some(now_ms.wrapping_add(ban_duration_ms))"),
    peers("ban_one_longer", "Some(now_ms.saturating_add(ban_duration_ms))", "Some(now_ms.saturating_add(ban_duration_ms).saturating_add(1))"),
    peers(
        "ban_does_not_touch_last_used",
        "(ban_duration_ms));\n        self.last_used_ms = now_ms;",
        "(ban_duration_ms));",
    )
    .same("both callers set the last-used time to now before they ban"),
    peers("invalid_window_not_expired", "        self.invalid_messages.expire(now_ms, window_duration_ms);\n", ""),
    peers(
        "rate_window_not_expired",
        "        self.rate_limit_violations\n            .expire(now_ms, window_duration_ms);\n",
        "",
    ),
    // The ceiling.
    peers("unlimited_needs_both", "self.max_messages == 0 || self.max_bytes == 0", "self.max_messages == 0 && self.max_bytes == 0"),
    peers("unlimited_by_messages_alone", "self.max_messages == 0 || self.max_bytes == 0", "self.max_messages == 0"),
    peers("unlimited_by_bytes_alone", "self.max_messages == 0 || self.max_bytes == 0", "self.max_bytes == 0"),
    peers("one_message_too_many", "self.in_flight_messages >= self.max_messages", "self.in_flight_messages > self.max_messages"),
    peers("exact_bytes_refused", "bytes > self.max_bytes.saturating_sub", "bytes >= self.max_bytes.saturating_sub"),
    peers("bytes_in_flight_forgotten", "self.max_bytes.saturating_sub(self.in_flight_bytes)", "self.max_bytes"),
    peers("no_room_needs_both", "                || bytes > self.max_bytes", "                && bytes > self.max_bytes"),
    peers("ceiling_counts_two", "self.in_flight_messages += 1;", "self.in_flight_messages += 2;"),
    peers("ceiling_forgets_earlier_bytes", "self.in_flight_bytes += bytes;", "self.in_flight_bytes = bytes;"),
    peers("release_wraps_messages", "self.in_flight_messages.saturating_sub(1)", "self.in_flight_messages.wrapping_sub(1)"),
    peers("release_wraps_bytes", "self.in_flight_bytes.saturating_sub(bytes)", "self.in_flight_bytes.wrapping_sub(bytes)"),
    peers(
        "release_of_too_many_bytes_keeps_the_message",
        "        self.in_flight_messages = self.in_flight_messages.saturating_sub(1);",
        "        if self.in_flight_bytes >= bytes {\n            self.in_flight_messages = self.in_flight_messages.saturating_sub(1);\n        }",
    ),
    peers("release_keeps_the_bytes", "        self.in_flight_bytes = self.in_flight_bytes.saturating_sub(bytes);\n", ""),
    // The rows.
    peers("one_row_more", "config.max_tracked_peers.max(1)", "config.max_tracked_peers.max(1) + 1"),
    peers("limit_at_least_two", "config.max_tracked_peers.max(1)", "config.max_tracked_peers.max(2)"),
    peers("limit_0_stays_0", "config.max_tracked_peers.max(1)", "config.max_tracked_peers")
        .same("with limit 0 a new peer also finds the table full at 0 rows, drops nothing and is inserted: one row, as with 1"),
    peers("banned_row_in_the_wrong_order", "self.banned_expirations.insert((banned_until_ms, peer));", "self.ordinary_lru.insert((banned_until_ms, peer));"),
    peers("unbanned_order_by_key_alone", "self.ordinary_lru.insert((entry.last_used_ms, peer));", "self.ordinary_lru.insert((0, peer));"),
    peers("order_keeps_taken_rows", "            self.ordinary_lru.remove(&(entry.last_used_ms, *peer));\n", ""),
    peers("ban_order_keeps_taken_rows", "            self.banned_expirations.remove(&(banned_until_ms, *peer));\n", ""),
    peers("prune_spares_the_exact_end", "            if now_ms < banned_until_ms {\n                break;", "            if now_ms <= banned_until_ms {\n                break;"),
    peers("prune_drops_one_only", "            self.peers.remove(&peer);\n", "            self.peers.remove(&peer);\n            break;\n"),
    peers("prune_drops_live_bans", "            if now_ms < banned_until_ms {\n                break;\n            }\n", ""),
    peers("room_made_for_a_known_peer", "self.peers.contains_key(peer) || self.peers.len() < self.max_entries", "self.peers.len() < self.max_entries"),
    peers("room_made_too_late", "|| self.peers.len() < self.max_entries {", "|| self.peers.len() <= self.max_entries {"),
    peers("no_pruning", "        self.prune_expired_bans(now_ms);\n", ""),
    peers(
        "evicts_after_pruning_made_room",
        "        self.prune_expired_bans(now_ms);\n        if self.peers.len() < self.max_entries {\n            return;\n        }\n",
        "        self.prune_expired_bans(now_ms);\n",
    ),
    peers("evicts_the_newest", "            .ordinary_lru\n            .pop_first()", "            .ordinary_lru\n            .pop_last()"),
    peers("evicts_the_last_ban", "self.banned_expirations.pop_first())", "self.banned_expirations.pop_last())"),
    peers("never_evicts_the_banned", "            .or_else(|| self.banned_expirations.pop_first())\n", ""),
    peers(
        "evicts_the_banned_first",
        "            .ordinary_lru\n            .pop_first()\n            .or_else(|| self.banned_expirations.pop_first())",
        "            .banned_expirations\n            .pop_first()\n            .or_else(|| self.ordinary_lru.pop_first())",
    ),
    peers("evicted_row_stays", "            self.peers.remove(&evicted_peer);\n", ""),
    peers("no_room_is_made", "        self.make_room(peer, now_ms);\n", ""),
    peers("prunes_at_every_update", "        self.make_room(peer, now_ms);\n", "        self.prune_expired_bans(now_ms);\n        self.make_room(peer, now_ms);\n"),
    // admit.
    peers("live_ban_answers_disconnect", "            return PeerMessageAdmission::Ban;", "            return PeerMessageAdmission::Disconnect;"),
    peers(
        "admit_ignores_bans",
        "        if self.is_banned(peer, now_ms) {\n            return PeerMessageAdmission::Ban;\n        }\n",
        "",
    ),
    peers(
        "admit_does_not_expire",
        "        entry.expire_violation_windows(now_ms, self.config.ban_duration_ms);\n        entry.last_used_ms = now_ms;\n        let mut message_bucket",
        "        entry.last_used_ms = now_ms;\n        let mut message_bucket",
    ),
    peers(
        "admit_keeps_last_used",
        "        entry.last_used_ms = now_ms;\n        let mut message_bucket",
        "        let mut message_bucket",
    ),
    peers(
        "last_used_never_goes_back",
        "        entry.last_used_ms = now_ms;\n        let mut message_bucket",
        "        entry.last_used_ms = entry.last_used_ms.max(now_ms);\n        let mut message_bucket",
    ),
    peers("admit_charges_messages_in_place", "|| message_bucket.try_consume(now_ms))", "|| entry.messages.try_consume(now_ms))"),
    peers("admit_charges_bytes_in_place", "&& byte_bucket.try_consume(bytes, now_ms)", "&& entry.bytes.try_consume(bytes, now_ms)"),
    peers("messages_never_off", "(self.config.message_limit_disabled() || message_bucket", "(message_bucket"),
    peers("messages_consumed_when_off", "(self.config.message_limit_disabled() || message_bucket.try_consume(now_ms))", "(message_bucket.try_consume(now_ms) | self.config.message_limit_disabled())"),
    peers("one_bucket_is_enough", "            && byte_bucket.try_consume", "            || byte_bucket.try_consume"),
    peers("bytes_not_asked", "\n            && byte_bucket.try_consume(bytes, now_ms)", ""),
    peers("bytes_at_least_one", "&& byte_bucket.try_consume(bytes, now_ms)", "&& byte_bucket.try_consume(bytes.max(1), now_ms)"),
    peers(
        "bytes_asked_first",
        "        if (self.config.message_limit_disabled() || message_bucket.try_consume(now_ms))\n            && byte_bucket.try_consume(bytes, now_ms)\n",
        "        if byte_bucket.try_consume(bytes, now_ms)\n            && (self.config.message_limit_disabled() || message_bucket.try_consume(now_ms))\n",
    )
    .same("both buckets are copies that are thrown away unless both pass"),
    peers(
        "full_ceiling_forgets_the_row",
        "                self.insert_entry(*peer, entry);\n                return PeerMessageAdmission::Disconnect;",
        "                return PeerMessageAdmission::Disconnect;",
    ),
    peers(
        "full_ceiling_charges_a_token",
        "            if !self.ingress.try_reserve(bytes) {",
        "            if !self.ingress.try_reserve(bytes) {\n                entry.messages = message_bucket;",
    ),
    peers(
        "full_ceiling_charges_bytes",
        "            if !self.ingress.try_reserve(bytes) {",
        "            if !self.ingress.try_reserve(bytes) {\n                entry.bytes = byte_bucket;",
    ),
    peers(
        "full_ceiling_is_a_violation",
        "            if !self.ingress.try_reserve(bytes) {",
        "            if !self.ingress.try_reserve(bytes) {\n                entry.rate_limit_violations.record(now_ms, self.config.ban_duration_ms);",
    ),
    peers("allow_costs_no_token", "            entry.messages = message_bucket;\n", ""),
    peers("allow_costs_no_bytes", "            entry.bytes = byte_bucket;\n", ""),
    peers(
        "refused_admit_keeps_its_charge",
        "        let violations = entry\n            .rate_limit_violations",
        "        entry.messages = message_bucket;\n        let violations = entry\n            .rate_limit_violations",
    ),
    peers(
        "refused_admit_keeps_its_refill",
        "        let violations = entry\n            .rate_limit_violations",
        "        entry.bytes = byte_bucket;\n        let violations = entry\n            .rate_limit_violations",
    ),
    peers(
        "admit_counts_in_the_invalid_window",
        "        let violations = entry\n            .rate_limit_violations",
        "        let violations = entry\n            .invalid_messages",
    ),
    peers("admit_bans_one_later", "let decision =\n            if !self.config.ban_disabled() && violations >= ", "let decision =\n            if !self.config.ban_disabled() && violations > "),
    peers("admit_bans_when_off", "let decision =\n            if !self.config.ban_disabled() && violations", "let decision =\n            if violations"),
    peers("admit_never_bans", "let decision =\n            if !self.config.ban_disabled() && ", "let decision =\n            if false && "),
    // record_invalid.
    peers("invalid_under_a_live_ban_says_no", "            return true;", "            return false;"),
    peers("invalid_bans_one_later", "let banned =\n            if !self.config.ban_disabled() && violations >= ", "let banned =\n            if !self.config.ban_disabled() && violations > "),
    peers("invalid_bans_when_off", "let banned =\n            if !self.config.ban_disabled() && violations", "let banned =\n            if violations"),
    peers(
        "invalid_keeps_last_used",
        "        entry.last_used_ms = now_ms;\n        let violations = entry\n            .invalid_messages",
        "        let violations = entry\n            .invalid_messages",
    ),
    peers(
        "invalid_counts_in_the_rate_window",
        "        let violations = entry\n            .invalid_messages",
        "        let violations = entry\n            .rate_limit_violations",
    ),
    peers(
        "invalid_costs_a_token",
        "        let violations = entry\n            .invalid_messages",
        "        entry.messages.try_consume(now_ms);\n        let violations = entry\n            .invalid_messages",
    ),
    // is_banned, on_disconnected.
    peers(
        "spent_ban_stays",
        "        if entry.banned_until_ms.is_some() && !entry.is_banned(now_ms) {\n",
        "        if entry.banned_until_ms.is_some() && !entry.is_banned(now_ms) {\n            self.insert_entry(*peer, entry);\n",
    ),
    peers("unbanned_rows_dropped_by_asking", "entry.banned_until_ms.is_some() && !entry.is_banned(now_ms)", "!entry.is_banned(now_ms)"),
    peers(
        "asking_touches_last_used",
        "        let banned = entry.is_banned(now_ms);\n        self.insert_entry(*peer, entry);",
        "        let banned = entry.is_banned(now_ms);\n        let mut entry = entry;\n        entry.last_used_ms = now_ms;\n        self.insert_entry(*peer, entry);",
    ),
    peers(
        "disconnect_drops_the_row",
        "capacity is needed.\n        self.insert_entry(*peer, entry);",
        "capacity is needed.",
    ),
    peers(
        "disconnect_touches_last_used",
        "capacity is needed.\n",
        "capacity is needed.\n        entry.last_used_ms = now_ms;\n",
    ),
    peers(
        "disconnect_does_not_expire",
        "        entry.expire_violation_windows(now_ms, self.config.ban_duration_ms);\n        // Preserve",
        "        entry.last_used_ms += 0;\n        // Preserve",
    ),
    peers(
        "disconnect_expires_under_a_live_ban",
        "        if self.is_banned(peer, now_ms) {\n            return;\n        }",
        "        self.is_banned(peer, now_ms);",
    ),
    peers(
        "disconnect_fills_the_bucket",
        "capacity is needed.\n",
        "capacity is needed.\n        entry.messages = DiscreteTokenBucket::new(self.config.peer_message_interval_ms, self.config.peer_message_burst);\n",
    ),
    // Settings of the byte buckets.
    gossip("default_global_rate", "GLOBAL_MSG_RATE_BYTES: u64 = 1_024_000;", "GLOBAL_MSG_RATE_BYTES: u64 = 1_024_001;"),
    gossip("default_global_burst", "GLOBAL_MSG_BURST_BYTES: u64 = 2_048_000;", "GLOBAL_MSG_BURST_BYTES: u64 = 2_047_999;"),
    gossip("default_peer_rate", "PEER_MSG_RATE_BYTES: u64 = 51_200;", "PEER_MSG_RATE_BYTES: u64 = 51_201;"),
    gossip("default_peer_burst", "PEER_MSG_BURST_BYTES: u64 = 102_400;", "PEER_MSG_BURST_BYTES: u64 = 102_399;"),
    gossip("default_global_is_the_peers", "rate_bytes_per_sec: DEFAULT_GOSSIP_GLOBAL_MSG_RATE_BYTES", "rate_bytes_per_sec: DEFAULT_GOSSIP_PEER_MSG_RATE_BYTES"),
    // Byte bucket.
    gossip("byte_off_needs_both", "self.rate_bytes_per_sec == 0 || self.burst_bytes == 0", "self.rate_bytes_per_sec == 0 && self.burst_bytes == 0"),
    gossip("byte_off_by_rate_alone", "self.rate_bytes_per_sec == 0 || self.burst_bytes == 0", "self.rate_bytes_per_sec == 0"),
    gossip("byte_starts_empty", "available_bytes: i128::from(config.burst_bytes),", "available_bytes: 0,"),
    gossip("byte_first_refill_1", "            config,\n            last_refill_ms: 0,", "            config,\n            last_refill_ms: 1,"),
    gossip(
        "byte_refills_when_off",
        "    fn refill(&mut self, now_ms: u64) {\n        if self.config.is_disabled() {\n            return;\n        }\n",
        "    fn refill(&mut self, now_ms: u64) {\n",
    ),
    gossip("byte_refill_at_the_same_time", "        if now_ms <= self.last_refill_ms {", "        if now_ms < self.last_refill_ms {")
        .same("at the same time nothing is earned, and the amount is within the burst already"),
    gossip("byte_refill_too_slow", "self.config.rate_bytes_per_sec) / 1_000) as i128", "self.config.rate_bytes_per_sec) / 1_001) as i128"),
    gossip("byte_refill_rounds_up", "(u128::from(elapsed_ms) * u128::from(self.config.rate_bytes_per_sec) / 1_000) as i128", "(u128::from(elapsed_ms) * u128::from(self.config.rate_bytes_per_sec)).div_ceil(1_000) as i128"),
    gossip("byte_refill_in_64_bits", "(u128::from(elapsed_ms) * u128::from(self.config.rate_bytes_per_sec) / 1_000) as i128", "(elapsed_ms.wrapping_mul(self.config.rate_bytes_per_sec) / 1_000) as i128"),
    gossip(
        "byte_refill_without_cap",
        "            .saturating_add(refill_bytes)\n            .min(i128::from(self.config.burst_bytes));\n        self.last",
        "            .saturating_add(refill_bytes);\n        self.last",
    ),
    gossip("byte_refill_wraps", "            .saturating_add(refill_bytes)\n            .min", "            .wrapping_add(refill_bytes)\n            .min")
        .same("the amount is at most 2^64 and the refill below 2^119, so the sum never leaves i128"),
    gossip("byte_refill_keeps_its_time", "        self.last_refill_ms = now_ms;\n", ""),
    gossip("exact_fit_refused", "if bytes > self.available_bytes", "if bytes >= self.available_bytes"),
    gossip("byte_charges_one_more", "self.available_bytes -= bytes;", "self.available_bytes -= bytes + 1;"),
    gossip("byte_charges_nothing", "        self.available_bytes -= bytes;\n", ""),
    gossip(
        "byte_off_refuses",
        "pub(crate) fn try_consume(&mut self, bytes: u64, now_ms: u64) -> bool {\n        if self.config.is_disabled() {\n            return true;",
        "pub(crate) fn try_consume(&mut self, bytes: u64, now_ms: u64) -> bool {\n        if self.config.is_disabled() {\n            return false;",
    ),
    gossip("byte_consume_without_refill", "        self.refill(now_ms);\n        let bytes = i128", "        let bytes = i128"),
    gossip(
        "reserve_delay_after_charging",
        "        let delay_ms = self.peek_delay(bytes);\n        self.available_bytes = self.available_bytes.saturating_sub(i128::from(bytes));",
        "        self.available_bytes = self.available_bytes.saturating_sub(i128::from(bytes));\n        let delay_ms = self.peek_delay(bytes);",
    ),
    gossip("reserve_wraps", "self.available_bytes.saturating_sub(i128::from(bytes))", "self.available_bytes.wrapping_sub(i128::from(bytes))"),
    gossip("reserve_stops_at_zero", "self.available_bytes.saturating_sub(i128::from(bytes))", "self.available_bytes.saturating_sub(i128::from(bytes)).max(0)"),
    gossip("reserve_without_refill", "        self.refill(now_ms);\n        let delay_ms", "        let delay_ms"),
    gossip(
        "reserve_works_when_off",
        "-> u64 {\n        if self.config.is_disabled() {\n            return 0;\n        }\n\n        self.refill",
        "-> u64 {\n        if self.config.rate_bytes_per_sec == 0 {\n            return 0;\n        }\n\n        self.refill",
    ),
    gossip("reserve_deficit_wraps", "(bytes.saturating_sub(self.available_bytes)).max(0)", "(bytes.wrapping_sub(self.available_bytes)).max(0)"),
    gossip("reserve_deficit_has_no_floor", "(bytes.saturating_sub(self.available_bytes)).max(0)", "(bytes.saturating_sub(self.available_bytes))"),
    gossip(
        "reserve_product_wraps",
        "(self.available_bytes)).max(0) as u128;\n        if deficit_bytes == 0 {\n            0\n        } else {\n            deficit_bytes\n                .saturating_mul",
        "(self.available_bytes)).max(0) as u128;\n        if deficit_bytes == 0 {\n            0\n        } else {\n            deficit_bytes\n                .wrapping_mul",
    ),
    gossip(
        "reserve_delay_rounds_down",
        "(self.available_bytes)).max(0) as u128;\n        if deficit_bytes == 0 {\n            0\n        } else {\n            deficit_bytes\n                .saturating_mul(1_000)\n                .div_ceil(u128::from(self.config.rate_bytes_per_sec)) as u64",
        "(self.available_bytes)).max(0) as u128;\n        if deficit_bytes == 0 {\n            0\n        } else {\n            (deficit_bytes\n                .saturating_mul(1_000)\n                / (u128::from(self.config.rate_bytes_per_sec))) as u64",
    ),
    gossip(
        "reserve_delay_clamped",
        "(self.available_bytes)).max(0) as u128;\n        if deficit_bytes == 0 {\n            0\n        } else {\n            deficit_bytes\n                .saturating_mul(1_000)\n                .div_ceil(u128::from(self.config.rate_bytes_per_sec)) as u64",
        "(self.available_bytes)).max(0) as u128;\n        if deficit_bytes == 0 {\n            0\n        } else {\n            deficit_bytes\n                .saturating_mul(1_000)\n                .div_ceil(u128::from(self.config.rate_bytes_per_sec)).min(u64::MAX.into()) as u64",
    ),
    gossip("peek_refill_at_the_same_time", "if now_ms > self.last_refill_ms {", "if now_ms >= self.last_refill_ms {")
        .same("at the same time nothing is earned, and the amount is within the burst already"),
    gossip("peek_without_refill", "if now_ms > self.last_refill_ms {", "if now_ms > self.last_refill_ms && false {"),
    gossip("peek_refill_too_fast", "                / 1_000) as i128", "                / 999) as i128"),
    gossip(
        "peek_without_cap",
        "                .saturating_add(refill_bytes)\n                .min(i128::from(self.config.burst_bytes))\n",
        "                .saturating_add(refill_bytes)\n",
    ),
    gossip("peek_deficit_wraps", "(bytes.saturating_sub(available)).max(0)", "(bytes.wrapping_sub(available)).max(0)"),
    gossip(
        "peek_product_wraps",
        "(available)).max(0) as u128;\n        if deficit_bytes == 0 {\n            0\n        } else {\n            deficit_bytes\n                .saturating_mul",
        "(available)).max(0) as u128;\n        if deficit_bytes == 0 {\n            0\n        } else {\n            deficit_bytes\n                .wrapping_mul",
    ),
    gossip(
        "peek_product_saturates_at_i128",
        "(available)).max(0) as u128;\n        if deficit_bytes == 0 {\n            0\n        } else {\n            deficit_bytes\n                .saturating_mul(1_000)",
        "(available)).max(0) as u128;\n        if deficit_bytes == 0 {\n            0\n        } else {\n            deficit_bytes\n                .saturating_mul(1_000).min(i128::MAX as u128)",
    ),
    gossip(
        "peek_delay_rounds_down",
        "(available)).max(0) as u128;\n        if deficit_bytes == 0 {\n            0\n        } else {\n            deficit_bytes\n                .saturating_mul(1_000)\n                .div_ceil(u128::from(self.config.rate_bytes_per_sec)) as u64",
        "(available)).max(0) as u128;\n        if deficit_bytes == 0 {\n            0\n        } else {\n            (deficit_bytes\n                .saturating_mul(1_000)\n                / (u128::from(self.config.rate_bytes_per_sec))) as u64",
    ),
    gossip(
        "peek_no_deficit_waits_one",
        "(available)).max(0) as u128;\n        if deficit_bytes == 0 {\n            0",
        "(available)).max(0) as u128;\n        if deficit_bytes == 0 {\n            1",
    ),
    gossip(
        "peek_zero_deficit_is_not_special",
        "(available)).max(0) as u128;\n        if deficit_bytes == 0 {",
        "(available)).max(0) as u128;\n        if false {",
    )
    .same("0 x 1000 divided by a rate above 0, rounded up, is 0 too"),
    gossip(
        "refund_without_cap",
        "            .saturating_add(i128::from(bytes))\n            .min(i128::from(self.config.burst_bytes));",
        "            .saturating_add(i128::from(bytes));",
    ),
    gossip(
        "refund_without_refill",
        "        self.refill(now_ms);\n        self.available_bytes = self\n            .available_bytes\n            .saturating_add(i128",
        "        self.available_bytes = self\n            .available_bytes\n            .saturating_add(i128",
    ),
    gossip(
        "refund_when_off",
        "pub(crate) fn refund(&mut self, bytes: u64, now_ms: u64) {\n        if self.config.is_disabled() {\n            return;\n        }\n",
        "pub(crate) fn refund(&mut self, bytes: u64, now_ms: u64) {\n",
    ),
    gossip("empty_is_debt", "cloned.available_bytes < 0", "cloned.available_bytes <= 0"),
    gossip("debt_before_the_refill", "        cloned.refill(now_ms);\n", ""),
    gossip(
        "debt_when_off",
        "pub(crate) fn has_debt(&self, now_ms: u64) -> bool {\n        if self.config.is_disabled() {\n            return false;\n        }\n",
        "pub(crate) fn has_debt(&self, now_ms: u64) -> bool {\n",
    ),
    gossip("burst_is_the_rate", "    pub(crate) fn burst_bytes(&self) -> u64 {\n        self.config.burst_bytes\n", "    pub(crate) fn burst_bytes(&self) -> u64 {\n        self.config.rate_bytes_per_sec\n"),
    // Discrete bucket.
    gossip("discrete_starts_empty", "            available: capacity,", "            available: 0,"),
    gossip("discrete_first_refill_is_the_interval", "            available: capacity,\n            last_refill_ms: 0,", "            available: capacity,\n            last_refill_ms: interval_ms,"),
    gossip("discrete_interval_0_divides", "self.interval_ms == 0 || self.capacity == 0 || now_ms", "self.capacity == 0 || now_ms"),
    gossip("discrete_capacity_0_refills", "self.interval_ms == 0 || self.capacity == 0 || now_ms", "self.interval_ms == 0 || now_ms"),
    gossip("discrete_refill_at_the_same_time", "|| now_ms <= self.last_refill_ms", "|| now_ms < self.last_refill_ms")
        .same("at the same time no interval has passed, so nothing moves"),
    gossip("discrete_clock_back_wraps", " || now_ms <= self.last_refill_ms {\n            return;\n        }\n\n        let elapsed_ms = now_ms - self.last_refill_ms;\n        let refill = ", " {\n            return;\n        }\n\n        let elapsed_ms = now_ms.wrapping_sub(self.last_refill_ms);\n        let refill = "),
    gossip("discrete_refill_clamped", "(elapsed_ms / self.interval_ms) as u32", "(elapsed_ms / self.interval_ms).min(u32::MAX.into()) as u32"),
    gossip("discrete_refill_rounds_up", "(elapsed_ms / self.interval_ms) as u32", "elapsed_ms.div_ceil(self.interval_ms) as u32"),
    gossip("discrete_no_refill_is_not_special", "        if refill == 0 {\n            return;\n        }\n", "")
        .same("adding 0 tokens and 0 intervals moves nothing"),
    gossip("discrete_refill_wraps", "self.available.saturating_add(refill)", "self.available.wrapping_add(refill)"),
    gossip("discrete_without_cap", "self.available.saturating_add(refill).min(self.capacity)", "self.available.saturating_add(refill)"),
    gossip(
        "discrete_loses_the_rest",
        "        self.last_refill_ms = self\n            .last_refill_ms\n            .saturating_add(u64::from(refill) * self.interval_ms);",
        "        self.last_refill_ms = now_ms;",
    ),
    gossip("discrete_moves_by_one_interval", ".saturating_add(u64::from(refill) * self.interval_ms)", ".saturating_add(self.interval_ms)"),
    gossip("discrete_last_refill_wraps", ".saturating_add(u64::from(refill) * self.interval_ms)", ".wrapping_add(u64::from(refill) * self.interval_ms)")
        .same("the last refill never passes now"),
    gossip("last_token_refused", "        if self.available == 0 {", "        if self.available <= 1 {"),
    gossip("token_costs_nothing", "        self.available -= 1;\n", ""),
    gossip("discrete_consume_without_refill", "        self.refill(now_ms);\n        if self.available == 0", "        if self.available == 0"),
    gossip("more_than_full_is_full", "self.available == self.capacity", "self.available >= self.capacity")
        .same("a sound bucket never holds more than its capacity"),
    gossip("full_is_one_less", "self.available == self.capacity", "self.available + 1 >= self.capacity"),
];

#[cfg(test)]
mod tests {
    use super::*;

    #[test]
    fn names_are_unique() {
        let all = of_part(Part::Gossip).iter().chain(of_part(Part::Rest));
        let mut names: Vec<&str> = all.map(|mutant| mutant.name).collect();
        names.sort();
        let count = names.len();
        names.dedup();
        assert_eq!(names.len(), count);
    }
}
