/* The proved library's C functions, and their numbers by name.
 *
 * What crosses is words in which nothing can be out of range, and lent memory. No function asks anything of the values: each takes any words over
 * any memory, ends, and answers a refusal where they make no sense; a refused call changes nothing. The caller answers for what C can't rule
 * out: no pointer is null, every length is true, and no two of the things that are lent overlap.
 *
 * scripts/archive writes the archives to link, target/native/libc_*.a. include/example.c is a program that scripts/run-c-example compiles and runs.
 */
#ifndef UGLEZMIR_H
#define UGLEZMIR_H

#include <stddef.h>
#include <stdint.h>

/* How many words things cross in. A later request adds two to a policy's: name the number, don't write it. */
#define UGLEZMIR_POLICY_LONGS 8
#define UGLEZMIR_POLICY_SHORTS 4
#define UGLEZMIR_CAUSE_WORDS 2
#define UGLEZMIR_SETTINGS_LONGS 6
#define UGLEZMIR_SETTINGS_SHORTS 3
#define UGLEZMIR_LIMIT_WORDS 2
#define UGLEZMIR_AMOUNT_WORDS 5
#define UGLEZMIR_DISCRETE_LONGS 2
#define UGLEZMIR_DISCRETE_SHORTS 2
#define UGLEZMIR_BYTE_LONGS 3
#define UGLEZMIR_BAN_LONGS 3
#define UGLEZMIR_BAN_SHORTS 1
#define UGLEZMIR_LIMITER_LONGS 3
#define UGLEZMIR_LIMITER_SHORTS 1
#define UGLEZMIR_GOSSIP_LONGS 10
#define UGLEZMIR_GOSSIP_SHORTS 6
#define UGLEZMIR_TRACE_PLACES 3
#define UGLEZMIR_SNAPSHOT_ROW_NUMBERS 12

/* How many bytes keys, rows and lines have, and how many rows a table has at most. A table has its limit's rows at least, and 0 counts as 1; the
 * gossip state's two tables have all 1,024. */
#define UGLEZMIR_PEER_KEY 33
#define UGLEZMIR_OUTPOINT_KEY 36
#define UGLEZMIR_PEER_ROW 121
#define UGLEZMIR_BAN_ROW 65
#define UGLEZMIR_LIMITER_ROW 94
#define UGLEZMIR_OUTBOUND_ROW 65
#define UGLEZMIR_TRACE_LINE 73
#define UGLEZMIR_SNAPSHOT_WITHOUT_ROWS 120
#define UGLEZMIR_MOST_ROWS 1024

/* Refusals: a number below FIRST_ANSWER. UNKNOWN: there is no such operation or violation, or a division by 0. TOO_SHORT: a table is shorter than
 * its limit, or an output than what is written. LIMIT_TOO_LARGE: above 1,024 rows. UNSOUND: no policy could have come to this state. OVERFLOW: the
 * message would be let in, the ceiling is unlimited, and the numbers in flight have no room. NO_ROW: a peer would get an outbound row, and 1,024
 * have one. WRONG_LAYOUT: of a snapshot. */
#define UGLEZMIR_REFUSAL_UNKNOWN 0
#define UGLEZMIR_REFUSAL_TOO_SHORT 1
#define UGLEZMIR_REFUSAL_LIMIT_TOO_LARGE 2
#define UGLEZMIR_REFUSAL_UNSOUND 3
#define UGLEZMIR_REFUSAL_OVERFLOW 4
#define UGLEZMIR_REFUSAL_NO_ROW 5
#define UGLEZMIR_REFUSAL_WRONG_LAYOUT 6

/* Answers. DONE: the call answers nothing, or what it leaves in the words, in `value` or in `numbers`. */
#define UGLEZMIR_FIRST_ANSWER 256
#define UGLEZMIR_ALLOW 256
#define UGLEZMIR_DISCONNECT 257
#define UGLEZMIR_BAN 258
#define UGLEZMIR_NO 259
#define UGLEZMIR_YES 260
#define UGLEZMIR_DONE 261

/* Causes: why a message is let in or not, a cause's first word. MESSAGES: the peer's message bucket is empty. BYTES: more than is left in the peer's
 * byte bucket. SLOT: as many messages are in flight as the ceiling has slots. CEILING_BYTES: more than is left under the ceiling. LIVE_BAN: the peer
 * is banned already. BAN_BEGUN: by this message. Where several limits would say no, the first in this order is named. The second word is by how much
 * the limit ran short: 1 for MESSAGES and SLOT, bytes for BYTES and CEILING_BYTES, 0 for the others. */
#define UGLEZMIR_CAUSE_ALLOWED 0
#define UGLEZMIR_CAUSE_MESSAGES 1
#define UGLEZMIR_CAUSE_BYTES 2
#define UGLEZMIR_CAUSE_SLOT 3
#define UGLEZMIR_CAUSE_CEILING_BYTES 4
#define UGLEZMIR_CAUSE_LIVE_BAN 5
#define UGLEZMIR_CAUSE_BAN_BEGUN 6

/* A policy's words. The settings' own words are the first six and the first three of these. */
#define UGLEZMIR_POLICY_LONG_INTERVAL_MS 0
#define UGLEZMIR_POLICY_LONG_RATE_BYTES_PER_SEC 1
#define UGLEZMIR_POLICY_LONG_BURST_BYTES 2
#define UGLEZMIR_POLICY_LONG_BAN_DURATION_MS 3
#define UGLEZMIR_POLICY_LONG_MAX_TRACKED_PEERS 4
#define UGLEZMIR_POLICY_LONG_MAX_IN_FLIGHT_BYTES 5
#define UGLEZMIR_POLICY_LONG_IN_FLIGHT_BYTES 6
#define UGLEZMIR_POLICY_LONG_ROWS 7
#define UGLEZMIR_POLICY_SHORT_BURST 0
#define UGLEZMIR_POLICY_SHORT_VIOLATION_BAN_THRESHOLD 1
#define UGLEZMIR_POLICY_SHORT_MAX_IN_FLIGHT_MESSAGES 2
#define UGLEZMIR_POLICY_SHORT_IN_FLIGHT_MESSAGES 3

/* The words of buckets. */
#define UGLEZMIR_DISCRETE_LONG_INTERVAL_MS 0
#define UGLEZMIR_DISCRETE_LONG_LAST_REFILL_MS 1
#define UGLEZMIR_DISCRETE_SHORT_CAPACITY 0
#define UGLEZMIR_DISCRETE_SHORT_AVAILABLE 1
#define UGLEZMIR_BYTE_LONG_RATE_BYTES_PER_SEC 0
#define UGLEZMIR_BYTE_LONG_BURST_BYTES 1
#define UGLEZMIR_BYTE_LONG_LAST_REFILL_MS 2

/* The words of bans, limiter and gossip state; the state's last five shorts are the amount that is available to all peers together. */
#define UGLEZMIR_BAN_LONG_DURATION_MS 0
#define UGLEZMIR_BAN_LONG_MAX_ENTRIES 1
#define UGLEZMIR_BAN_LONG_ROWS 2
#define UGLEZMIR_BAN_SHORT_THRESHOLD 0
#define UGLEZMIR_LIMITER_LONG_INTERVAL_MS 0
#define UGLEZMIR_LIMITER_LONG_MAX_ENTRIES 1
#define UGLEZMIR_LIMITER_LONG_ROWS 2
#define UGLEZMIR_LIMITER_SHORT_BURST 0
#define UGLEZMIR_GOSSIP_LONG_BAN_DURATION_MS 0
#define UGLEZMIR_GOSSIP_LONG_BAN_MAX_ENTRIES 1
#define UGLEZMIR_GOSSIP_LONG_BAN_ROWS 2
#define UGLEZMIR_GOSSIP_LONG_GLOBAL_RATE_BYTES_PER_SEC 3
#define UGLEZMIR_GOSSIP_LONG_GLOBAL_BURST_BYTES 4
#define UGLEZMIR_GOSSIP_LONG_GLOBAL_LAST_REFILL_MS 5
#define UGLEZMIR_GOSSIP_LONG_PEER_RATE_BYTES_PER_SEC 6
#define UGLEZMIR_GOSSIP_LONG_PEER_BURST_BYTES 7
#define UGLEZMIR_GOSSIP_LONG_OUTBOUND_ROWS 8
#define UGLEZMIR_GOSSIP_LONG_QUEUE_CAPACITY 9
#define UGLEZMIR_GOSSIP_SHORT_BAN_THRESHOLD 0
#define UGLEZMIR_GOSSIP_SHORT_GLOBAL_AVAILABLE 1

/* The parts of a snapshot, and the numbers of one of its rows; behind them stands where the next row begins. */
#define UGLEZMIR_SNAPSHOT_KIND_SETTINGS 1
#define UGLEZMIR_SNAPSHOT_KIND_LOAD 2
#define UGLEZMIR_SNAPSHOT_KIND_ROWS 3
#define UGLEZMIR_SNAPSHOT_ROW_MESSAGES_AVAILABLE 0
#define UGLEZMIR_SNAPSHOT_ROW_MESSAGES_LAST_REFILL_MS 1
#define UGLEZMIR_SNAPSHOT_ROW_BYTES_AVAILABLE 2
#define UGLEZMIR_SNAPSHOT_ROW_BYTES_LAST_REFILL_MS 3
#define UGLEZMIR_SNAPSHOT_ROW_VIOLATIONS 4
#define UGLEZMIR_SNAPSHOT_ROW_VIOLATIONS_STARTED_AT_MS 5
#define UGLEZMIR_SNAPSHOT_ROW_INVALID 6
#define UGLEZMIR_SNAPSHOT_ROW_INVALID_STARTED_AT_MS 7
#define UGLEZMIR_SNAPSHOT_ROW_BAN_MARK 8
#define UGLEZMIR_SNAPSHOT_ROW_BANNED_UNTIL_MS 9
#define UGLEZMIR_SNAPSHOT_ROW_LAST_USED_MS 10
#define UGLEZMIR_SNAPSHOT_ROW_NEXT_PLACE 11

/* Violations. */
#define UGLEZMIR_VIOLATION_INVALID_SYNC_RESPONSE 0
#define UGLEZMIR_VIOLATION_INVALID_BROADCAST_MESSAGE 1
#define UGLEZMIR_VIOLATION_POLICY_REJECTED_MESSAGE 2

/* Operations on the peers' settings. */
#define UGLEZMIR_OP_SETTINGS_DEFAULT 0
#define UGLEZMIR_OP_SETTINGS_WITH_LIMITS 1
#define UGLEZMIR_OP_SETTINGS_MESSAGE_LIMIT_DISABLED 2
#define UGLEZMIR_OP_SETTINGS_BAN_DISABLED 3
#define UGLEZMIR_OP_SETTINGS_IS_UNLIMITED 4

/* Operations on a byte limit. */
#define UGLEZMIR_OP_LIMIT_DEFAULT_GLOBAL 0
#define UGLEZMIR_OP_LIMIT_DEFAULT_PEER 1
#define UGLEZMIR_OP_LIMIT_IS_DISABLED 2

/* Operations on a discrete bucket. */
#define UGLEZMIR_OP_DISCRETE_NEW 0
#define UGLEZMIR_OP_DISCRETE_REFILL 1
#define UGLEZMIR_OP_DISCRETE_TRY_CONSUME 2
#define UGLEZMIR_OP_DISCRETE_IS_FULL 3

/* Operations on a byte bucket. */
#define UGLEZMIR_OP_BYTE_NEW 4
#define UGLEZMIR_OP_BYTE_REFILL 5
#define UGLEZMIR_OP_BYTE_TRY_CONSUME 6
#define UGLEZMIR_OP_BYTE_RESERVE 7
#define UGLEZMIR_OP_BYTE_PEEK_DELAY 8
#define UGLEZMIR_OP_BYTE_REFUND 9
#define UGLEZMIR_OP_BYTE_HAS_DEBT 10
#define UGLEZMIR_OP_BYTE_BURST_BYTES 11
#define UGLEZMIR_OP_BYTE_IS_DISABLED 12

/* Operations on amounts. */
#define UGLEZMIR_OP_AMOUNT_FROM_U64 0
#define UGLEZMIR_OP_AMOUNT_IS_NEGATIVE 1
#define UGLEZMIR_OP_AMOUNT_IS_BELOW 2
#define UGLEZMIR_OP_AMOUNT_IS_ABOVE 3
#define UGLEZMIR_OP_AMOUNT_LESSER 4
#define UGLEZMIR_OP_AMOUNT_SATURATING_ADD 5
#define UGLEZMIR_OP_AMOUNT_SATURATING_SUB 6
#define UGLEZMIR_OP_AMOUNT_DEFICIT 7
#define UGLEZMIR_OP_AMOUNT_TO_U64 8
#define UGLEZMIR_OP_AMOUNT_IS_I128 9
#define UGLEZMIR_OP_AMOUNT_PRODUCT_PER_THOUSAND 10
#define UGLEZMIR_OP_AMOUNT_TIMES_THOUSAND 11
#define UGLEZMIR_OP_AMOUNT_DIV_CEIL_LOW 12

/* Operations on the bans. */
#define UGLEZMIR_OP_BAN_NEW 1
#define UGLEZMIR_OP_BAN_WITH_MAX_ENTRIES 2
#define UGLEZMIR_OP_BAN_RECORD_VIOLATION 3
#define UGLEZMIR_OP_BAN_IS_BANNED 4
#define UGLEZMIR_OP_BAN_SCORE 5
#define UGLEZMIR_OP_BAN_PRUNE_EXPIRED 6
#define UGLEZMIR_OP_BAN_TRACKED_PEERS 7

/* Operations on the limiter. */
#define UGLEZMIR_OP_LIMITER_NEW 1
#define UGLEZMIR_OP_LIMITER_WITH_MAX_ENTRIES 2
#define UGLEZMIR_OP_LIMITER_TRY_ACQUIRE 3
#define UGLEZMIR_OP_LIMITER_TRACKED_KEYS 4

/* Operations on the gossip state. */
#define UGLEZMIR_OP_GOSSIP_NEW 1
#define UGLEZMIR_OP_GOSSIP_DEFAULT 2
#define UGLEZMIR_OP_GOSSIP_RECORD_VIOLATION 3
#define UGLEZMIR_OP_GOSSIP_IS_BANNED 4
#define UGLEZMIR_OP_GOSSIP_PRUNE_BANS 5
#define UGLEZMIR_OP_GOSSIP_ALLOW 6
#define UGLEZMIR_OP_GOSSIP_ESTIMATE_DELAY 7
#define UGLEZMIR_OP_GOSSIP_REMOVE_PEER 8
#define UGLEZMIR_OP_GOSSIP_RESERVE 9
#define UGLEZMIR_OP_GOSSIP_REFUND 10
#define UGLEZMIR_OP_GOSSIP_SHOULD_BYPASS 11
#define UGLEZMIR_OP_GOSSIP_EXCEEDS 12
#define UGLEZMIR_OP_GOSSIP_QUEUE_CAPACITY 13
#define UGLEZMIR_OP_GOSSIP_GLOBAL_CAPACITY 14
#define UGLEZMIR_OP_GOSSIP_PEER_CAPACITY 15

#ifdef __cplusplus
extern "C" {
#endif

/* ---- libc_peers.a: the peers' policy */

/* Makes a policy of the words' settings, and zeroes the limit's rows. DONE, or 2, 1. */
uint32_t uglezmir_new(uint64_t longs[UGLEZMIR_POLICY_LONGS], uint32_t shorts[UGLEZMIR_POLICY_SHORTS], uint8_t *table, size_t table_length);

/* May this message in? ALLOW: it is in flight now; DISCONNECT: a bucket of the peer's or the ceiling ran short; BAN: the peer is banned, by this message or
 * already. Or 3, 4. */
uint32_t uglezmir_admit(uint64_t longs[UGLEZMIR_POLICY_LONGS], uint32_t shorts[UGLEZMIR_POLICY_SHORTS], uint8_t *table, size_t table_length,
    const uint8_t peer[UGLEZMIR_PEER_KEY], uint64_t bytes, uint64_t now_ms);

/* The same call and the same number; leaves in `cause` why, CAUSE_.., and by how much a limit ran short. On 3 and 4 both words stay. */
uint32_t uglezmir_admit_explained(uint64_t longs[UGLEZMIR_POLICY_LONGS], uint32_t shorts[UGLEZMIR_POLICY_SHORTS], uint8_t *table,
    size_t table_length, const uint8_t peer[UGLEZMIR_PEER_KEY], uint64_t bytes, uint64_t now_ms, uint64_t cause[UGLEZMIR_CAUSE_WORDS]);

/* An invalid message came. YES where the peer is banned, by this message or already, else NO. Or 3. */
uint32_t uglezmir_record_invalid(uint64_t longs[UGLEZMIR_POLICY_LONGS], uint32_t shorts[UGLEZMIR_POLICY_SHORTS], uint8_t *table,
    size_t table_length, const uint8_t peer[UGLEZMIR_PEER_KEY], uint64_t now_ms);

/* Is the peer banned? YES, NO; or 3. A ban that is over is forgotten. */
uint32_t uglezmir_is_banned(uint64_t longs[UGLEZMIR_POLICY_LONGS], uint32_t shorts[UGLEZMIR_POLICY_SHORTS], uint8_t *table,
    size_t table_length, const uint8_t peer[UGLEZMIR_PEER_KEY], uint64_t now_ms);

/* The peer's connection closed. DONE, or 3. */
uint32_t uglezmir_on_disconnected(uint64_t longs[UGLEZMIR_POLICY_LONGS], uint32_t shorts[UGLEZMIR_POLICY_SHORTS], uint8_t *table,
    size_t table_length, const uint8_t peer[UGLEZMIR_PEER_KEY], uint64_t now_ms);

/* A message of so many bytes is done with. DONE, or 3. */
uint32_t uglezmir_release_ingress(uint64_t longs[UGLEZMIR_POLICY_LONGS], uint32_t shorts[UGLEZMIR_POLICY_SHORTS], uint64_t bytes);

/* Leaves the messages and the bytes in flight. DONE, or 3. */
uint32_t uglezmir_in_flight(const uint64_t longs[UGLEZMIR_POLICY_LONGS], const uint32_t shorts[UGLEZMIR_POLICY_SHORTS], uint64_t numbers[2]);

/* ---- libc_buckets.a: buckets, settings and amounts. YES, NO, DONE; or 3, 0.
 * An amount is a sign (0 is plus, anything else minus), then four limbs of 32 bits, the least first. */

/* OP_DISCRETE_..; the value of a no is by how much it fell short. */
uint32_t uglezmir_discrete(uint32_t operation, uint64_t longs[UGLEZMIR_DISCRETE_LONGS], uint32_t shorts[UGLEZMIR_DISCRETE_SHORTS],
    uint64_t now_ms, uint64_t *value);

/* OP_BYTE_..; the value of a no is by how much it fell short, that of DONE a delay in ms or the burst. */
uint32_t uglezmir_byte(uint32_t operation, uint64_t longs[UGLEZMIR_BYTE_LONGS], uint32_t available[UGLEZMIR_AMOUNT_WORDS], uint64_t bytes,
    uint64_t now_ms, uint64_t *value);

/* OP_AMOUNT_.. */
uint32_t uglezmir_amount(uint32_t operation, const uint32_t first[UGLEZMIR_AMOUNT_WORDS], const uint32_t second[UGLEZMIR_AMOUNT_WORDS],
    uint64_t n, uint64_t m, uint32_t result[UGLEZMIR_AMOUNT_WORDS], uint64_t *value);

/* OP_SETTINGS_.. */
uint32_t uglezmir_settings(uint32_t operation, uint64_t longs[UGLEZMIR_SETTINGS_LONGS], uint32_t shorts[UGLEZMIR_SETTINGS_SHORTS]);

/* OP_LIMIT_.., on a rate and a burst. */
uint32_t uglezmir_limit(uint32_t operation, uint64_t words[UGLEZMIR_LIMIT_WORDS]);

/* ---- libc_bans.a, libc_limiter.a, libc_gossip.a: bans, limiter and gossip state. YES, NO, DONE; or 3, 0; at making 2, 1; outbound 5. */

/* OP_BAN_.. */
uint32_t uglezmir_bans(uint32_t operation, uint64_t longs[UGLEZMIR_BAN_LONGS], uint32_t shorts[UGLEZMIR_BAN_SHORTS], uint8_t *table,
    size_t table_length, const uint8_t peer[UGLEZMIR_PEER_KEY], uint32_t violation, uint64_t now_ms, uint64_t value[1]);

/* OP_LIMITER_..; a side of 0 is false, any other true. */
uint32_t uglezmir_limiter(uint32_t operation, uint64_t longs[UGLEZMIR_LIMITER_LONGS], uint32_t shorts[UGLEZMIR_LIMITER_SHORTS],
    uint8_t *table, size_t table_length, const uint8_t peer[UGLEZMIR_PEER_KEY], const uint8_t outpoint[UGLEZMIR_OUTPOINT_KEY],
    uint32_t side, uint64_t now_ms, uint64_t value[1]);

/* OP_GOSSIP_..; NO to a question for a capacity: there is no limit. */
uint32_t uglezmir_gossip(uint32_t operation, uint64_t longs[UGLEZMIR_GOSSIP_LONGS], uint32_t shorts[UGLEZMIR_GOSSIP_SHORTS],
    uint8_t *ban_table, size_t ban_table_length, uint8_t *outbound_table, size_t outbound_table_length,
    const uint8_t peer[UGLEZMIR_PEER_KEY], uint32_t violation, uint64_t bytes, uint64_t now_ms, uint64_t value[1]);

/* ---- libc_snapshot.a: snapshots of a peer policy */

/* Writes a policy, and leaves how many bytes of the output became the snapshot: SNAPSHOT_WITHOUT_ROWS, and PEER_ROW a row. DONE, or 3, 1. */
uint32_t uglezmir_snapshot_write(const uint64_t longs[UGLEZMIR_POLICY_LONGS], const uint32_t shorts[UGLEZMIR_POLICY_SHORTS],
    const uint8_t *table, size_t table_length, uint8_t *output, size_t output_length, uint64_t *length);

/* Leaves the policy that the snapshot describes; what the words held before is not read. DONE, or 6, 2, 3, 1. */
uint32_t uglezmir_snapshot_read(uint64_t longs[UGLEZMIR_POLICY_LONGS], uint32_t shorts[UGLEZMIR_POLICY_SHORTS], const uint8_t *snapshot,
    size_t snapshot_length, uint8_t *table, size_t table_length);

/* Leaves where the part of a kind begins and ends, SNAPSHOT_KIND_.. DONE, or 6. */
uint32_t uglezmir_snapshot_place(const uint8_t *snapshot, size_t snapshot_length, uint32_t kind, uint64_t place[2]);

/* Leaves the row at a place, SNAPSHOT_ROW_..; the first one's place is where the part of the rows begins. DONE, NO where all rows were given,
 * or 6. */
uint32_t uglezmir_snapshot_row(const uint8_t *snapshot, size_t snapshot_length, uint64_t at, uint8_t key[UGLEZMIR_PEER_KEY],
    uint64_t numbers[UGLEZMIR_SNAPSHOT_ROW_NUMBERS]);

/* ---- libc_trace.a: an input of the trace program, line by line */

/* Begins a scan: every word is written. */
void uglezmir_trace_open(uint64_t place[UGLEZMIR_TRACE_PLACES], uint64_t longs[UGLEZMIR_POLICY_LONGS],
    uint32_t shorts[UGLEZMIR_POLICY_SHORTS], const uint8_t *input, size_t input_length);

/* Leaves the next line, zeros behind it, and answers its length; 0 where the scan is done: the words are then those behind, with the policy
   of settings that nothing follows. Lend the same input and table at every call. */
uint32_t uglezmir_trace_next(uint64_t place[UGLEZMIR_TRACE_PLACES], uint64_t longs[UGLEZMIR_POLICY_LONGS],
    uint32_t shorts[UGLEZMIR_POLICY_SHORTS], const uint8_t *input, size_t input_length, uint8_t *table, size_t table_length,
    uint8_t line[UGLEZMIR_TRACE_LINE]);

#ifdef __cplusplus
}
#endif

#endif
