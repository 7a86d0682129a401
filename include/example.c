/* A policy of two peers in C: the trace program's sample, six events, a line for each. scripts/run-c-example compiles and runs it, and compares the lines
 * with those of the trace program. */
#include "uglezmir.h"

#include <inttypes.h>
#include <stdio.h>
#include <string.h>

enum { PEERS = 2 };

/* The policy's words and its memory: whoever keeps them keeps the policy. */
static uint64_t longs[UGLEZMIR_POLICY_LONGS];
static uint32_t shorts[UGLEZMIR_POLICY_SHORTS];
static uint8_t table[PEERS * UGLEZMIR_PEER_ROW];

/* What an operator says on the phone: messages and bytes are what the peer sent, the ceiling is the load of all. */
static const char *word(uint64_t cause)
{
    switch (cause) {
    case UGLEZMIR_CAUSE_ALLOWED: return "Allow";
    case UGLEZMIR_CAUSE_MESSAGES: return "Disconnect-messages";
    case UGLEZMIR_CAUSE_BYTES: return "Disconnect-bytes";
    case UGLEZMIR_CAUSE_SLOT:
    case UGLEZMIR_CAUSE_CEILING_BYTES: return "Disconnect-ceiling";
    default: return "Ban";
    }
}

static void tell(const char *said)
{
    uint64_t in_flight[2];
    uglezmir_in_flight(longs, shorts, in_flight);
    printf("%s %" PRIu64 " %" PRIu64 " %" PRIu64 "\n", said, in_flight[0], in_flight[1], longs[UGLEZMIR_POLICY_LONG_ROWS]);
}

static void admit(const uint8_t peer[UGLEZMIR_PEER_KEY], uint64_t bytes, uint64_t now_ms)
{
    uint64_t cause[UGLEZMIR_CAUSE_WORDS];
    uint32_t answer = uglezmir_admit_explained(longs, shorts, table, sizeof table, peer, bytes, now_ms, cause);
    tell(answer < UGLEZMIR_FIRST_ANSWER ? "refusal" : word(cause[0]));
}

int main(void)
{
    uint8_t peer[UGLEZMIR_PEER_KEY];
    memset(peer, 0x02, sizeof peer);

    longs[UGLEZMIR_POLICY_LONG_INTERVAL_MS] = 10;
    shorts[UGLEZMIR_POLICY_SHORT_BURST] = 2;
    shorts[UGLEZMIR_POLICY_SHORT_VIOLATION_BAN_THRESHOLD] = 2;
    longs[UGLEZMIR_POLICY_LONG_BAN_DURATION_MS] = 100;
    shorts[UGLEZMIR_POLICY_SHORT_MAX_IN_FLIGHT_MESSAGES] = 4;
    longs[UGLEZMIR_POLICY_LONG_MAX_IN_FLIGHT_BYTES] = 1000;

    /* one peer more than there is memory for */
    longs[UGLEZMIR_POLICY_LONG_MAX_TRACKED_PEERS] = PEERS + 1;
    if (uglezmir_new(longs, shorts, table, sizeof table) != UGLEZMIR_REFUSAL_TOO_SHORT) {
        fputs("a table that is too short was taken\n", stderr);
        return 1;
    }
    longs[UGLEZMIR_POLICY_LONG_MAX_TRACKED_PEERS] = PEERS;
    if (uglezmir_new(longs, shorts, table, sizeof table) != UGLEZMIR_DONE) {
        fputs("the policy could not be made\n", stderr);
        return 1;
    }

    admit(peer, 300, 50);
    admit(peer, 300, 50);
    admit(peer, 1, 50);
    admit(peer, 1, 55);
    admit(peer, 1, 155);
    uint32_t released = uglezmir_release_ingress(longs, shorts, 300);
    tell(released == UGLEZMIR_DONE ? "Released" : "refusal");
    return 0;
}
