/* A small host: makes a ticket of two events, plans it, lets the camera commit event 1 to 6..10 and then to tick 10,
 * prints the windows and each device's count of accepted commitments each time, shows two commitments that are
 * refused, lets the lamps commit event 2, and prints the latest plan of the same ticket.
 *
 *     cc -std=c99 -Iinclude examples/host.c crates/beyunlak/out/libbeyunlak.a -o host && ./host
 */
#include <stdio.h>
#include <string.h>

#include "beyunlak.h"

static uint8_t *put(uint8_t *at, uint32_t value, int bytes)
{
    for (int i = 0; i < bytes; i++)
        *at++ = (uint8_t)(value >> (8 * i));
    return at;
}

static uint32_t get(const uint8_t *at, int bytes)
{
    uint32_t value = 0;
    for (int i = 0; i < bytes; i++)
        value |= (uint32_t)at[i] << (8 * i);
    return value;
}

static uint8_t *rule(uint8_t *at, unsigned from, unsigned to, int32_t bound)
{
    at = put(at, from, 1);
    at = put(at, to, 1);
    return put(at, (uint32_t)bound, 4);
}

/* The camera opens its shutter (event 1) in 5 to 15, the lamps flash (event 2) in 8 to 20; the flash comes at
 * most 4 ticks after the shutter and at most 2 before it. */
static size_t make_ticket(uint8_t *ticket)
{
    uint8_t *at = ticket;
    at = put(at, 20, 4);
    at = put(at, 2, 2);
    at = put(at, BEYUNLAK_CAMERA, 1);
    at = put(at, BEYUNLAK_LAMPS, 1);
    at = put(at, 6, 2);
    at = rule(at, 0, 1, 15);
    at = rule(at, 1, 0, -5);
    at = rule(at, 0, 2, 20);
    at = rule(at, 2, 0, -8);
    at = rule(at, 1, 2, 4);
    at = rule(at, 2, 1, 2);
    return (size_t)(at - ticket);
}

/* The ticket's n and m say how long the record is. */
static size_t length(const uint8_t *record)
{
    uint32_t n = get(record + 4, 2);
    return BEYUNLAK_RECORD_LENGTH(n, get(record + 6 + n, 2));
}

/* The windows stand after the ticket and n again, the counts at the end of the record. */
static void print(const char *title, const uint8_t *record)
{
    uint32_t n = get(record + 4, 2);
    const uint8_t *windows = record + BEYUNLAK_TICKET_LENGTH(n, get(record + 6 + n, 2)) + 2;
    const uint8_t *counts = record + length(record) - 2 * BEYUNLAK_DEVICES;
    uint32_t total = 0;
    printf("%s\n", title);
    for (uint32_t i = 0; i < n; i++) {
        const uint8_t *window = windows + 9 * (size_t)i;
        uint32_t open = get(window + 1, 4), close = get(window + 5, 4);
        printf("  event %u, owner %u: %u..%u%s\n", (unsigned)(i + 1), (unsigned)record[6 + i],
               (unsigned)open, (unsigned)close, window[0] ? ", committed" : "");
        total += BEYUNLAK_WEIGHT(record[6 + i]) * (close - open);
    }
    printf("  total %u, accepted commitments by owner:", (unsigned)total);
    for (int owner = 0; owner < BEYUNLAK_DEVICES; owner++)
        printf(" %u", (unsigned)get(counts + 2 * owner, 2));
    printf("\n");
}

static const char *reason(uint32_t answer)
{
    switch (answer) {
    case BEYUNLAK_ACCEPTED: return "accepted";
    case BEYUNLAK_CUT: return "bytes end inside a field";
    case BEYUNLAK_HORIZON: return "horizon too large";
    case BEYUNLAK_EVENTS: return "too many events";
    case BEYUNLAK_OWNER: return "unknown owner";
    case BEYUNLAK_RULES: return "too many rules";
    case BEYUNLAK_POINTS: return "bad points of a rule";
    case BEYUNLAK_BOUND: return "bound out of range";
    case BEYUNLAK_TRAILING: return "bytes after the end";
    case BEYUNLAK_IMPOSSIBLE: return "no schedule exists";
    case BEYUNLAK_SHORT: return "output too short";
    case BEYUNLAK_WINDOW: return "not inside the event's window";
    case BEYUNLAK_LAYOUT: return "record breaks the layout";
    case BEYUNLAK_UNFIT: return "record's windows are not fit";
    case BEYUNLAK_NAMES: return "list of names breaks the layout";
    case BEYUNLAK_POSSIBLE: return "a schedule exists";
    case BEYUNLAK_COUNT: return "owner's count cannot rise";
    case BEYUNLAK_CALLER: return "caller is no device";
    case BEYUNLAK_NOT_OWN: return "not an event of the caller";
    default: return "unknown answer";
    }
}

static int refused(const char *what, uint32_t answer)
{
    if (answer == BEYUNLAK_ACCEPTED)
        return 0;
    printf("%s refused: %u, %s\n", what, (unsigned)answer, reason(answer));
    return 1;
}

int main(void)
{
    uint8_t ticket[BEYUNLAK_TICKET_MAX];
    uint8_t record[BEYUNLAK_RECORD_MAX];
    uint8_t next[BEYUNLAK_RECORD_MAX];
    size_t ticket_len = make_ticket(ticket);

    if (refused("planning", beyunlak_plan(ticket, ticket_len, record, sizeof record)))
        return 1;
    print("plan", record);

    if (refused("event 1 at 6..10",
                beyunlak_commit(record, length(record), BEYUNLAK_CAMERA, 1, 6, 10, next, sizeof next)))
        return 1;
    print("after event 1 commits 6..10", next);

    /* A committed event narrows its window again. The two buffers change places. */
    if (refused("event 1 at 10..10",
                beyunlak_commit(next, length(next), BEYUNLAK_CAMERA, 1, 10, 10, record, sizeof record)))
        return 1;
    print("after event 1 commits 10..10", record);

    /* Tick 9 lies inside the first committed window, not inside the last. A refusal leaves the output as it was:
     * the record in `record` is still the one to go on with. */
    size_t record_len = length(record);
    memcpy(next, record, record_len);
    refused("event 1 at 9..9", beyunlak_commit(record, record_len, BEYUNLAK_CAMERA, 1, 9, 9, next, sizeof next));

    /* Event 1 is the camera's: the lamps may not commit it. */
    refused("event 1 at 10..10 by the lamps",
            beyunlak_commit(record, record_len, BEYUNLAK_LAMPS, 1, 10, 10, next, sizeof next));
    if (memcmp(next, record, record_len) != 0)
        return 1;

    /* The lamps' count rises, the camera's stays. */
    if (refused("event 2 at 10..12",
                beyunlak_commit(record, record_len, BEYUNLAK_LAMPS, 2, 10, 12, next, sizeof next)))
        return 1;
    print("after event 2 commits 10..12", next);

    /* As wide, and every window as late as it can be. */
    if (refused("latest planning", beyunlak_plan_latest(ticket, ticket_len, record, sizeof record)))
        return 1;
    print("latest plan", record);
    return 0;
}
