/* A plan and commitments on it: reads the ticket's bytes from standard input, plans it, and makes the commitments that
 * the words say, one after the other. Four words are a commitment: the caller, which is the number of the device that
 * asks (0 camera, 1 filter wheel, 2 lamps, 3 stage, 4 database), event, open and close. A device commits its own events:
 * of the ticket in examples/tickets/p1.ticket "0 1 6 10" is accepted, "2 1 6 10" is refused with 20, since event 1 is
 * the camera's and not the lamps', and "5 1 6 10" with 19, since 5 is no device.
 *
 * It prints the plan's record, then for each commitment a line "commit" with its numbers, and the record that it gives
 * or "refused" and the number. After a refusal the record stays, and the next commitment goes on from it. A record is
 * a line "record" with the total width and the counts, of each of the five devices how many commitments were accepted,
 * then a line for each event: its number, 1 if it is committed and 0 if it is free, open and close. A ticket that has
 * no plan prints "refused" and the number.
 *
 *     cc -std=c99 -Iinclude examples/commit.c crates/beyunlak/out/libbeyunlak.a -o commit
 *     ./commit [CALLER EVENT OPEN CLOSE].. <TICKET
 */
#include <stdio.h>

#include "beyunlak.h"

static uint32_t get(const uint8_t *at, int bytes)
{
    uint32_t value = 0;
    for (int i = 0; i < bytes; i++)
        value |= (uint32_t)at[i] << (8 * i);
    return value;
}

/* Whether the word is a decimal number of 32 bits, which then stands in *value. */
static int number(const char *word, uint32_t *value)
{
    uint64_t sum = 0;
    const char *at = word;
    for (; *at >= '0' && *at <= '9' && sum <= UINT32_MAX; at++)
        sum = 10 * sum + (uint64_t)(*at - '0');
    *value = (uint32_t)sum;
    return at > word && *at == 0 && sum <= UINT32_MAX;
}

static int refused(uint32_t answer)
{
    printf("refused %u\n", (unsigned)answer);
    return 1;
}

/* The windows stand after the ticket and n again, and the counts at the end. */
static void print(const uint8_t *record, uint32_t n, uint32_t m)
{
    const uint8_t *windows = record + BEYUNLAK_TICKET_LENGTH(n, m) + 2;
    const uint8_t *counts = record + BEYUNLAK_RECORD_LENGTH(n, m) - 2 * BEYUNLAK_DEVICES;
    uint32_t total = 0;
    for (uint32_t i = 0; i < n; i++)
        total += BEYUNLAK_WEIGHT(record[6 + i]) * (get(windows + 9 * i + 5, 4) - get(windows + 9 * i + 1, 4));
    printf("record %u", (unsigned)total);
    for (int device = 0; device < BEYUNLAK_DEVICES; device++)
        printf(" %u", (unsigned)get(counts + 2 * device, 2));
    printf("\n");
    for (uint32_t i = 0; i < n; i++) {
        const uint8_t *window = windows + 9 * i;
        printf("%u %u %u %u\n", (unsigned)(i + 1), (unsigned)window[0], (unsigned)get(window + 1, 4),
               (unsigned)get(window + 5, 4));
    }
}

int main(int count, char **words)
{
    /* A byte more than the longest ticket, so that one that is too long is refused and not cut. */
    static uint8_t ticket[BEYUNLAK_TICKET_MAX + 1];
    static uint8_t records[2][BEYUNLAK_RECORD_MAX];
    uint8_t *record = records[0], *next = records[1];
    uint32_t caller, event, open, close;

    int good = count % 4 == 1;
    for (int i = 1; i < count; i++)
        good = good && number(words[i], &event);
    if (!good) {
        fprintf(stderr, "usage: commit [CALLER EVENT OPEN CLOSE].. <TICKET\n");
        return 2;
    }

    size_t length = fread(ticket, 1, sizeof ticket, stdin);
    uint32_t answer = beyunlak_plan(ticket, length, record, BEYUNLAK_RECORD_MAX);
    if (answer != BEYUNLAK_ACCEPTED)
        return refused(answer);
    uint32_t n = get(ticket + 4, 2), m = get(ticket + 6 + n, 2);
    print(record, n, m);

    for (int i = 1; i < count; i += 4) {
        number(words[i], &caller);
        number(words[i + 1], &event);
        number(words[i + 2], &open);
        number(words[i + 3], &close);
        printf("commit %u %u %u %u\n", (unsigned)caller, (unsigned)event, (unsigned)open, (unsigned)close);
        answer = beyunlak_commit(record, BEYUNLAK_RECORD_LENGTH(n, m), caller, event, open, close, next,
                                 BEYUNLAK_RECORD_MAX);
        if (answer != BEYUNLAK_ACCEPTED) {
            refused(answer);
            continue;
        }
        uint8_t *former = record;
        record = next;
        next = former;
        print(record, n, m);
    }
    return 0;
}
