/* What each device sees of a plan, and after commitments on it: reads the ticket's bytes from standard input, plans it,
 * and makes the commitments that the words say, one after the other, as examples/commit.c does. Four words are a
 * commitment: the caller, which is the number of the device that asks (0 camera, 1 filter wheel, 2 lamps, 3 stage,
 * 4 database), event, open and close.
 *
 * It prints the views of the plan, then for each commitment a line "commit" with its numbers, and the views after it or
 * "refused" and the number. Views are for each of the five devices a line "view" with its number, then a line for each
 * event that it sees: the event's number, 1 if it is committed and 0 if it is free, open and close. The database sees
 * all events, each other device its own. A ticket that has no plan prints "refused" and the number.
 *
 *     cc -std=c99 -Iinclude examples/view.c crates/beyunlak/out/libbeyunlak.a -o view
 *     ./view [CALLER EVENT OPEN CLOSE].. <TICKET
 */
#include <stdio.h>

#include "beyunlak.h"

static uint32_t get(const uint8_t *at, int bytes)
{
    uint32_t value = 0;
    for (int i = 0; i < bytes; i++)
        value |= (uint32_t)at[i] << (8 * i);
    return value;
}

/* Whether the word is a decimal number of 32 bits, which then stands in *value. */
static int number(const char *word, uint32_t *value)
{
    uint64_t sum = 0;
    const char *at = word;
    for (; *at >= '0' && *at <= '9' && sum <= UINT32_MAX; at++)
        sum = 10 * sum + (uint64_t)(*at - '0');
    *value = (uint32_t)sum;
    return at > word && *at == 0 && sum <= UINT32_MAX;
}

static int refused(uint32_t answer)
{
    printf("refused %u\n", (unsigned)answer);
    return 1;
}

/* The view of each device; its events stand after their count, ten bytes each. */
static void print(const uint8_t *record, size_t length)
{
    static uint8_t view[BEYUNLAK_VIEW_MAX];
    for (uint32_t device = 0; device < BEYUNLAK_DEVICES; device++) {
        printf("view %u\n", (unsigned)device);
        uint32_t answer = beyunlak_view(record, length, device, view, sizeof view);
        if (answer != BEYUNLAK_ACCEPTED) {
            refused(answer);
            continue;
        }
        const uint8_t *end = view + BEYUNLAK_VIEW_LENGTH(get(view, 2));
        for (const uint8_t *event = view + 2; event < end; event += 10)
            printf("%u %u %u %u\n", (unsigned)event[0], (unsigned)event[1], (unsigned)get(event + 2, 4),
                   (unsigned)get(event + 6, 4));
    }
}

int main(int count, char **words)
{
    /* A byte more than the longest ticket, so that one that is too long is refused and not cut. */
    static uint8_t ticket[BEYUNLAK_TICKET_MAX + 1];
    static uint8_t records[2][BEYUNLAK_RECORD_MAX];
    uint8_t *record = records[0], *next = records[1];
    uint32_t caller, event, open, close;

    int good = count % 4 == 1;
    for (int i = 1; i < count; i++)
        good = good && number(words[i], &event);
    if (!good) {
        fprintf(stderr, "usage: view [CALLER EVENT OPEN CLOSE].. <TICKET\n");
        return 2;
    }

    size_t length = fread(ticket, 1, sizeof ticket, stdin);
    uint32_t answer = beyunlak_plan(ticket, length, record, BEYUNLAK_RECORD_MAX);
    if (answer != BEYUNLAK_ACCEPTED)
        return refused(answer);
    uint32_t n = get(ticket + 4, 2);
    length = BEYUNLAK_RECORD_LENGTH(n, get(ticket + 6 + n, 2));
    print(record, length);

    for (int i = 1; i < count; i += 4) {
        number(words[i], &caller);
        number(words[i + 1], &event);
        number(words[i + 2], &open);
        number(words[i + 3], &close);
        printf("commit %u %u %u %u\n", (unsigned)caller, (unsigned)event, (unsigned)open, (unsigned)close);
        answer = beyunlak_commit(record, length, caller, event, open, close, next, BEYUNLAK_RECORD_MAX);
        if (answer != BEYUNLAK_ACCEPTED) {
            refused(answer);
            continue;
        }
        uint8_t *former = record;
        record = next;
        next = former;
        print(record, length);
    }
    return 0;
}
