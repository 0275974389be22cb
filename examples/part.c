/* One device's part of a ticket: reads the ticket's bytes from standard input and plans the events of the device with the
 * number DEVICE (0 camera, 1 filter wheel, 2 lamps, 3 stage, 4 database) alone. It prints a line "part" with the device
 * and the part's total, then a line for each of its events: the event's number, open and close; or "refused" and the
 * number. tools/ticket makes the ticket from text (`encode`) and the number from a device's name (`device`), and puts
 * names to what is printed (`part`).
 *
 *     cc -std=c99 -Iinclude examples/part.c crates/beyunlak/out/libbeyunlak.a -o part && ./part DEVICE <TICKET
 */
#include <stdio.h>

#include "beyunlak.h"

static uint32_t get(const uint8_t *at, int bytes)
{
    uint32_t value = 0;
    for (int i = 0; i < bytes; i++)
        value |= (uint32_t)at[i] << (8 * i);
    return value;
}

/* Whether the word is a decimal number of 32 bits, which then stands in *value. */
static int number(const char *word, uint32_t *value)
{
    uint64_t sum = 0;
    const char *at = word;
    for (; *at >= '0' && *at <= '9' && sum <= UINT32_MAX; at++)
        sum = 10 * sum + (uint64_t)(*at - '0');
    *value = (uint32_t)sum;
    return at > word && *at == 0 && sum <= UINT32_MAX;
}

int main(int count, char **words)
{
    /* A byte more than the longest ticket, so that one that is too long is refused and not cut. */
    static uint8_t ticket[BEYUNLAK_TICKET_MAX + 1];
    static uint8_t part[BEYUNLAK_PART_MAX];
    uint32_t device, total = 0;

    if (count != 2 || !number(words[1], &device)) {
        fprintf(stderr, "usage: part DEVICE <TICKET\n");
        return 2;
    }

    size_t length = fread(ticket, 1, sizeof ticket, stdin);
    uint32_t answer = beyunlak_part(ticket, length, device, part, sizeof part);
    if (answer != BEYUNLAK_ACCEPTED) {
        printf("refused %u\n", (unsigned)answer);
        return 1;
    }

    const uint8_t *end = part + BEYUNLAK_PART_LENGTH(get(part, 2));
    for (const uint8_t *event = part + 2; event < end; event += 9)
        total += BEYUNLAK_WEIGHT(device) * (get(event + 5, 4) - get(event + 1, 4));
    printf("part %u %u\n", (unsigned)device, (unsigned)total);
    for (const uint8_t *event = part + 2; event < end; event += 9)
        printf("%u %u %u\n", (unsigned)event[0], (unsigned)get(event + 1, 4), (unsigned)get(event + 5, 4));
    return 0;
}
