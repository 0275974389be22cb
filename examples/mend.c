/* A ticket mended: reads the ticket's bytes from standard input, writes the bytes of the mended ticket to the file
 * MENDED, and prints a line "dropped" with the numbers of the dropped rules; or it prints "refused" and the number.
 * tools/ticket makes the ticket from text (`encode`), and from its text and the numbers the mended text (`mended`).
 *
 *     cc -std=c99 -Iinclude examples/mend.c crates/beyunlak/out/libbeyunlak.a -o mend && ./mend MENDED <TICKET
 */
#include <stdio.h>

#include "beyunlak.h"

static uint32_t get(const uint8_t *at)
{
    return at[0] | (uint32_t)at[1] << 8;
}

/* Whether the bytes could be written to the file; if not, a line on standard error says why. */
static int give(const char *path, const uint8_t *bytes, size_t length)
{
    FILE *file = fopen(path, "wb");
    int good = file && fwrite(bytes, 1, length, file) == length;
    if (file && fclose(file) != 0)
        good = 0;
    if (!good)
        perror(path);
    return good;
}

int main(int count, char **words)
{
    /* A byte more than the longest ticket, so that one that is too long is refused and not cut. */
    static uint8_t ticket[BEYUNLAK_TICKET_MAX + 1];
    static uint8_t mended[BEYUNLAK_TICKET_MAX];
    static uint8_t dropped[BEYUNLAK_DROPPED_MAX];

    if (count != 2) {
        fprintf(stderr, "usage: mend MENDED <TICKET\n");
        return 2;
    }

    size_t length = fread(ticket, 1, sizeof ticket, stdin);
    uint32_t answer = beyunlak_mend(ticket, length, mended, sizeof mended, dropped, sizeof dropped);
    if (answer != BEYUNLAK_ACCEPTED) {
        printf("refused %u\n", (unsigned)answer);
        return 1;
    }

    uint32_t n = get(mended + 4), kept = get(mended + 6 + n);
    if (!give(words[1], mended, BEYUNLAK_TICKET_LENGTH(n, kept)))
        return 2;
    printf("dropped");
    for (uint32_t k = 0; k < get(dropped); k++)
        printf(" %u", (unsigned)get(dropped + BEYUNLAK_DROPPED_LENGTH(k)));
    printf("\n");
    return 0;
}
