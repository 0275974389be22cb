/* Why no times keep the rules of a ticket: prints the ring of rules that beyunlak_reason finds, or "refused" and the
 * number. The labels of the events and the roster of the devices are files, lists of names; the ticket is a file too,
 * or comes from standard input. tools/ticket makes all three from text: `encode` the ticket and its labels, `list` the
 * roster.
 *
 *     cc -std=c99 -Iinclude examples/reason.c crates/beyunlak/out/libbeyunlak.a -o reason
 *     ./reason LABELS ROSTER [TICKET]
 */
#include <stdio.h>

#include "beyunlak.h"

/* The bytes of a file, as many as `bytes` holds; -1, with a line on standard error, if it cannot be read. */
static long take(const char *path, uint8_t *bytes, size_t size)
{
    FILE *file = path ? fopen(path, "rb") : stdin;
    long length = -1;
    if (file) {
        length = (long)fread(bytes, 1, size, file);
        if (ferror(file))
            length = -1;
    }
    if (length < 0)
        perror(path ? path : "standard input");
    if (file && path)
        fclose(file);
    return length;
}

int main(int count, char **words)
{
    /* Each has a byte more than its longest content, so that a file that is too long is refused and not cut. */
    static uint8_t ticket[BEYUNLAK_TICKET_MAX + 1];
    static uint8_t labels[BEYUNLAK_NAMES_MAX(BEYUNLAK_EVENTS_MAX) + 1];
    static uint8_t roster[BEYUNLAK_NAMES_MAX(BEYUNLAK_DEVICES) + 1];
    static uint8_t text[BEYUNLAK_REASON_MAX];

    if (count < 3 || count > 4) {
        fprintf(stderr, "usage: reason LABELS ROSTER [TICKET]\n");
        return 2;
    }
    long labels_len = take(words[1], labels, sizeof labels);
    long roster_len = take(words[2], roster, sizeof roster);
    long ticket_len = take(count == 4 ? words[3] : NULL, ticket, sizeof ticket);
    if (labels_len < 0 || roster_len < 0 || ticket_len < 0)
        return 2;

    uint32_t length;
    uint32_t answer = beyunlak_reason(ticket, (size_t)ticket_len, labels, (size_t)labels_len, roster,
                                      (size_t)roster_len, text, sizeof text, &length);
    if (answer != BEYUNLAK_ACCEPTED) {
        printf("refused %u\n", (unsigned)answer);
        return 1;
    }
    fwrite(text, 1, length, stdout);
    return 0;
}
