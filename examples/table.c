/* The table of distances of a ticket: reads the ticket's bytes from standard input and prints the table row by row,
 * or "refused" and the number. Bytes that break the layout are refused as beyunlak_plan refuses them. With the word
 * `stops` it prints the working tables, before the first stop and after each: a line with the number of stops, then
 * the rows, with "none" where there is no path yet.
 *
 *     cc -std=c99 -Iinclude examples/table.c crates/beyunlak/out/libbeyunlak.a -o table && ./table [stops] <TICKET
 */
#include <stdio.h>
#include <string.h>

#include "beyunlak.h"

static uint32_t get(const uint8_t *at, int bytes)
{
    uint32_t value = 0;
    for (int i = 0; i < bytes; i++)
        value |= (uint32_t)at[i] << (8 * i);
    return value;
}

/* A number in two's complement. */
static int32_t get_signed(const uint8_t *at)
{
    uint32_t value = get(at, 4);
    return value <= INT32_MAX ? (int32_t)value : -(int32_t)(UINT32_MAX - value) - 1;
}

static int refused(uint32_t answer)
{
    printf("refused %u\n", (unsigned)answer);
    return 1;
}

static void print(const int32_t *table, uint32_t n)
{
    for (uint32_t i = 0; i <= n; i++)
        for (uint32_t j = 0; j <= n; j++) {
            int32_t number = table[i * (n + 1) + j];
            if (number == BEYUNLAK_NO_PATH)
                printf("none");
            else
                printf("%d", (int)number);
            putchar(j < n ? ' ' : '\n');
        }
}

int main(int count, char **words)
{
    static uint8_t ticket[BEYUNLAK_TICKET_MAX + 1];
    static uint8_t plan[BEYUNLAK_RECORD_MAX];
    static struct beyunlak_rule rules[BEYUNLAK_RULES_MAX];
    static int32_t table[BEYUNLAK_TABLE_MAX];

    int each_stop = count == 2 && strcmp(words[1], "stops") == 0;
    if (count > 1 && !each_stop) {
        fprintf(stderr, "usage: table [stops] <TICKET\n");
        return 2;
    }

    /* A ticket that can be planned keeps the layout, so its fields stand where its counts say. */
    size_t length = fread(ticket, 1, sizeof ticket, stdin);
    uint32_t answer = beyunlak_plan(ticket, length, plan, sizeof plan);
    if (answer != BEYUNLAK_ACCEPTED)
        return refused(answer);

    uint32_t n = get(ticket + 4, 2);
    if (each_stop) {
        for (uint32_t stops = 0; stops <= n + 1; stops++) {
            answer = beyunlak_table_after(ticket, length, stops, table, BEYUNLAK_TABLE_MAX);
            if (answer != BEYUNLAK_ACCEPTED)
                return refused(answer);
            printf("stops %u\n", (unsigned)stops);
            print(table, n);
        }
        return 0;
    }

    uint32_t m = get(ticket + 6 + n, 2);
    for (uint32_t k = 0; k < m; k++) {
        const uint8_t *rule = ticket + BEYUNLAK_TICKET_LENGTH(n, k);
        rules[k].from = rule[0];
        rules[k].to = rule[1];
        rules[k].bound = get_signed(rule + 2);
    }
    answer = beyunlak_table(get(ticket, 4), n, rules, m, table, BEYUNLAK_TABLE_MAX);
    if (answer != BEYUNLAK_ACCEPTED)
        return refused(answer);
    print(table, n);
    return 0;
}
