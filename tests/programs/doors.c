/* The header against the library: every answer under its name, the lengths, what is left in the outputs, the
 * examples of latest plans and commitments, narrowing again, the counts of the devices, both tables, reasons,
 * mending, parts, who commits, and views.
 * Prints a line a check, "ok NAME" or "FAILED NAME". Called with a word it leaves out what takes long. */
#include <stdio.h>
#include <stdlib.h>
#include <string.h>

#include "beyunlak.h"

static uint8_t in[4096], out[4096], before[4096];
static size_t in_len;

/* The second output of mending. */
static uint8_t dropped[1024], dropped_before[1024];

/* Which of the two plans is asked for, and what stands in front of its checks' names. */
static uint32_t (*planning)(const uint8_t *, size_t, uint8_t *, size_t) = beyunlak_plan;
static const char *of = "";

static void put(uint32_t value, int bytes)
{
    for (int i = 0; i < bytes; i++)
        in[in_len++] = (uint8_t)(value >> (8 * i));
}

static void check(const char *name, int good)
{
    printf("%s %s%s\n", good ? "ok" : "FAILED", of, name);
}

static void start(uint32_t horizon, uint32_t n)
{
    in_len = 0;
    put(horizon, 4);
    put(n, 2);
}

static void owners(uint32_t n, uint32_t owner)
{
    for (uint32_t i = 0; i < n; i++)
        put(owner, 1);
}

static void rule(uint32_t from, uint32_t to, int32_t bound)
{
    put(from, 1);
    put(to, 1);
    put((uint32_t)bound, 4);
}

static void window(uint32_t flag, uint32_t open, uint32_t close)
{
    put(flag, 1);
    put(open, 4);
    put(close, 4);
}

static void counts(uint32_t camera, uint32_t wheel, uint32_t lamps, uint32_t stage, uint32_t database)
{
    put(BEYUNLAK_DEVICES, 2);
    put(camera, 2);
    put(wheel, 2);
    put(lamps, 2);
    put(stage, 2);
    put(database, 2);
}

/* The ticket of P1, and a record of it with two windows and the counts of the devices that own them. */
static void trains(void)
{
    start(20, 2);
    put(BEYUNLAK_CAMERA, 1);
    put(BEYUNLAK_LAMPS, 1);
    put(6, 2);
    rule(0, 1, 15);
    rule(1, 0, -5);
    rule(0, 2, 20);
    rule(2, 0, -8);
    rule(1, 2, 4);
    rule(2, 1, 2);
}

static void trains_flags(uint32_t flag, uint32_t a, uint32_t b, uint32_t second, uint32_t c, uint32_t d,
                         uint32_t camera, uint32_t lamps)
{
    trains();
    put(2, 2);
    window(flag, a, b);
    window(second, c, d);
    counts(camera, 0, lamps, 0, 0);
}

static void trains_record(uint32_t flag, uint32_t a, uint32_t b, uint32_t c, uint32_t d, uint32_t camera)
{
    trains_flags(flag, a, b, 0, c, d, camera, 0);
}

static void fill(void)
{
    for (size_t i = 0; i < sizeof out; i++)
        out[i] = before[i] = (uint8_t)(i * 7 + 3);
    for (size_t i = 0; i < sizeof dropped; i++)
        dropped[i] = dropped_before[i] = (uint8_t)(i * 5 + 1);
}

static uint32_t plan(size_t out_len)
{
    fill();
    return planning(in, in_len, out, out_len);
}

static uint32_t commit_as(uint32_t caller, uint32_t event, uint32_t open, uint32_t close, size_t out_len)
{
    fill();
    return beyunlak_commit(in, in_len, caller, event, open, close, out, out_len);
}

/* The owner of an event of the input, who commits it; the camera where there is no such event. */
static uint32_t owner_of(uint32_t event)
{
    const int there = event > 0 && event <= in[4] && in[5 + event] < BEYUNLAK_DEVICES;
    return there ? in[5 + event] : BEYUNLAK_CAMERA;
}

static uint32_t commit(uint32_t event, uint32_t open, uint32_t close, size_t out_len)
{
    return commit_as(owner_of(event), event, open, close, out_len);
}

static int untouched_from(size_t at)
{
    return memcmp(out + at, before + at, sizeof out - at) == 0;
}

static int dropped_untouched_from(size_t at)
{
    return memcmp(dropped + at, dropped_before + at, sizeof dropped - at) == 0;
}

static void refuses(const char *name, uint32_t answer, uint32_t wanted)
{
    check(name, answer == wanted && untouched_from(0) && dropped_untouched_from(0));
}

/* The input is the record, the mended ticket, the part or the view that is wanted. */
static void gives(const char *name, uint32_t answer)
{
    check(name, answer == BEYUNLAK_ACCEPTED && memcmp(out, in, in_len) == 0 && untouched_from(in_len));
}

/* Tickets that are refused for what they are, whatever is asked of them. */
static void malformed(void)
{
    in_len = 0;
    refuses("1 empty", plan(BEYUNLAK_RECORD_MAX), BEYUNLAK_CUT);
    trains();
    in_len--;
    refuses("1 cut rule", plan(BEYUNLAK_RECORD_MAX), BEYUNLAK_CUT);
    start(BEYUNLAK_HORIZON_MAX + 1, 0);
    refuses("2", plan(BEYUNLAK_RECORD_MAX), BEYUNLAK_HORIZON);
    start(BEYUNLAK_HORIZON_MAX, BEYUNLAK_EVENTS_MAX + 1);
    refuses("3", plan(BEYUNLAK_RECORD_MAX), BEYUNLAK_EVENTS);
    start(5, 1);
    put(BEYUNLAK_DATABASE + 1, 1);
    refuses("4", plan(BEYUNLAK_RECORD_MAX), BEYUNLAK_OWNER);
    start(5, 1);
    put(BEYUNLAK_DATABASE, 1);
    put(BEYUNLAK_RULES_MAX + 1, 2);
    refuses("5", plan(BEYUNLAK_RECORD_MAX), BEYUNLAK_RULES);
    start(5, 1);
    put(BEYUNLAK_STAGE, 1);
    put(1, 2);
    rule(0, 2, 3);
    refuses("6", plan(BEYUNLAK_RECORD_MAX), BEYUNLAK_POINTS);
    start(5, 1);
    put(BEYUNLAK_FILTER_WHEEL, 1);
    put(1, 2);
    rule(0, 1, -BEYUNLAK_BOUND_MAX - 1);
    refuses("7", plan(BEYUNLAK_RECORD_MAX), BEYUNLAK_BOUND);
    trains();
    put(0, 1);
    refuses("8", plan(BEYUNLAK_RECORD_MAX), BEYUNLAK_TRAILING);
}

static void tickets(void)
{
    malformed();
    start(5, 1);
    put(BEYUNLAK_STAGE, 1);
    put(1, 2);
    rule(1, 0, -6);
    refuses("9", plan(BEYUNLAK_RECORD_MAX), BEYUNLAK_IMPOSSIBLE);
    trains();
    refuses("10 plan", plan(BEYUNLAK_RECORD_MAX - 1), BEYUNLAK_SHORT);
    in_len = 0;
    refuses("10 first", plan(0), BEYUNLAK_SHORT);
}

static void records(void)
{
    trains_record(0, 5, 10, 8, 9, 0);
    refuses("10 commit", commit(1, 10, 10, BEYUNLAK_RECORD_MAX - 1), BEYUNLAK_SHORT);
    refuses("20 event 0", commit(0, 10, 10, BEYUNLAK_RECORD_MAX), BEYUNLAK_NOT_OWN);
    refuses("20 event n + 1", commit(3, 10, 10, BEYUNLAK_RECORD_MAX), BEYUNLAK_NOT_OWN);
    refuses("20 another device", commit_as(BEYUNLAK_LAMPS, 1, 10, 10, BEYUNLAK_RECORD_MAX), BEYUNLAK_NOT_OWN);
    refuses("19", commit_as(BEYUNLAK_DEVICES, 1, 10, 10, BEYUNLAK_RECORD_MAX), BEYUNLAK_CALLER);
    refuses("13 open above close", commit(1, 9, 8, BEYUNLAK_RECORD_MAX), BEYUNLAK_WINDOW);
    refuses("13 outside", commit(2, 8, 10, BEYUNLAK_RECORD_MAX), BEYUNLAK_WINDOW);
    trains_record(1, 5, 10, 8, 9, 0);
    refuses("14 count", commit(1, 6, 6, BEYUNLAK_RECORD_MAX), BEYUNLAK_LAYOUT);
    trains_record(0, 5, 4, 8, 9, 0);
    refuses("14 window", commit(1, 6, 6, BEYUNLAK_RECORD_MAX), BEYUNLAK_LAYOUT);
    trains_record(0, 5, 15, 8, 19, 0);
    refuses("15", commit(0, 9, 8, BEYUNLAK_RECORD_MAX), BEYUNLAK_UNFIT);
    trains();
    refuses("1 ticket as record", commit(1, 6, 6, BEYUNLAK_RECORD_MAX), BEYUNLAK_CUT);
}

static void examples(void)
{
    uint32_t answer;
    trains();
    answer = plan(BEYUNLAK_RECORD_MAX);
    trains_record(0, 5, 11, 9, 9, 0);
    gives("P1", answer);
    check("record length", in_len == BEYUNLAK_RECORD_LENGTH(2, 6));
    answer = commit(1, 10, 10, BEYUNLAK_RECORD_MAX);
    trains_record(1, 10, 10, 8, 14, 1);
    gives("P2", answer);
    trains_record(0, 15, 15, 13, 19, 0);
    answer = commit(2, 13, 13, sizeof out);
    trains_flags(0, 9, 15, 1, 13, 13, 0, 1);
    gives("P3", answer);
    for (int last = 0; last < 2; last++) {
        start(5, 3);
        owners(3, BEYUNLAK_STAGE);
        put(2, 2);
        rule(1, 2, 0);
        rule(2, 3, 0);
        put(3, 2);
        window((uint32_t)last, last ? 2 : 0, last ? 2 : 5);
        window(0, 0, last ? 2 : 0);
        window(0, 0, 0);
        counts(0, 0, 0, (uint32_t)last, 0);
        if (last)
            gives("P5", answer);
        else
            answer = commit(1, 2, 2, BEYUNLAK_RECORD_MAX);
    }
}

/* The latest plans of P1, P4 and P6. */
static void latest_examples(void)
{
    uint32_t answer;
    trains();
    answer = plan(BEYUNLAK_RECORD_MAX);
    trains_record(0, 9, 15, 13, 13, 0);
    gives("P1", answer);
    trains();
    answer = plan(sizeof out);
    trains_record(0, 9, 15, 13, 13, 0);
    gives("P1, longer output", answer);
    start(5, 3);
    owners(3, BEYUNLAK_STAGE);
    put(2, 2);
    rule(1, 2, 0);
    rule(2, 3, 0);
    answer = plan(BEYUNLAK_RECORD_MAX);
    put(3, 2);
    window(0, 5, 5);
    window(0, 5, 5);
    window(0, 0, 5);
    counts(0, 0, 0, 0, 0);
    gives("P4", answer);
    start(10, 2);
    owners(2, BEYUNLAK_STAGE);
    put(2, 2);
    rule(1, 2, -1);
    rule(2, 1, 1);
    answer = plan(BEYUNLAK_RECORD_MAX);
    put(2, 2);
    window(0, 10, 10);
    window(0, 9, 9);
    counts(0, 0, 0, 0, 0);
    gives("P6", answer);
}

/* A commitment on the record that a latest plan has just written, and two on P3's record. */
static void latest_then_commitment(void)
{
    uint32_t answer;
    trains();
    answer = plan(BEYUNLAK_RECORD_MAX);
    memcpy(in, out, in_len = BEYUNLAK_RECORD_LENGTH(2, 6));
    check("P1 to commit on", answer == BEYUNLAK_ACCEPTED);
    answer = commit(2, 13, 13, BEYUNLAK_RECORD_MAX);
    trains_flags(0, 9, 15, 1, 13, 13, 0, 1);
    gives("P1, then event 2 commits 13..13", answer);
    trains_record(0, 15, 15, 13, 19, 0);
    answer = commit(2, 13, 14, BEYUNLAK_RECORD_MAX);
    trains_flags(0, 10, 15, 1, 13, 14, 0, 1);
    gives("P3, where event 2 commits 13..14", answer);
    answer = commit(2, 13, 13, BEYUNLAK_RECORD_MAX);
    trains_flags(0, 9, 15, 1, 13, 13, 0, 2);
    gives("P3, where event 2 commits 13..14 and 13..13", answer);
}

/* ---- weights */

/* P4 with other owners, and the ends of its three windows in the plan and in the latest plan. */
static const struct {
    const char *name;
    uint32_t owner[3], earliest[6], latest[6];
} weighed[] = {
    {"the camera alone", {0, 0, 0}, {0, 5, 0, 0, 0, 0}, {5, 5, 5, 5, 0, 5}},
    {"the database alone", {4, 4, 4}, {0, 0, 0, 0, 0, 0}, {5, 5, 5, 5, 5, 5}},
    {"the camera between two of the stage", {3, 0, 3}, {5, 5, 0, 5, 0, 0}, {5, 5, 0, 5, 0, 0}},
    {"the stage between two of the database", {4, 3, 4}, {5, 5, 0, 5, 0, 0}, {5, 5, 0, 5, 0, 0}},
    {"the database between wheel and lamps", {1, 4, 2}, {0, 5, 0, 0, 0, 0}, {5, 5, 5, 5, 0, 5}},
};

static void weighed_plans(int late)
{
    for (size_t k = 0; k < sizeof weighed / sizeof *weighed; k++) {
        const uint32_t *ends = late ? weighed[k].latest : weighed[k].earliest;
        uint32_t answer;
        start(5, 3);
        for (int i = 0; i < 3; i++)
            put(weighed[k].owner[i], 1);
        put(2, 2);
        rule(1, 2, 0);
        rule(2, 3, 0);
        answer = plan(BEYUNLAK_RECORD_MAX);
        put(3, 2);
        for (int i = 0; i < 3; i++)
            window(0, ends[2 * i], ends[2 * i + 1]);
        counts(0, 0, 0, 0, 0);
        gives(weighed[k].name, answer);
    }
}

/* P10 of camera and database, and a record of it. */
static void camera_and_database(uint32_t flag, uint32_t a, uint32_t b, uint32_t c, uint32_t d)
{
    start(5, 2);
    put(BEYUNLAK_CAMERA, 1);
    put(BEYUNLAK_DATABASE, 1);
    put(0, 2);
    put(2, 2);
    window(flag, a, b);
    window(0, c, d);
    counts(flag, 0, 0, 0, 0);
}

static void weights(void)
{
    static const uint32_t weight[BEYUNLAK_DEVICES] = {3, 1, 1, 1, 0};
    uint32_t answer;
    for (uint32_t owner = 0; owner < BEYUNLAK_DEVICES; owner++)
        check("BEYUNLAK_WEIGHT", BEYUNLAK_WEIGHT(owner) == weight[owner]);
    camera_and_database(0, 0, 5, 1, 3);
    answer = commit(1, 2, 2, BEYUNLAK_RECORD_MAX);
    camera_and_database(1, 2, 2, 0, 3);
    gives("the database contains its former window", answer);
}

/* ---- narrowing again */

/* P1: event 1 commits to 6..10, to 10..10, and to 10..10 once more, then event 2 does; and what is outside by then. */
static void narrowing(void)
{
    uint32_t answer;
    trains_record(0, 5, 10, 8, 9, 0);
    answer = commit(1, 6, 10, BEYUNLAK_RECORD_MAX);
    trains_record(1, 6, 10, 8, 10, 1);
    gives("6..10", answer);
    refuses("13 inside the free window before 6..10", commit(1, 5, 10, BEYUNLAK_RECORD_MAX), BEYUNLAK_WINDOW);
    answer = commit(1, 10, 10, BEYUNLAK_RECORD_MAX);
    trains_record(1, 10, 10, 8, 14, 2);
    gives("10..10", answer);
    refuses("13 inside 6..10", commit(1, 9, 9, BEYUNLAK_RECORD_MAX), BEYUNLAK_WINDOW);
    refuses("13 6..10 itself", commit(1, 6, 10, BEYUNLAK_RECORD_MAX), BEYUNLAK_WINDOW);
    refuses("13 closes later", commit(1, 10, 11, BEYUNLAK_RECORD_MAX), BEYUNLAK_WINDOW);
    refuses("13 opens above its close", commit(1, 11, 10, BEYUNLAK_RECORD_MAX), BEYUNLAK_WINDOW);
    answer = commit(1, 10, 10, sizeof out);
    trains_record(1, 10, 10, 8, 14, 3);
    gives("10..10, the same window", answer);
    answer = commit(2, 8, 14, BEYUNLAK_RECORD_MAX);
    trains_flags(1, 10, 10, 1, 8, 14, 3, 1);
    gives("the other event, its whole window", answer);
    answer = commit(2, 10, 12, BEYUNLAK_RECORD_MAX);
    trains_flags(1, 10, 10, 1, 10, 12, 3, 2);
    gives("the other event again", answer);
    refuses("13 of the other event", commit(2, 9, 12, BEYUNLAK_RECORD_MAX), BEYUNLAK_WINDOW);
    answer = commit(1, 10, 10, BEYUNLAK_RECORD_MAX);
    trains_flags(1, 10, 10, 1, 10, 12, 4, 2);
    gives("all committed, and the first once more", answer);
}

/* P4, all three events by turns. A committed window stays while others commit, and the free one grows when it can. */
static void by_turns(void)
{
    static const struct {
        uint32_t event, open, close, windows[3][3];
    } steps[] = {
        {1, 2, 5, {{1, 2, 5}, {0, 0, 2}, {0, 0, 0}}}, {2, 1, 2, {{1, 2, 5}, {1, 1, 2}, {0, 0, 1}}},
        {1, 4, 5, {{1, 4, 5}, {1, 1, 2}, {0, 0, 1}}}, {2, 2, 2, {{1, 4, 5}, {1, 2, 2}, {0, 0, 2}}},
        {3, 0, 1, {{1, 4, 5}, {1, 2, 2}, {1, 0, 1}}}, {1, 5, 5, {{1, 5, 5}, {1, 2, 2}, {1, 0, 1}}},
        {3, 1, 1, {{1, 5, 5}, {1, 2, 2}, {1, 1, 1}}}, {2, 2, 2, {{1, 5, 5}, {1, 2, 2}, {1, 1, 1}}},
    };
    static const uint32_t plan_windows[3][3] = {{0, 0, 5}, {0, 0, 0}, {0, 0, 0}};
    const uint32_t count = sizeof steps / sizeof *steps;
    uint32_t answer = 0;
    char text[80];
    for (uint32_t k = 0; k <= count; k++) {
        start(5, 3);
        owners(3, BEYUNLAK_STAGE);
        put(2, 2);
        rule(1, 2, 0);
        rule(2, 3, 0);
        put(3, 2);
        for (int i = 0; i < 3; i++) {
            const uint32_t *w = k ? steps[k - 1].windows[i] : plan_windows[i];
            window(w[0], w[1], w[2]);
        }
        counts(0, 0, 0, k, 0);
        sprintf(text, "P4, commitment %u", (unsigned)k);
        if (k)
            gives(text, answer);
        if (k < count)
            answer = commit(steps[k].event, steps[k].open, steps[k].close, BEYUNLAK_RECORD_MAX);
    }
}

/* ---- the counts of the devices */

/* In a record that comes from anywhere a count is at least the number of its device's flags. The owner's rises by one,
 * whatever the other device's is. */
static void counting(void)
{
    static const uint32_t numbers[] = {0, 1, 2, 254, 255, 256, 32767, 32768, 65279, 65533, 65534};
    static const uint32_t others[] = {0, 1, 256, BEYUNLAK_COUNT_MAX};
    uint32_t answer;
    char text[80];
    for (size_t k = 0; k < sizeof numbers / sizeof *numbers; k++)
        for (size_t j = 0; j < sizeof others / sizeof *others; j++)
            for (uint32_t flags = 0; flags < 4; flags++) {
                const uint32_t first = flags & 1, second = flags >> 1, camera = numbers[k], lamps = others[j];
                trains_flags(first, 5, 10, second, 8, 9, camera, lamps);
                answer = commit(1, 10, 10, BEYUNLAK_RECORD_MAX);
                sprintf(text, "flags %u and %u, counts %u and %u", (unsigned)first, (unsigned)second, (unsigned)camera,
                        (unsigned)lamps);
                if (camera < first || lamps < second) {
                    refuses(text, answer, BEYUNLAK_LAYOUT);
                } else {
                    trains_flags(1, 10, 10, second, 8, second ? 9 : 14, camera + 1, lamps);
                    gives(text, answer);
                }
            }
    trains_record(1, 5, 15, 8, 19, 0);
    refuses("14 a count before 15", commit(0, 6, 6, BEYUNLAK_RECORD_MAX), BEYUNLAK_LAYOUT);
}

/* A device whose count is 65,534 takes one commitment more. At 65,535 whatever would be accepted of its events is 18,
 * and all else as before. */
static void count_ends(void)
{
    uint32_t answer;
    check("largest count", BEYUNLAK_COUNT_MAX == UINT16_MAX);
    trains_record(1, 5, 10, 8, 9, BEYUNLAK_COUNT_MAX - 1);
    answer = commit(1, 6, 10, BEYUNLAK_RECORD_MAX);
    trains_record(1, 6, 10, 8, 10, BEYUNLAK_COUNT_MAX);
    gives("65,534 and one more", answer);
    refuses("18 narrower", commit(1, 10, 10, BEYUNLAK_RECORD_MAX), BEYUNLAK_COUNT);
    refuses("18 the same window", commit(1, 6, 10, BEYUNLAK_RECORD_MAX), BEYUNLAK_COUNT);
    refuses("13 before 18, outside", commit(1, 5, 10, BEYUNLAK_RECORD_MAX), BEYUNLAK_WINDOW);
    refuses("13 before 18, open above close", commit(1, 9, 8, BEYUNLAK_RECORD_MAX), BEYUNLAK_WINDOW);
    refuses("20 before 18, event 0", commit(0, 8, 8, BEYUNLAK_RECORD_MAX), BEYUNLAK_NOT_OWN);
    refuses("20 before 18, event n + 1", commit(3, 8, 8, BEYUNLAK_RECORD_MAX), BEYUNLAK_NOT_OWN);
    refuses("20 before 18, another device's event", commit_as(BEYUNLAK_CAMERA, 2, 8, 8, BEYUNLAK_RECORD_MAX),
            BEYUNLAK_NOT_OWN);
    refuses("20 before 18, by another device", commit_as(BEYUNLAK_LAMPS, 1, 10, 10, BEYUNLAK_RECORD_MAX),
            BEYUNLAK_NOT_OWN);
    refuses("10 before 18", commit(1, 10, 10, BEYUNLAK_RECORD_MAX - 1), BEYUNLAK_SHORT);
    answer = commit(2, 8, 8, BEYUNLAK_RECORD_MAX);
    trains_flags(1, 6, 10, 1, 8, 8, BEYUNLAK_COUNT_MAX, 1);
    gives("65,535 of another device", answer);
    put(0, 1);
    refuses("8 before 18", commit(1, 10, 10, BEYUNLAK_RECORD_MAX), BEYUNLAK_TRAILING);
    trains_record(1, 5, 15, 8, 19, BEYUNLAK_COUNT_MAX);
    refuses("15 before 18", commit(1, 10, 10, BEYUNLAK_RECORD_MAX), BEYUNLAK_UNFIT);
    trains_flags(0, 5, 10, 0, 8, 9, BEYUNLAK_COUNT_MAX, 0);
    refuses("18 no flags", commit(1, 10, 10, BEYUNLAK_RECORD_MAX), BEYUNLAK_COUNT);
    trains_flags(1, 5, 10, 1, 8, 9, 1, BEYUNLAK_COUNT_MAX);
    refuses("18 all flags", commit(2, 9, 9, BEYUNLAK_RECORD_MAX), BEYUNLAK_COUNT);
}

/* A ticket without rules in which every device owns two events, and a record of it in which one event may have a window
 * of its own. The bits of `flags` are the committed events, the first event's the lowest. */
static const uint8_t two_each[] = {4, 2, 0, 3, 1, 1, 0, 2, 4, 3};
static const uint32_t ten = sizeof two_each, all_ten = 1023;

static void devices(uint32_t flags, uint32_t event, uint32_t open, uint32_t close, const uint32_t *numbers)
{
    start(9, ten);
    for (uint32_t i = 0; i < ten; i++)
        put(two_each[i], 1);
    put(0, 2);
    put(ten, 2);
    for (uint32_t i = 0; i < ten; i++)
        window(flags >> i & 1, i + 1 == event ? open : 0, i + 1 == event ? close : 9);
    counts(numbers[0], numbers[1], numbers[2], numbers[3], numbers[4]);
}

/* Each event raises its owner's count and no other, and is refused with 18 where that is 65,535. */
static void each_device(void)
{
    const uint32_t most = BEYUNLAK_COUNT_MAX;
    const uint32_t numbers[][BEYUNLAK_DEVICES] = {{0, 0, 0, 0, 0}, {most, 7, 255, 65534, 32768}, {3, most, 9, 256, 1},
                                                  {65279, 0, most, 12, most}, {1, 2, 3, most, 5}};
    char text[80];
    for (size_t k = 0; k < sizeof numbers / sizeof *numbers; k++)
        for (uint32_t event = 1; event <= ten; event++) {
            const uint32_t owner = two_each[event - 1];
            uint32_t after[BEYUNLAK_DEVICES];
            memcpy(after, numbers[k], sizeof after);
            after[owner]++;
            devices(0, 0, 0, 0, numbers[k]);
            uint32_t answer = commit(event, 3, 4, BEYUNLAK_RECORD_MAX);
            sprintf(text, "event %u of device %u, counts %u", (unsigned)event, (unsigned)owner, (unsigned)k);
            if (numbers[k][owner] == most) {
                refuses(text, answer, BEYUNLAK_COUNT);
            } else {
                devices(1u << (event - 1), event, 3, 4, after);
                gives(text, answer);
            }
        }
}

/* A run from counts of any value, each commitment on the last record: after every accepted one the count of the event's
 * owner is one higher and the others are as they were; the refused ones count nowhere. */
static void count_run(void)
{
    uint32_t numbers[BEYUNLAK_DEVICES] = {5, 0, 300, 7, BEYUNLAK_COUNT_MAX - 2}, flags = 0;
    char text[80];
    devices(flags, 0, 0, 0, numbers);
    for (uint32_t k = 0; k < 60; k++) {
        const uint32_t event = 7 * k % (ten + 2), close = k % 5 == 3 ? 10 : 9;
        const uint32_t answer = commit(event, 0, close, BEYUNLAK_RECORD_MAX);
        sprintf(text, "commitment %u of a run", (unsigned)k);
        if (event == 0 || event > ten) {
            refuses(text, answer, BEYUNLAK_NOT_OWN);
        } else if (close == 10) {
            refuses(text, answer, BEYUNLAK_WINDOW);
        } else if (numbers[two_each[event - 1]] == BEYUNLAK_COUNT_MAX) {
            refuses(text, answer, BEYUNLAK_COUNT);
        } else {
            flags |= 1u << (event - 1);
            numbers[two_each[event - 1]]++;
            devices(flags, 0, 0, 0, numbers);
            gives(text, answer);
        }
    }
}

/* A count is tested against its device's flags, whatever the others are. */
static void each_count(void)
{
    const uint32_t both[BEYUNLAK_DEVICES] = {2, 2, 2, 2, 2}, more[BEYUNLAK_DEVICES] = {2, 2, 2, 2, 3};
    char text[80];
    devices(all_ten, 0, 0, 0, both);
    uint32_t answer = commit(1, 5, 6, BEYUNLAK_RECORD_MAX);
    devices(all_ten, 1, 5, 6, more);
    gives("all flags", answer);
    for (uint32_t device = 0; device < BEYUNLAK_DEVICES; device++) {
        uint32_t flags = 0, low[BEYUNLAK_DEVICES] = {9, 9, 9, 9, 9}, own[BEYUNLAK_DEVICES] = {0};
        low[device] = 1;
        devices(all_ten, 0, 0, 0, low);
        sprintf(text, "14 all flags, device %u at 1", (unsigned)device);
        refuses(text, commit(1, 5, 6, BEYUNLAK_RECORD_MAX), BEYUNLAK_LAYOUT);
        for (uint32_t i = 0; i < ten; i++)
            flags |= (uint32_t)(two_each[i] == device) << i;
        own[device] = 2;
        devices(flags, 0, 0, 0, own);
        answer = commit(2, 5, 6, BEYUNLAK_RECORD_MAX);
        own[two_each[1]]++;
        devices(flags | 2, 2, 5, 6, own);
        sprintf(text, "the flags of device %u alone", (unsigned)device);
        gives(text, answer);
    }
}

/* The bytes from this length down to that one: 14 where the field that ends at `wrong` is there, else 1. */
static void cuts(const char *name, size_t from, size_t to, size_t wrong)
{
    char text[80];
    for (in_len = from; in_len >= to; in_len--) {
        const uint32_t wanted = in_len < wrong ? BEYUNLAK_CUT : BEYUNLAK_LAYOUT;
        sprintf(text, "%u %s, %u bytes", (unsigned)wanted, name, (unsigned)in_len);
        refuses(text, commit(1, 5, 6, BEYUNLAK_RECORD_MAX), wanted);
    }
}

/* The fields at the end of a record: where the bytes end inside one it is 1; a wrong number of devices or a count that
 * is too low is 14 as soon as it is there, also where bytes follow the record. */
static void count_fields(void)
{
    const uint32_t both[BEYUNLAK_DEVICES] = {2, 2, 2, 2, 2}, wrong[] = {0, 1, 4, 6, 10, 261, 1280, 65535};
    const size_t end = BEYUNLAK_RECORD_LENGTH(10, 0), first = end - 2 * BEYUNLAK_DEVICES;
    char text[80];
    devices(all_ten, 0, 0, 0, both);
    check("ten events", in_len == end && end == 122);
    cuts("counts", end - 1, first - 2, end);
    devices(all_ten, 0, 0, 0, both);
    put(0, 1);
    refuses("8", commit(1, 5, 6, BEYUNLAK_RECORD_MAX), BEYUNLAK_TRAILING);
    for (uint32_t device = 0; device < BEYUNLAK_DEVICES; device++) {
        uint32_t low[BEYUNLAK_DEVICES] = {2, 2, 2, 2, 2};
        low[device] = 1;
        devices(all_ten, 0, 0, 0, low);
        put(0, 1);
        sprintf(text, "device %u at 1", (unsigned)device);
        cuts(text, end + 1, first, first + 2 * device + 2);
    }
    for (size_t k = 0; k < sizeof wrong / sizeof *wrong; k++) {
        devices(all_ten, 0, 0, 0, both);
        put(0, 1);
        in[first - 2] = (uint8_t)wrong[k];
        in[first - 1] = (uint8_t)(wrong[k] >> 8);
        sprintf(text, "%u devices", (unsigned)wrong[k]);
        cuts(text, end + 1, first - 1, first);
    }
}

/* Records of the former layout, with one number for all devices. */
static void former_layout(void)
{
    char text[80];
    for (uint32_t number = 0; number <= 10; number++) {
        trains();
        put(2, 2);
        window(number > 0, 5, 10);
        window(number > 1, 8, 9);
        put(number, 2);
        sprintf(text, "the former layout, number %u", (unsigned)number);
        refuses(text, commit(1, 10, 10, BEYUNLAK_RECORD_MAX), number == 5 ? BEYUNLAK_CUT : BEYUNLAK_LAYOUT);
    }
}

/* Outputs that are too short for the longest record, though this one is shorter. */
static void output_lengths(void)
{
    char text[80];
    for (size_t length = 0; length < BEYUNLAK_RECORD_MAX; length += length < 1940 ? 97 : 1) {
        trains();
        sprintf(text, "10, an output of %u bytes", (unsigned)length);
        refuses(text, plan(length), BEYUNLAK_SHORT);
        fill();
        refuses(text, beyunlak_plan_latest(in, in_len, out, length), BEYUNLAK_SHORT);
        trains_record(0, 5, 10, 8, 9, 0);
        refuses(text, commit(1, 10, 10, length), BEYUNLAK_SHORT);
    }
}

/* From the plan of P1 the same commitment for as long as it is accepted, each time on the record just written; and then
 * one of the other device. */
static void count_whole(void)
{
    uint32_t answer, accepted = 0;
    trains();
    answer = plan(BEYUNLAK_RECORD_MAX);
    in_len = BEYUNLAK_RECORD_LENGTH(2, 6);
    while (answer == BEYUNLAK_ACCEPTED && accepted <= BEYUNLAK_COUNT_MAX) {
        memcpy(in, out, in_len);
        answer = beyunlak_commit(in, in_len, BEYUNLAK_CAMERA, 1, 5, 10, out, BEYUNLAK_RECORD_MAX);
        accepted += answer == BEYUNLAK_ACCEPTED;
    }
    check("18 after 65,535 commitments", answer == BEYUNLAK_COUNT && accepted == BEYUNLAK_COUNT_MAX);
    trains_record(1, 5, 10, 8, 9, BEYUNLAK_COUNT_MAX);
    check("the record after 65,535 commitments", memcmp(out, in, in_len) == 0);
    answer = commit(2, 8, 9, BEYUNLAK_RECORD_MAX);
    trains_flags(1, 5, 10, 1, 8, 9, BEYUNLAK_COUNT_MAX, 1);
    gives("another device after 65,535 commitments", answer);
}

/* The longest ticket: 40 events, 256 rules. */
static void longest_ticket(void)
{
    start(BEYUNLAK_HORIZON_MAX, BEYUNLAK_EVENTS_MAX);
    owners(BEYUNLAK_EVENTS_MAX, BEYUNLAK_CAMERA);
    put(BEYUNLAK_RULES_MAX, 2);
    for (uint32_t i = 0; i < BEYUNLAK_RULES_MAX; i++)
        rule(i % 40, i % 40 + 1, BEYUNLAK_BOUND_MAX);
}

/* Its record with all events committed, the last one to a window of its own. */
static void longest_record(uint32_t open, uint32_t close, uint32_t count)
{
    longest_ticket();
    put(BEYUNLAK_EVENTS_MAX, 2);
    for (int i = 1; i < BEYUNLAK_EVENTS_MAX; i++)
        window(1, 0, BEYUNLAK_HORIZON_MAX);
    window(1, open, close);
    counts(count, 0, 0, 0, 0);
}

static void longest_again(void)
{
    uint32_t answer;
    longest_record(0, BEYUNLAK_HORIZON_MAX, 39);
    refuses("14 forty flags, count 39", commit(40, 7, 70000, BEYUNLAK_RECORD_MAX), BEYUNLAK_LAYOUT);
    longest_record(0, BEYUNLAK_HORIZON_MAX, 40);
    answer = commit(40, 7, 70000, BEYUNLAK_RECORD_MAX);
    longest_record(7, 70000, 41);
    gives("forty flags, count 40", answer);
    answer = commit(40, 70000, 70000, BEYUNLAK_RECORD_MAX);
    longest_record(70000, 70000, 42);
    gives("forty flags, count 41", answer);
}

/* The plan of the longest ticket. */
static void longest(void)
{
    uint32_t answer;
    longest_ticket();
    check("longest ticket", in_len == BEYUNLAK_TICKET_MAX && in_len == BEYUNLAK_TICKET_LENGTH(40, 256));
    answer = plan(BEYUNLAK_RECORD_MAX);
    put(BEYUNLAK_EVENTS_MAX, 2);
    for (int i = 0; i < BEYUNLAK_EVENTS_MAX; i++)
        window(0, 0, BEYUNLAK_HORIZON_MAX);
    counts(0, 0, 0, 0, 0);
    check("longest record", in_len == BEYUNLAK_RECORD_MAX && in_len == BEYUNLAK_RECORD_LENGTH(40, 256));
    gives("plan of the longest ticket", answer);
}

/* ---- the table */

static int32_t table[BEYUNLAK_TABLE_MAX + 9];

/* Whether the working table is asked for, and after how many stops. */
static int working;
static uint32_t stops;

static const struct beyunlak_rule trains_rules[] = {{0, 1, 15}, {1, 0, -5}, {0, 2, 20},
                                                    {2, 0, -8}, {1, 2, 4},  {2, 1, 2}};

static int32_t pattern(size_t i)
{
    return (int32_t)(i * 77777) - 12345678;
}

static void holding(void)
{
    for (size_t i = 0; i < sizeof table / sizeof *table; i++)
        table[i] = pattern(i);
}

static uint32_t ask(uint32_t horizon, uint32_t events, const struct beyunlak_rule *rules, size_t count,
                    size_t out_len)
{
    holding();
    if (working) {
        start(horizon, events);
        owners(events, BEYUNLAK_STAGE);
        put((uint32_t)count, 2);
        for (size_t i = 0; i < count; i++)
            rule(rules[i].from, rules[i].to, rules[i].bound);
        return beyunlak_table_after(in, in_len, stops, table, out_len);
    }
    return beyunlak_table(horizon, events, rules, count, table, out_len);
}

/* The table begins with these numbers, and the rest is as it was. */
static int holds(const int32_t *wanted, size_t count)
{
    for (size_t i = 0; i < sizeof table / sizeof *table; i++)
        if (table[i] != (i < count ? wanted[i] : pattern(i)))
            return 0;
    return 1;
}

static void no_table(const char *name, uint32_t answer, uint32_t wanted)
{
    check(name, answer == wanted && holds(NULL, 0));
}

static void layout(void)
{
    check("offset of from", offsetof(struct beyunlak_rule, from) == 0);
    check("offset of to", offsetof(struct beyunlak_rule, to) == 1);
    check("offset of bound", offsetof(struct beyunlak_rule, bound) == 4);
    check("size of a rule", sizeof(struct beyunlak_rule) == 8);
    check("the numbers that are not answered", BEYUNLAK_EVENT == 11 && BEYUNLAK_COMMITTED == 12);
    check("the number of a count that cannot rise", BEYUNLAK_COUNT == 18);
    check("the numbers of a caller", BEYUNLAK_CALLER == 19 && BEYUNLAK_NOT_OWN == 20);
}

static void table_answers(void)
{
    const struct beyunlak_rule points = {0, 3, BEYUNLAK_BOUND_MAX + 1}, bound = {0, 1, BEYUNLAK_BOUND_MAX + 1};
    const struct beyunlak_rule late = {1, 0, -21}, both[] = {{0, 1, -BEYUNLAK_BOUND_MAX - 1}, {1, 1, 0}};
    static struct beyunlak_rule many[BEYUNLAK_RULES_MAX + 1];
    const uint32_t h = BEYUNLAK_HORIZON_MAX + 1, n = BEYUNLAK_EVENTS_MAX + 1;
    no_table("table 10", ask(20, 2, trains_rules, 6, BEYUNLAK_TABLE_MAX - 1), BEYUNLAK_SHORT);
    no_table("table 10 first", ask(h, n, many, BEYUNLAK_RULES_MAX + 1, 0), BEYUNLAK_SHORT);
    no_table("table 2", ask(h, n, many, BEYUNLAK_RULES_MAX + 1, BEYUNLAK_TABLE_MAX), BEYUNLAK_HORIZON);
    no_table("table 3", ask(20, n, many, BEYUNLAK_RULES_MAX + 1, BEYUNLAK_TABLE_MAX), BEYUNLAK_EVENTS);
    no_table("table 5", ask(20, 2, many, BEYUNLAK_RULES_MAX + 1, BEYUNLAK_TABLE_MAX), BEYUNLAK_RULES);
    no_table("table 6 before 7", ask(20, 2, &points, 1, BEYUNLAK_TABLE_MAX), BEYUNLAK_POINTS);
    no_table("table 7", ask(20, 2, &bound, 1, BEYUNLAK_TABLE_MAX), BEYUNLAK_BOUND);
    no_table("table, rule by rule", ask(20, 2, both, 2, BEYUNLAK_TABLE_MAX), BEYUNLAK_BOUND);
    no_table("table 9", ask(20, 2, &late, 1, BEYUNLAK_TABLE_MAX), BEYUNLAK_IMPOSSIBLE);
}

static void tables(void)
{
    const int32_t p1[] = {0, 15, 19, -5, 0, 4, -8, 2, 0}, none[] = {0}, free_event[] = {0, 20, 0, 0};
    static struct beyunlak_rule chain[BEYUNLAK_RULES_MAX];
    static int32_t largest[BEYUNLAK_TABLE_MAX];
    uint32_t answer;
    answer = ask(20, 2, trains_rules, 6, BEYUNLAK_TABLE_MAX);
    check("table of P1", answer == BEYUNLAK_ACCEPTED && holds(p1, 9));
    answer = ask(20, 2, trains_rules, 6, sizeof table / sizeof *table);
    check("table of P1, longer output", answer == BEYUNLAK_ACCEPTED && holds(p1, 9));
    answer = ask(0, 0, trains_rules, 0, BEYUNLAK_TABLE_MAX);
    check("table of no events", answer == BEYUNLAK_ACCEPTED && holds(none, 1));
    answer = ask(20, 1, trains_rules, 0, BEYUNLAK_TABLE_MAX);
    check("table of no rules", answer == BEYUNLAK_ACCEPTED && holds(free_event, 4));
    for (uint32_t i = 0; i < BEYUNLAK_RULES_MAX; i++) {
        chain[i].from = (uint8_t)(i % 40);
        chain[i].to = (uint8_t)(i % 40 + 1);
        chain[i].bound = 1;
    }
    answer = ask(BEYUNLAK_HORIZON_MAX, BEYUNLAK_EVENTS_MAX, chain, BEYUNLAK_RULES_MAX, BEYUNLAK_TABLE_MAX);
    for (size_t i = 0; i <= BEYUNLAK_EVENTS_MAX; i++)
        for (size_t j = 0; j <= BEYUNLAK_EVENTS_MAX; j++)
            largest[41 * i + j] = (int32_t)(j >= i ? j - i : j);
    check("largest table", answer == BEYUNLAK_ACCEPTED && holds(largest, BEYUNLAK_TABLE_MAX));
}

/* A working table is refused as the table is, after no stop, some and more than all; after all stops it is the table. */
static void answers_after_stops(void)
{
    working = 1;
    stops = 0;
    of = "after no stop: ";
    table_answers();
    stops = 1;
    of = "after 1 stop: ";
    table_answers();
    stops = BEYUNLAK_EVENTS_MAX + 1;
    of = "after 41 stops: ";
    table_answers();
    tables();
    stops = UINT32_MAX;
    of = "after 4294967295 stops: ";
    table_answers();
    tables();
    of = "";
}

/* What only bytes can be refused for. */
static void bytes_after_stops(void)
{
    for (stops = 0; stops <= 4; stops += 2) {
        const size_t length = BEYUNLAK_TICKET_LENGTH(2, 6);
        uint32_t answer = ask(20, 2, trains_rules, 6, BEYUNLAK_TABLE_MAX);
        check("a ticket's table", answer == BEYUNLAK_ACCEPTED && in_len == length);
        int cut = 1;
        for (size_t i = 0; i < length; i++) {
            holding();
            cut = cut && beyunlak_table_after(in, i, stops, table, BEYUNLAK_TABLE_MAX) == BEYUNLAK_CUT && holds(NULL, 0);
        }
        check("1 wherever the bytes end", cut);
        holding();
        no_table("8", beyunlak_table_after(in, length + 1, stops, table, BEYUNLAK_TABLE_MAX), BEYUNLAK_TRAILING);
        in[7] = BEYUNLAK_DATABASE + 1;
        holding();
        no_table("4", beyunlak_table_after(in, length, stops, table, BEYUNLAK_TABLE_MAX), BEYUNLAK_OWNER);
        holding();
        no_table("10 before 4", beyunlak_table_after(in, length, stops, table, BEYUNLAK_TABLE_MAX - 1), BEYUNLAK_SHORT);
    }
}

/* The tables of a session after 0, 1, .. and all stops stand in `wanted`; after more than all it is the last of them. */
static void works(const char *name, uint32_t horizon, uint32_t events, const struct beyunlak_rule *rules,
                  size_t count, const int32_t *wanted)
{
    const uint32_t all = events + 1, more[] = {all + 1, 256, 65536, UINT32_MAX};
    const size_t numbers = (size_t)all * all;
    char text[80];
    for (uint32_t k = 0; k <= all + 4; k++) {
        stops = k <= all ? k : more[k - all - 1];
        uint32_t answer = ask(horizon, events, rules, count, BEYUNLAK_TABLE_MAX);
        sprintf(text, "%s after %u stops", name, (unsigned)stops);
        check(text, answer == BEYUNLAK_ACCEPTED && holds(wanted + numbers * (k < all ? k : all), numbers));
    }
}

#define NONE BEYUNLAK_NO_PATH

static void working_tables(void)
{
    const int32_t p1[] = {0, 15, 20, -5, 0, 4, -8, 2, 0,  0, 15, 20, -5, 0, 4, -8, 2, 0,
                          0, 15, 19, -5, 0, 4, -8, 2, 0,  0, 15, 19, -5, 0, 4, -8, 2, 0};
    const struct beyunlak_rule moves_rules[] = {{1, 2, 0}, {2, 3, 0}};
    const int32_t p4[] = {0, 5, 5, 5, 0, 0, 0, NONE, 0, NONE, 0, 0, 0, NONE, NONE, 0,
                          0, 5, 5, 5, 0, 0, 0, NONE, 0, NONE, 0, 0, 0, NONE, NONE, 0,
                          0, 5, 5, 5, 0, 0, 0, 0,    0, NONE, 0, 0, 0, NONE, NONE, 0,
                          0, 5, 5, 5, 0, 0, 0, 0,    0, NONE, 0, 0, 0, NONE, NONE, 0,
                          0, 5, 5, 5, 0, 0, 0, 0,    0, 5,    0, 0, 0, 5,    5,    0};
    const struct beyunlak_rule header_rules[] = {{1, 2, 4}};
    const int32_t header[] = {0, 9, 9, 0, 0, 4, 0, NONE, 0,  0, 9, 9, 0, 0, 4, 0, NONE, 0,
                              0, 9, 9, 0, 0, 4, 0, NONE, 0,  0, 9, 9, 0, 0, 4, 0, 9,    0};
    /* a number comes with each of the events: 15 by event 3, 8 by 2, 13 and -1 by 1 */
    const struct beyunlak_rule each_rules[] = {{1, 3, 10}, {3, 2, 5}, {2, 1, 3}, {1, 0, -4}};
    const int32_t each[] = {0, 100, 100, 100, -4, 0, NONE, 10, 0,  3, 0, NONE, 0, NONE, 5, 0,
                            0, 100, 100, 100, -4, 0, 15,   10, 0,  3, 0, NONE, 0, NONE, 5, 0,
                            0, 100, 100, 100, -4, 0, 15,   10, 0,  3, 0, NONE, 0, 8,    5, 0,
                            0, 100, 100, 100, -4, 0, 15,   10, -1, 3, 0, 13,   0, 8,    5, 0,
                            0, 100, 100, 100, -4, 0, 15,   10, -1, 3, 0, 13,   0, 8,    5, 0};
    /* of several rules the least bound counts, of unwritten ones too; one above the horizon stands until the start is a stop */
    const struct beyunlak_rule loose_rules[] = {{0, 1, 25}, {1, 0, 5}, {1, 2, 60}, {1, 2, 50}, {2, 1, 30}};
    const int32_t loose[] = {0, 20, 20, 0, 0, 50, 0, 30, 0,  0, 20, 20, 0, 0, 50, 0, 30, 0,
                             0, 20, 20, 0, 0, 50, 0, 30, 0,  0, 20, 20, 0, 0, 20, 0, 20, 0};
    const struct beyunlak_rule last_rules[] = {{1, 0, -BEYUNLAK_BOUND_MAX}};
    const int32_t last[] = {0, 1000000, -1000000, 0,  0, 1000000, -1000000, 0,  0, 1000000, -1000000, 0};
    const int32_t no_events[] = {0, 0};
    works("P1", 20, 2, trains_rules, 6, p1);
    works("P4", 5, 3, moves_rules, 2, p4);
    works("the header's example", 9, 2, header_rules, 1, header);
    works("a number with each event", 100, 3, each_rules, 4, each);
    works("bounds above the horizon", 20, 2, loose_rules, 5, loose);
    works("the least bound", BEYUNLAK_HORIZON_MAX, 1, last_rules, 1, last);
    works("no events", 0, 0, trains_rules, 0, no_events);
}

/* A ring through all events that cannot be kept is 9 before any of them is a stop; one that can has its table. */
static void ring_after_stops(void)
{
    struct beyunlak_rule ring[] = {{1, 2, 5}, {2, 3, -7}, {3, 1, 1}};
    for (stops = 0; stops <= 5; stops++)
        no_table("9 after any number of stops", ask(20, 3, ring, 3, BEYUNLAK_TABLE_MAX), BEYUNLAK_IMPOSSIBLE);
    ring[2].bound = 2;
    stops = 2;
    const int32_t wanted[] = {0, 15, 20, 13, -2, 0, 5, -2, -7, -5, 0, -7, 0, 2, NONE, 0};
    uint32_t answer = ask(20, 3, ring, 3, BEYUNLAK_TABLE_MAX);
    check("a ring of sum 0 after 2 stops", answer == BEYUNLAK_ACCEPTED && holds(wanted, 16));
}

/* A chain of all points by the largest bounds: after k stops its part from the event before them on is joined. */
static void longest_path(void)
{
    static struct beyunlak_rule chain[BEYUNLAK_EVENTS_MAX];
    static int32_t wanted[BEYUNLAK_TABLE_MAX];
    const uint32_t n = BEYUNLAK_EVENTS_MAX, most = BEYUNLAK_BOUND_MAX;
    char text[80];
    for (uint32_t i = 0; i < n; i++) {
        chain[i].from = (uint8_t)i;
        chain[i].to = (uint8_t)(i + 1);
        chain[i].bound = (int32_t)most;
    }
    for (stops = 0; stops <= n + 1; stops++) {
        for (uint32_t i = 0; i <= n; i++)
            for (uint32_t j = 0; j <= n; j++) {
                int joined = i < j && (j == i + 1 || i + stops >= n);
                int32_t between = joined ? (int32_t)((j - i) * most) : NONE;
                wanted[(n + 1) * i + j] = i == j || j == 0 ? 0 : i == 0 || stops > n ? (int32_t)most : between;
            }
        uint32_t answer = ask(BEYUNLAK_HORIZON_MAX, n, chain, n, BEYUNLAK_TABLE_MAX);
        sprintf(text, "the longest chain after %u stops", (unsigned)stops);
        check(text, answer == BEYUNLAK_ACCEPTED && holds(wanted, BEYUNLAK_TABLE_MAX));
    }
}

/* ---- reasons */

static uint8_t labels[1024], roster[1024];
static size_t labels_len, roster_len;
static uint32_t length;

/* A list of the names, which stand one space apart; its length in bytes. */
static size_t names(uint8_t *list, const char *words)
{
    size_t count = 0, at = 2;
    while (*words) {
        size_t letters = strcspn(words, " ");
        list[at] = (uint8_t)letters;
        memcpy(list + at + 1, words, letters);
        at += 1 + letters;
        words += letters + (words[letters] == ' ');
        count++;
    }
    list[0] = (uint8_t)count;
    list[1] = (uint8_t)(count >> 8);
    return at;
}

static void lists(const char *labels_words, const char *roster_words)
{
    labels_len = names(labels, labels_words);
    roster_len = names(roster, roster_words);
}

#define DEVICES "camera filterwheel lamps stage database"

/* A ticket of stage moves without rules yet. */
static void moves(uint32_t horizon, uint32_t n, uint32_t rules)
{
    start(horizon, n);
    owners(n, BEYUNLAK_STAGE);
    put(rules, 2);
}

static uint32_t reason(size_t out_len)
{
    fill();
    length = 77777;
    return beyunlak_reason(in, in_len, labels, labels_len, roster, roster_len, out, out_len, &length);
}

static void no_reason(const char *name, uint32_t wanted)
{
    uint32_t answer = reason(BEYUNLAK_REASON_MAX);
    check(name, answer == wanted && length == 0 && untouched_from(0));
}

static void says(const char *name, const char *text)
{
    uint32_t answer = reason(BEYUNLAK_REASON_MAX);
    check(name, answer == BEYUNLAK_ACCEPTED && length == strlen(text) && memcmp(out, text, length) == 0 &&
                    untouched_from(length));
}

/* Every ticket but the last is refused for itself, though neither list is one. */
static void reasons_of_tickets(void)
{
    labels_len = roster_len = in_len = 0;
    check("reason 10 first", reason(BEYUNLAK_REASON_MAX - 1) == BEYUNLAK_SHORT && length == 0 && untouched_from(0));
    check("reason 10, no output", reason(0) == BEYUNLAK_SHORT && length == 0 && untouched_from(0));
    no_reason("reason 1 empty", BEYUNLAK_CUT);
    start(BEYUNLAK_HORIZON_MAX + 1, 0);
    no_reason("reason 2", BEYUNLAK_HORIZON);
    start(BEYUNLAK_HORIZON_MAX, BEYUNLAK_EVENTS_MAX + 1);
    no_reason("reason 3", BEYUNLAK_EVENTS);
    start(5, 1);
    put(BEYUNLAK_DATABASE + 1, 1);
    no_reason("reason 4", BEYUNLAK_OWNER);
    moves(5, 1, BEYUNLAK_RULES_MAX + 1);
    no_reason("reason 5", BEYUNLAK_RULES);
    moves(5, 1, 1);
    rule(1, 2, 3);
    no_reason("reason 6", BEYUNLAK_POINTS);
    moves(5, 1, 1);
    rule(1, 0, -BEYUNLAK_BOUND_MAX - 1);
    no_reason("reason 7", BEYUNLAK_BOUND);
    moves(10, 1, 1);
    rule(1, 0, -11);
    in_len--;
    no_reason("reason 1 cut rule", BEYUNLAK_CUT);
    in_len++;
    put(0, 1);
    no_reason("reason 8", BEYUNLAK_TRAILING);
    in_len--;
    no_reason("reason 16 after the ticket", BEYUNLAK_NAMES);
}

/* The ticket is possible, so a list that is overlooked would give 17. */
static void reasons_of_lists(void)
{
    moves(10, 1, 1);
    rule(1, 0, -10);
    for (int second = 0; second < 2; second++) {
        uint8_t *list = second ? roster : labels;
        size_t *list_len = second ? &roster_len : &labels_len;
        const char *good = second ? DEVICES : "last";
        size_t last = names(list, good) - 1;
        of = second ? "roster: " : "labels: ";
        lists("last", DEVICES);
        no_reason("17", BEYUNLAK_POSSIBLE);
        *list_len = 0;
        no_reason("16 empty", BEYUNLAK_NAMES);
        *list_len = 1;
        no_reason("16 count cut", BEYUNLAK_NAMES);
        *list_len = 2;
        no_reason("16 no name", BEYUNLAK_NAMES);
        *list_len = last;
        no_reason("16 last letter missing", BEYUNLAK_NAMES);
        *list_len = last + 2;
        list[last + 1] = 'a';
        no_reason("16 a byte after the end", BEYUNLAK_NAMES);
        *list_len = names(list, second ? DEVICES " a" : "last a");
        no_reason("16 a name too many", BEYUNLAK_NAMES);
        *list_len = names(list, second ? "camera filterwheel lamps stage" : "");
        no_reason("16 a name too few", BEYUNLAK_NAMES);
        *list_len = names(list, good);
        list[1] = 1;
        no_reason("16 high byte of the count", BEYUNLAK_NAMES);
        list[1] = 0;
        list[2]--;
        no_reason("16 a length too short", BEYUNLAK_NAMES);
        *list_len = names(list, second ? "camera filterwheel lamps stage seventeenletterss" : "seventeenletterss");
        no_reason("16 seventeen letters", BEYUNLAK_NAMES);
        *list_len = names(list, second ? "sixteenlettersss b c d e" : "sixteenlettersss");
        no_reason("17 sixteen letters", BEYUNLAK_POSSIBLE);
        *list_len = names(list, second ? "a a a a a" : "a");
        no_reason("17 one letter", BEYUNLAK_POSSIBLE);
        list[*list_len - 2] = 0;
        *list_len -= 1;
        no_reason("16 no letter", BEYUNLAK_NAMES);
        *list_len = names(list, good);
        for (size_t k = 0; k < 4; k++) {
            list[last] = (uint8_t)"`{Z\x80"[k];
            no_reason("16 no letter a to z", BEYUNLAK_NAMES);
        }
    }
    of = "";
    lists("", DEVICES);
    start(0, 0);
    put(0, 2);
    no_reason("reason 17 of no events", BEYUNLAK_POSSIBLE);
    lists("shutter flash", DEVICES);
    trains();
    no_reason("reason 17 of P1", BEYUNLAK_POSSIBLE);
}

static void reasons(void)
{
    lists("later sooner", DEVICES);
    moves(10, 2, 2);
    rule(1, 2, -1);
    rule(2, 1, 0);
    says("reason of P6", "at later stage\nby 1 -1\nat sooner stage\nby 2 0\n");
    uint32_t answer = reason(sizeof out);
    check("reason of P6, longer output", answer == BEYUNLAK_ACCEPTED && length == 46 && untouched_from(46));
    lists("last", DEVICES);
    moves(10, 1, 1);
    rule(1, 0, -11);
    says("reason of P7", "at last stage\nby 1 -11\nat start\nby 3 10\n");
    moves(0, 1, 1);
    rule(0, 1, -1);
    says("not before the start", "at start\nby 1 -1\nat last stage\nby 2 0\n");
    lists("a a", "e d c b a");
    start(20, 2);
    put(BEYUNLAK_CAMERA, 1);
    put(BEYUNLAK_DATABASE, 1);
    put(3, 2);
    rule(1, 2, 200);
    rule(2, 1, -5);
    rule(0, 2, 4);
    says("started at the lowest", "at a a\nby 2 -5\nat a e\nby 4 0\nat start\nby 3 4\n");
    lists("one two three", DEVICES);
    moves(9, 3, 5);
    rule(1, 2, -3);
    rule(2, 3, -3);
    rule(3, 1, -3);
    rule(3, 2, 2);
    rule(3, 2, 1);
    says("two rules before three, and the first of two", "at two stage\nby 2 -3\nat three stage\nby 4 2\n");
    moves(9, 3, 4);
    rule(3, 1, 1);
    rule(2, 3, 2);
    rule(1, 3, -2);
    rule(3, 2, -3);
    says("first in order", "at three stage\nby 1 1\nat one stage\nby 3 -2\n");
    moves(9, 3, 3);
    rule(3, 2, 0);
    rule(2, 1, -9);
    rule(1, 3, 8);
    says("a ring of three", "at three stage\nby 1 0\nat two stage\nby 2 -9\nat one stage\nby 3 8\n");
    moves(BEYUNLAK_HORIZON_MAX, 2, 2);
    rule(1, 0, -BEYUNLAK_BOUND_MAX);
    rule(0, 1, BEYUNLAK_BOUND_MAX - 1);
    lists("one two", DEVICES);
    says("largest numbers", "at one stage\nby 1 -1000000\nat start\nby 2 999999\n");
}

/* A ring through all 41 points, of the last 41 of 256 rules, under the longest names; and read back from its text. */
static void longest_reason(void)
{
    static char words[17 * BEYUNLAK_EVENTS_MAX + 1], text[BEYUNLAK_REASON_MAX + 1];
    const uint32_t first = BEYUNLAK_RULES_MAX - BEYUNLAK_EVENTS_MAX;
    size_t at = 0;
    moves(BEYUNLAK_HORIZON_MAX, BEYUNLAK_EVENTS_MAX, BEYUNLAK_RULES_MAX);
    for (uint32_t k = 1; k < first; k++)
        rule(0, 40, BEYUNLAK_BOUND_MAX);
    for (uint32_t i = 0; i < 40; i++) {
        rule(i, i + 1, 24999);
        at += (size_t)sprintf(words + at, "%sabcdefghijklmn%c%c", i ? " " : "", 'a' + (int)i % 26, 'a' + (int)i / 26);
    }
    rule(40, 0, -999961);
    check("longest list", names(labels, words) == BEYUNLAK_NAMES_MAX(BEYUNLAK_EVENTS_MAX));
    lists(words, "camera filterwheel lamps abcdefghijklmnop database");
    at = (size_t)sprintf(text, "at start\nby %u 24999\n", (unsigned)first);
    for (uint32_t i = 1; i <= 40; i++)
        at += (size_t)sprintf(text + at, "at %.16s abcdefghijklmnop\nby %u %d\n", words + 17 * (i - 1), (unsigned)(first + i),
                              i < 40 ? 24999 : -999961);
    says("a ring through all points", text);

    /* as the header says: lines by turns, the number after "by ", the bound after the next space */
    uint32_t number = first;
    long sum = 0;
    memcpy(text, out, length);
    text[length] = 0;
    for (char *line = text; (line = strstr(line, "\nby ")) != NULL; number++) {
        char *end;
        if (strtoul(line + 4, &end, 10) != number)
            break;
        sum += strtol(end, &line, 10);
    }
    check("read back", number == BEYUNLAK_RULES_MAX + 1 && sum == -1);
    moves(BEYUNLAK_HORIZON_MAX, BEYUNLAK_EVENTS_MAX, 41);
    for (uint32_t i = 0; i < 40; i++)
        rule(i, i + 1, 24999);
    rule(40, 0, -999960);
    no_reason("a ring of sum 0", BEYUNLAK_POSSIBLE);
}

/* ---- mending */

static uint32_t mend(size_t out_len, size_t dropped_len)
{
    fill();
    return beyunlak_mend(in, in_len, out, out_len, dropped, dropped_len);
}

/* Mending in the place of a plan, with the least room for the list. */
static uint32_t mending(const uint8_t *ticket, size_t ticket_len, uint8_t *to, size_t to_len)
{
    return beyunlak_mend(ticket, ticket_len, to, to_len, dropped, BEYUNLAK_DROPPED_MAX);
}

/* The second output has these numbers, and the rest is as it was. */
static int listed(const uint32_t *numbers, uint32_t count)
{
    int good = dropped[0] == (uint8_t)count && dropped[1] == count >> 8;
    for (uint32_t k = 0; k < count; k++) {
        const uint8_t *number = dropped + BEYUNLAK_DROPPED_LENGTH(k);
        good = good && number[0] == (uint8_t)numbers[k] && number[1] == numbers[k] >> 8;
    }
    return good && dropped_untouched_from(BEYUNLAK_DROPPED_LENGTH(count));
}

static size_t event_count(void)
{
    return in[4];
}

static uint32_t rule_count(void)
{
    const uint8_t *at = in + 6 + event_count();
    return at[0] | (uint32_t)at[1] << 8;
}

/* The ticket has so many rules, and ends with the last of them. */
static void set_rules(uint32_t count)
{
    in_len = 6 + event_count();
    put(count, 2);
    in_len = BEYUNLAK_TICKET_LENGTH(event_count(), count);
}

/* Take the rules of these numbers out of the ticket and put them into `removed`. */
static void remove_rules(const uint32_t *numbers, uint32_t count, uint8_t *removed)
{
    uint8_t *first = in + BEYUNLAK_TICKET_LENGTH(event_count(), 0), *at = first;
    const uint32_t m = rule_count();
    uint32_t next = 0;
    for (uint32_t k = 1; k <= m; k++) {
        const int goes = next < count && numbers[next] == k;
        memmove(goes ? removed + 6 * next : at, first + 6 * (k - 1), 6);
        next += (uint32_t)goes;
        at += goes ? 0 : 6;
    }
    set_rules(m - count);
}

/* With any one of these rules put back, after all others or before them, the ticket has no plan. */
static int impossible_with(const uint8_t *removed, uint32_t count)
{
    const uint32_t kept = rule_count();
    uint8_t *first = in + BEYUNLAK_TICKET_LENGTH(event_count(), 0);
    int good = 1;
    for (uint32_t k = 0; k < count; k++) {
        memcpy(in + in_len, removed + 6 * k, 6);
        set_rules(kept + 1);
        good = good && plan(BEYUNLAK_RECORD_MAX) == BEYUNLAK_IMPOSSIBLE;
        memmove(first + 6, first, 6 * (size_t)kept);
        memcpy(first, removed + 6 * k, 6);
        good = good && plan(BEYUNLAK_RECORD_MAX) == BEYUNLAK_IMPOSSIBLE;
        memmove(first, first + 6, 6 * (size_t)kept);
        set_rules(kept);
    }
    return good;
}

/* Mending drops these rules of the ticket; and what the header promises of the ticket that is left. */
static void mends(const char *name, const uint32_t *numbers, uint32_t count)
{
    static uint8_t removed[6 * BEYUNLAK_RULES_MAX];
    char text[80];
    uint32_t answer = mend(BEYUNLAK_TICKET_MAX, BEYUNLAK_DROPPED_MAX);
    remove_rules(numbers, count, removed);
    sprintf(text, "%s, the ticket", name);
    gives(text, answer);
    sprintf(text, "%s, the list", name);
    check(text, listed(numbers, count));
    sprintf(text, "%s, a plan", name);
    check(text, plan(BEYUNLAK_RECORD_MAX) == BEYUNLAK_ACCEPTED);
    answer = mend(sizeof out, sizeof dropped);
    sprintf(text, "%s, mended again", name);
    gives(text, answer);
    sprintf(text, "%s, mended again, the list", name);
    check(text, listed(NULL, 0));
    sprintf(text, "%s, each dropped rule put back", name);
    if (count)
        check(text, impossible_with(removed, count));
}

static void mend_lengths(void)
{
    const size_t most = BEYUNLAK_TICKET_MAX, list = BEYUNLAK_DROPPED_MAX;
    char text[80];
    check("longest list", list == BEYUNLAK_DROPPED_LENGTH(BEYUNLAK_RULES_MAX));
    for (int ticket = 0; ticket < 3; ticket++) {
        in_len = 0;
        if (ticket == 1)
            trains();
        if (ticket == 2) {
            moves(10, 1, 1);
            rule(1, 0, -11);
        }
        for (size_t length = 0; length < most; length += length < 1560 ? 97 : 1) {
            sprintf(text, "10, ticket %d, outputs of %u and 514 bytes", ticket, (unsigned)length);
            refuses(text, mend(length, list), BEYUNLAK_SHORT);
        }
        for (size_t length = 0; length < list; length += length < 500 ? 37 : 1) {
            sprintf(text, "10, ticket %d, outputs of 1584 and %u bytes", ticket, (unsigned)length);
            refuses(text, mend(most, length), BEYUNLAK_SHORT);
        }
        refuses("10, both", mend(most - 1, list - 1), BEYUNLAK_SHORT);
        refuses("10, a long ticket", mend(sizeof out, list - 1), BEYUNLAK_SHORT);
        refuses("10, a long list", mend(most - 1, sizeof dropped), BEYUNLAK_SHORT);
    }
}

/* An impossible ticket: P6 with its second rule a tick tighter. */
static void tighter(void)
{
    moves(10, 2, 2);
    rule(1, 2, -1);
    rule(2, 1, 0);
}

/* P1, P4 and tickets without rules come out as they are; P6 and P7 are a tick tighter here. */
static void mend_examples(void)
{
    static const uint32_t one = 1, two = 2;
    trains();
    mends("P1", NULL, 0);
    moves(5, 3, 2);
    rule(1, 2, 0);
    rule(2, 3, 0);
    mends("P4", NULL, 0);
    moves(0, 0, 0);
    mends("P8", NULL, 0);
    moves(9, 40, 0);
    mends("no rules", NULL, 0);
    tighter();
    mends("P6", &two, 1);
    moves(10, 1, 1);
    rule(1, 0, -11);
    mends("P7", &one, 1);
    moves(0, 2, 2);
    rule(1, 2, -1);
    rule(1, 2, 0);
    mends("a horizon of 0", &one, 1);
}

/* Rings of three rules, rules that no times keep, and rules that are kept after dropped ones. */
static void mend_rings(void)
{
    static const uint32_t three = 3, each[] = {1, 2, 3, 4}, some[] = {2, 3, 5};
    moves(9, 3, 3);
    rule(3, 2, 0);
    rule(2, 1, -9);
    rule(1, 3, 8);
    mends("a ring of three", &three, 1);
    moves(9, 3, 3);
    rule(3, 2, 0);
    rule(2, 1, -9);
    rule(1, 3, 9);
    mends("a ring of sum 0", NULL, 0);
    moves(5, 2, 4);
    rule(0, 1, -1);
    rule(1, 0, -6);
    rule(2, 0, -BEYUNLAK_BOUND_MAX);
    rule(0, 2, -BEYUNLAK_BOUND_MAX);
    mends("each rule impossible of itself", each, 4);
    /* rules 2 and 3 ask for more than rule 1 allows, rule 5 allows less than rule 4 asks for */
    moves(20, 2, 6);
    rule(1, 2, 3);
    rule(2, 1, -4);
    rule(2, 1, -5);
    rule(2, 1, -3);
    rule(1, 2, 2);
    rule(1, 2, 3);
    mends("kept after dropped ones", some, 3);
}

/* 256 rules: all kept, all dropped, and every other one dropped, so that numbers of two bytes and a list of 514 come. */
static void mend_longest(void)
{
    static uint32_t all[BEYUNLAK_RULES_MAX], even[BEYUNLAK_RULES_MAX / 2];
    const uint32_t n = BEYUNLAK_EVENTS_MAX, m = BEYUNLAK_RULES_MAX;
    for (uint32_t k = 0; k < m; k++)
        all[k] = k + 1;
    for (uint32_t k = 0; k < m / 2; k++)
        even[k] = 2 * k + 2;
    longest_ticket();
    mends("the longest ticket", NULL, 0);
    moves(BEYUNLAK_HORIZON_MAX, n, m);
    for (uint32_t k = 0; k < m; k++)
        rule(0, k % n + 1, -1 - (int32_t)k);
    mends("256 rules impossible of themselves", all, m);
    moves(BEYUNLAK_HORIZON_MAX, n, m);
    for (uint32_t k = 0; k < m / 2; k++) {
        rule(k % n, k % n + 1, 10);
        rule(k % n + 1, k % n, -11);
    }
    mends("every other of 256 rules", even, m / 2);
}

/* Wherever the bytes of a ticket end it is 1, and a byte more is 8. */
static void mend_bytes(void)
{
    tighter();
    const size_t whole = in_len;
    int cut = 1;
    for (in_len = 0; in_len < whole; in_len++)
        cut = cut && mend(BEYUNLAK_TICKET_MAX, BEYUNLAK_DROPPED_MAX) == BEYUNLAK_CUT && untouched_from(0) &&
              dropped_untouched_from(0);
    check("1 wherever the bytes end", cut);
    put(0, 1);
    refuses("8 after an impossible ticket", mend(BEYUNLAK_TICKET_MAX, BEYUNLAK_DROPPED_MAX), BEYUNLAK_TRAILING);
}

/* Memory of just the lengths that are asked for, at any address. */
static void mend_exact(void)
{
    static const uint32_t two = 2;
    uint8_t removed[6];
    for (size_t k = 0; k < 4; k++) {
        uint8_t *ticket = malloc(BEYUNLAK_TICKET_LENGTH(2, 2) + k);
        uint8_t *to = malloc(BEYUNLAK_TICKET_MAX + k), *list = malloc(BEYUNLAK_DROPPED_MAX + k);
        tighter();
        fill();
        memcpy(ticket + k, in, in_len);
        memcpy(to + k, out, BEYUNLAK_TICKET_MAX);
        memcpy(list + k, dropped, BEYUNLAK_DROPPED_MAX);
        uint32_t answer = beyunlak_mend(ticket + k, in_len, to + k, BEYUNLAK_TICKET_MAX, list + k, BEYUNLAK_DROPPED_MAX);
        memcpy(out, to + k, BEYUNLAK_TICKET_MAX);
        memcpy(dropped, list + k, BEYUNLAK_DROPPED_MAX);
        check("just enough memory, the input", memcmp(ticket + k, in, in_len) == 0);
        remove_rules(&two, 1, removed);
        gives("just enough memory, the ticket", answer);
        check("just enough memory, the list", listed(&two, 1));
        free(ticket);
        free(to);
        free(list);
    }
}

/* ---- parts */

static uint32_t part(uint32_t device, size_t out_len)
{
    fill();
    return beyunlak_part(in, in_len, device, out, out_len);
}

/* The part of a device in the place of a plan, with the least room. */
static uint32_t device_asked;

static uint32_t parting(const uint8_t *ticket, size_t ticket_len, uint8_t *to, size_t to_len)
{
    (void)to_len;
    return beyunlak_part(ticket, ticket_len, device_asked, to, BEYUNLAK_PART_MAX);
}

/* The part with these events, a number, an open and a close of each. */
static void part_of(const uint32_t (*events)[3], uint32_t count)
{
    in_len = 0;
    put(count, 2);
    for (uint32_t k = 0; k < count; k++) {
        put(events[k][0], 1);
        put(events[k][1], 4);
        put(events[k][2], 4);
    }
}

/* The ticket's part of this device has these events, in outputs of 362 bytes and more. */
static void parts(const char *name, uint32_t device, const uint32_t (*events)[3], uint32_t count)
{
    static const size_t lengths[] = {BEYUNLAK_PART_MAX, BEYUNLAK_PART_MAX + 1, 400, sizeof out};
    uint8_t ticket[BEYUNLAK_TICKET_MAX];
    const size_t ticket_len = in_len;
    char text[80];
    memcpy(ticket, in, ticket_len);
    for (size_t k = 0; k < sizeof lengths / sizeof *lengths; k++) {
        memcpy(in, ticket, in_len = ticket_len);
        const uint32_t answer = part(device, lengths[k]);
        part_of(events, count);
        sprintf(text, "%s, device %u, %u bytes", name, (unsigned)device, (unsigned)lengths[k]);
        gives(text, answer);
    }
    check("length", in_len == BEYUNLAK_PART_LENGTH(count));
    memcpy(in, ticket, in_len = ticket_len);
}

/* Two events of the camera that one of the lamps joins, and one of the database after them. */
static void by_way(void)
{
    start(20, 4);
    put(BEYUNLAK_CAMERA, 1);
    put(BEYUNLAK_LAMPS, 1);
    put(BEYUNLAK_CAMERA, 1);
    put(BEYUNLAK_DATABASE, 1);
    put(6, 2);
    rule(1, 2, 5);
    rule(2, 1, -3);
    rule(2, 3, 4);
    rule(3, 2, -2);
    rule(3, 4, 9);
    rule(4, 3, -1);
}

static void part_examples(void)
{
    static const uint32_t shutter[][3] = {{1, 5, 15}}, flash[][3] = {{2, 8, 19}};
    static const uint32_t p4[][3] = {{1, 0, 5}, {2, 0, 0}, {3, 0, 0}}, p6[][3] = {{1, 1, 1}, {2, 0, 0}};
    static const uint32_t p7[][3] = {{1, 10, 10}}, p10[][3] = {{1, 0, 5}, {2, 0, 5}};
    static const uint32_t camera[][3] = {{1, 0, 0}, {3, 5, 9}}, lamps[][3] = {{2, 3, 17}}, database[][3] = {{4, 6, 6}};
    static const uint32_t none[] = {BEYUNLAK_FILTER_WHEEL, BEYUNLAK_STAGE, BEYUNLAK_DATABASE};
    trains();
    parts("P1", BEYUNLAK_CAMERA, shutter, 1);
    parts("P1", BEYUNLAK_LAMPS, flash, 1);
    for (size_t k = 0; k < 3; k++)
        parts("P1", none[k], NULL, 0);
    moves(5, 3, 2);
    rule(1, 2, 0);
    rule(2, 3, 0);
    parts("P4", BEYUNLAK_STAGE, p4, 3);
    moves(10, 2, 2);
    rule(1, 2, -1);
    rule(2, 1, 1);
    parts("P6", BEYUNLAK_STAGE, p6, 2);
    moves(10, 1, 1);
    rule(1, 0, -10);
    parts("P7", BEYUNLAK_STAGE, p7, 1);
    moves(5, 2, 0);
    parts("P10", BEYUNLAK_STAGE, p10, 2);
    start(0, 0);
    put(0, 2);
    for (uint32_t device = 0; device < BEYUNLAK_DEVICES; device++)
        parts("P8", device, NULL, 0);
    by_way();
    parts("by way of others", BEYUNLAK_CAMERA, camera, 2);
    parts("by way of others", BEYUNLAK_LAMPS, lamps, 1);
    parts("by way of others", BEYUNLAK_DATABASE, database, 1);
    parts("by way of others", BEYUNLAK_STAGE, NULL, 0);
}

/* Outputs under 362 bytes and devices above 4, whatever the ticket is: empty, P1, impossible, or a byte too long. */
static void part_refusals(void)
{
    static const uint32_t wrong[] = {5, 6, 255, 256, 260, 65535, 65536, 0x80000000u, UINT32_MAX};
    char text[80];
    check("longest part", BEYUNLAK_PART_MAX == 362 && BEYUNLAK_PART_MAX == BEYUNLAK_PART_LENGTH(BEYUNLAK_EVENTS_MAX));
    for (int ticket = 0; ticket < 4; ticket++) {
        static const uint32_t answers[] = {BEYUNLAK_CUT, BEYUNLAK_ACCEPTED, BEYUNLAK_IMPOSSIBLE, BEYUNLAK_TRAILING};
        in_len = 0;
        if (ticket == 1)
            trains();
        if (ticket > 1) {
            moves(10, 1, 1);
            rule(1, 0, -11);
        }
        if (ticket == 3)
            put(0, 1);
        for (size_t length = 0; length < BEYUNLAK_PART_MAX; length += length < 333 ? 37 : 1) {
            sprintf(text, "10, ticket %d, an output of %u bytes", ticket, (unsigned)length);
            refuses(text, part((uint32_t)length % BEYUNLAK_DEVICES, length), BEYUNLAK_SHORT);
            refuses(text, part(length % 2 ? 5 : UINT32_MAX, length), BEYUNLAK_SHORT);
        }
        for (size_t k = 0; k < sizeof wrong / sizeof *wrong; k++) {
            sprintf(text, "4, ticket %d, device %u", ticket, (unsigned)wrong[k]);
            refuses(text, part(wrong[k], BEYUNLAK_PART_MAX), BEYUNLAK_OWNER);
            refuses(text, part(wrong[k], sizeof out), BEYUNLAK_OWNER);
        }
        for (uint32_t device = 0; answers[ticket] && device < BEYUNLAK_DEVICES; device++) {
            sprintf(text, "%u, ticket %d, device %u", (unsigned)answers[ticket], ticket, (unsigned)device);
            refuses(text, part(device, BEYUNLAK_PART_MAX), answers[ticket]);
        }
    }
}

/* Wherever the bytes of a ticket end it is 1, also after what makes it impossible, and a byte more is 8. */
static void part_bytes(void)
{
    tighter();
    const size_t whole = in_len;
    int cut = 1;
    for (in_len = 0; in_len < whole; in_len++)
        for (uint32_t device = 0; device < BEYUNLAK_DEVICES; device++)
            cut = cut && part(device, BEYUNLAK_PART_MAX) == BEYUNLAK_CUT && untouched_from(0);
    check("1 wherever the bytes end", cut);
    refuses("9 of a device without events", part(BEYUNLAK_CAMERA, BEYUNLAK_PART_MAX), BEYUNLAK_IMPOSSIBLE);
    refuses("9 of the device", part(BEYUNLAK_STAGE, BEYUNLAK_PART_MAX), BEYUNLAK_IMPOSSIBLE);
}

/* Numbers that are the same in every run. */
static uint32_t drawn = 1;

static uint32_t draw(uint32_t most)
{
    drawn = drawn * 1664525 + 1013904223;
    return (drawn >> 8) % (most + 1);
}

/* A ticket of so many events and rules, which some times keep. Where it is `apart` no rule joins events of two of the
 * first `devices` devices, which own the events. */
static void drawn_ticket(uint32_t devices, uint32_t n, uint32_t m, int apart)
{
    uint32_t time[BEYUNLAK_EVENTS_MAX + 1] = {0}, owner[BEYUNLAK_EVENTS_MAX + 1] = {0};
    start(1000, n);
    for (uint32_t i = 1; i <= n; i++) {
        time[i] = draw(1000);
        put(owner[i] = draw(devices - 1), 1);
    }
    put(m, 2);
    for (uint32_t k = 0; k < m;) {
        const uint32_t from = draw(n), to = draw(n);
        if (from == to || (apart && from && to && owner[from] != owner[to]))
            continue;
        rule(from, to, (int32_t)time[to] - (int32_t)time[from] + (int32_t)draw(300));
        k++;
    }
}

static uint32_t width(const uint8_t *ends)
{
    uint32_t open = 0, close = 0;
    for (int i = 0; i < 4; i++) {
        open |= (uint32_t)ends[i] << (8 * i);
        close |= (uint32_t)ends[4 + i] << (8 * i);
    }
    return close - open;
}

/* The five parts of the ticket have each event once, under its owner, and their totals sum to no less than the plan's;
 * where it is `apart` to the same, with the windows of the plan. */
static void plan_and_parts(const char *name, int apart)
{
    static uint8_t record[BEYUNLAK_RECORD_MAX];
    const uint8_t *windows = record + in_len + 2;
    uint32_t n = (uint32_t)event_count(), total = 0, sum = 0, events = 0;
    int good = plan(BEYUNLAK_RECORD_MAX) == BEYUNLAK_ACCEPTED, same = 1;
    memcpy(record, out, sizeof record);
    for (uint32_t i = 0; i < n; i++)
        total += BEYUNLAK_WEIGHT(in[6 + i]) * width(windows + 9 * i + 1);
    for (uint32_t device = 0; device < BEYUNLAK_DEVICES; device++) {
        uint32_t last = 0;
        good = good && part(device, BEYUNLAK_PART_MAX) == BEYUNLAK_ACCEPTED && out[0] <= n && out[1] == 0;
        for (uint32_t k = 0; good && k < out[0]; k++) {
            const uint8_t *event = out + BEYUNLAK_PART_LENGTH(k);
            good = event[0] > last && event[0] <= n && in[5 + event[0]] == device;
            last = event[0];
            same = same && good && memcmp(event + 1, windows + 9 * (last - 1) + 1, 8) == 0;
            sum += BEYUNLAK_WEIGHT(device) * width(event + 1);
            events++;
        }
        good = good && untouched_from(BEYUNLAK_PART_LENGTH(out[0]));
    }
    check(name, good && events == n && sum >= total && (!apart || (same && sum == total)));
}

static void parts_of_plans(void)
{
    char text[80];
    trains();
    plan_and_parts("P1 and its parts", 0);
    by_way();
    plan_and_parts("by way of others, and the parts", 0);
    start(9, ten);
    for (uint32_t i = 0; i < ten; i++)
        put(two_each[i], 1);
    put(0, 2);
    plan_and_parts("no rules", 1);
    longest_ticket();
    plan_and_parts("the longest ticket", 1);
    for (uint32_t k = 0; k < 60; k++) {
        const uint32_t n = k < 5 ? BEYUNLAK_EVENTS_MAX : 1 + draw(11);
        drawn_ticket(BEYUNLAK_DEVICES, n, k < 5 ? BEYUNLAK_RULES_MAX : draw(4 * n), 0);
        sprintf(text, "drawn ticket %u and its parts", (unsigned)k);
        plan_and_parts(text, 0);
        drawn_ticket(BEYUNLAK_DEVICES, n, k < 5 ? BEYUNLAK_RULES_MAX : draw(4 * n), 1);
        sprintf(text, "no rule joins two devices, ticket %u", (unsigned)k);
        plan_and_parts(text, 1);
        drawn_ticket(1, n, k < 5 ? BEYUNLAK_RULES_MAX : draw(4 * n), 1);
        memset(in + 6, (int)(k % BEYUNLAK_DEVICES), n);
        sprintf(text, "one device owns all events, ticket %u", (unsigned)k);
        plan_and_parts(text, 1);
    }
}

/* Forty events of a device, in numbers of four bytes: the longest part. */
static void longest_part(void)
{
    static uint32_t all[BEYUNLAK_EVENTS_MAX][3];
    for (uint32_t k = 0; k < BEYUNLAK_EVENTS_MAX; k++) {
        all[k][0] = k + 1;
        all[k][2] = BEYUNLAK_HORIZON_MAX;
    }
    longest_ticket();
    parts("the longest ticket", BEYUNLAK_CAMERA, (const uint32_t(*)[3])all, BEYUNLAK_EVENTS_MAX);
    parts("the longest ticket", BEYUNLAK_STAGE, NULL, 0);
}

/* Memory of just the lengths that are asked for, at any address. */
static void part_exact(void)
{
    static const uint32_t shutter[][3] = {{1, 5, 15}};
    for (size_t k = 0; k < 4; k++) {
        trains();
        fill();
        uint8_t *ticket = malloc(in_len + k), *to = malloc(BEYUNLAK_PART_MAX + k);
        memcpy(ticket + k, in, in_len);
        memcpy(to + k, out, BEYUNLAK_PART_MAX);
        uint32_t answer = beyunlak_part(ticket + k, in_len, BEYUNLAK_CAMERA, to + k, BEYUNLAK_PART_MAX);
        memcpy(out, to + k, BEYUNLAK_PART_MAX);
        check("just enough memory, the input", memcmp(ticket + k, in, in_len) == 0);
        part_of(shutter, 1);
        gives("just enough memory, the part", answer);
        free(ticket);
        free(to);
    }
}

/* ---- who commits */

/* Callers that are no device. */
static const uint32_t no_device[] = {5, 6, 7, 255, 256, 258, 260, 65535, 65536, 0x01000000u, 0x80000000u, UINT32_MAX};
#define NO_DEVICES (sizeof no_device / sizeof *no_device)

/* Every device asks for every event of a record in which each owns two: its own are accepted, the database's by the
 * database alone, and all others refused, as are numbers that no event has. */
static void callers(void)
{
    static const uint32_t none[] = {0, 11, 12, 40, 41, 255, 256, 257, 65537, 0x80000001u, UINT32_MAX};
    const uint32_t numbers[BEYUNLAK_DEVICES] = {3, 1, 4, 1, 5};
    char text[80];
    for (uint32_t caller = 0; caller < BEYUNLAK_DEVICES; caller++) {
        for (uint32_t event = 1; event <= ten; event++) {
            uint32_t after[BEYUNLAK_DEVICES];
            memcpy(after, numbers, sizeof after);
            after[caller]++;
            devices(0, 0, 0, 0, numbers);
            const uint32_t answer = commit_as(caller, event, 3, 4, BEYUNLAK_RECORD_MAX);
            sprintf(text, "device %u commits event %u", (unsigned)caller, (unsigned)event);
            if (two_each[event - 1] == caller) {
                devices(1u << (event - 1), event, 3, 4, after);
                gives(text, answer);
            } else {
                refuses(text, answer, BEYUNLAK_NOT_OWN);
            }
        }
        devices(0, 0, 0, 0, numbers);
        for (size_t k = 0; k < sizeof none / sizeof *none; k++) {
            sprintf(text, "device %u commits event %u", (unsigned)caller, (unsigned)none[k]);
            refuses(text, commit_as(caller, none[k], 3, 4, BEYUNLAK_RECORD_MAX), BEYUNLAK_NOT_OWN);
        }
    }
    devices(0, 0, 0, 0, numbers);
    for (size_t k = 0; k < NO_DEVICES; k++)
        for (uint32_t event = 0; event <= ten + 1; event++) {
            sprintf(text, "caller %u, event %u", (unsigned)no_device[k], (unsigned)event);
            refuses(text, commit_as(no_device[k], event, 3, 4, BEYUNLAK_RECORD_MAX), BEYUNLAK_CALLER);
        }
}

/* Records of P1 under their numbers: readable and fit; empty, a ticket, cut, a flag of 2, a count too low, a byte too
 * long; not fit; and such whose tickets are refused with 2 to 7. */
#define WRONG_RECORDS 14
static const uint32_t record_answers[WRONG_RECORDS] = {0, 1, 1, 1, 14, 14, 8, 15, 2, 3, 4, 5, 6, 7};

static void wrong_record(uint32_t number)
{
    trains_record(number == 5, 5, number == 7 ? 15 : 11, number == 7 ? 8 : 9, number == 7 ? 19 : 9, 0);
    switch (number) {
    case 1: in_len = 0; break;
    case 2: in_len = BEYUNLAK_TICKET_LENGTH(2, 6); break;
    case 3: in_len--; break;
    case 4: in[BEYUNLAK_TICKET_LENGTH(2, 6) + 2] = 2; break;
    case 6: put(0, 1); break;
    case 8: in[2] = 0x10; break;
    case 9: in[4] = 41; break;
    case 10: in[7] = 5; break;
    case 11: in[9] = 2; break;
    case 12: in[10] = 1; break;
    case 13: in[14] = 0x10; break;
    }
}

/* The first cause decides: 10, 19, the record, 15, 20, 13. */
static void caller_order(void)
{
    char text[80];
    for (uint32_t number = 0; number < WRONG_RECORDS; number++) {
        const uint32_t answer = record_answers[number];
        wrong_record(number);
        for (uint32_t caller = 0; caller <= BEYUNLAK_DEVICES; caller++)
            for (uint32_t event = 0; event <= 3; event++) {
                const int own = (event == 1 && caller == BEYUNLAK_CAMERA) || (event == 2 && caller == BEYUNLAK_LAMPS);
                const uint32_t wanted = caller == BEYUNLAK_DEVICES ? BEYUNLAK_CALLER
                                        : answer                   ? answer
                                        : own                      ? BEYUNLAK_WINDOW
                                                                   : BEYUNLAK_NOT_OWN;
                sprintf(text, "record %u, caller %u, event %u", (unsigned)number, (unsigned)caller, (unsigned)event);
                refuses(text, commit_as(caller, event, 20, 4, BEYUNLAK_RECORD_MAX), wanted);
                refuses(text, commit_as(caller, event, 20, 4, BEYUNLAK_RECORD_MAX - 1), BEYUNLAK_SHORT);
            }
        for (size_t k = 0; k < NO_DEVICES; k++) {
            sprintf(text, "record %u, caller %u", (unsigned)number, (unsigned)no_device[k]);
            refuses(text, commit_as(no_device[k], 1, 10, 10, BEYUNLAK_RECORD_MAX), BEYUNLAK_CALLER);
            refuses(text, commit_as(no_device[k], 1, 10, 10, BEYUNLAK_RECORD_MAX - 1), BEYUNLAK_SHORT);
            refuses(text, commit_as(no_device[k], 1, 10, 10, 0), BEYUNLAK_SHORT);
        }
    }
}

/* ---- views */

static uint32_t view(uint32_t caller, size_t out_len)
{
    fill();
    return beyunlak_view(in, in_len, caller, out, out_len);
}

/* The view with these events, a number, a flag, an open and a close of each. */
static void view_of(const uint32_t (*events)[4], uint32_t count)
{
    in_len = 0;
    put(count, 2);
    for (uint32_t k = 0; k < count; k++) {
        put(events[k][0], 1);
        window(events[k][1], events[k][2], events[k][3]);
    }
}

/* This device sees these events of the record, in outputs of 402 bytes and more; the record stays the input. */
static void sees(const char *name, uint32_t caller, const uint32_t (*events)[4], uint32_t count)
{
    static const size_t lengths[] = {BEYUNLAK_VIEW_MAX, BEYUNLAK_VIEW_MAX + 1, 500, sizeof out};
    static uint8_t record[BEYUNLAK_RECORD_MAX];
    const size_t record_len = in_len;
    char text[80];
    memcpy(record, in, record_len);
    for (size_t k = 0; k < sizeof lengths / sizeof *lengths; k++) {
        memcpy(in, record, in_len = record_len);
        const uint32_t answer = view(caller, lengths[k]);
        check("the record is as it was", memcmp(in, record, record_len) == 0);
        view_of(events, count);
        sprintf(text, "%s, device %u, %u bytes", name, (unsigned)caller, (unsigned)lengths[k]);
        gives(text, answer);
    }
    check("length", in_len == BEYUNLAK_VIEW_LENGTH(count));
    memcpy(in, record, in_len = record_len);
}

/* P1's plan, and the record after P2's commitment. */
static void view_examples(void)
{
    static const uint32_t plan_both[][4] = {{1, 0, 5, 11}, {2, 0, 9, 9}};
    static const uint32_t then_both[][4] = {{1, 1, 10, 10}, {2, 0, 8, 14}};
    static const uint8_t camera[] = {1, 0, 1, 0, 5, 0, 0, 0, 11, 0, 0, 0};
    uint32_t answer;
    check("longest view", BEYUNLAK_VIEW_MAX == 402 && BEYUNLAK_VIEW_MAX == BEYUNLAK_VIEW_LENGTH(BEYUNLAK_EVENTS_MAX));
    for (int then = 0; then < 2; then++) {
        const uint32_t(*both)[4] = then ? then_both : plan_both;
        const char *name = then ? "P2" : "P1";
        trains();
        answer = plan(BEYUNLAK_RECORD_MAX);
        memcpy(in, out, in_len = BEYUNLAK_RECORD_LENGTH(2, 6));
        if (then) {
            answer = commit_as(BEYUNLAK_CAMERA, 1, 10, 10, BEYUNLAK_RECORD_MAX);
            memcpy(in, out, in_len);
        }
        check(name, answer == BEYUNLAK_ACCEPTED);
        sees(name, BEYUNLAK_CAMERA, both, 1);
        sees(name, BEYUNLAK_LAMPS, both + 1, 1);
        sees(name, BEYUNLAK_DATABASE, both, 2);
        sees(name, BEYUNLAK_FILTER_WHEEL, NULL, 0);
        sees(name, BEYUNLAK_STAGE, NULL, 0);
    }
    trains_record(0, 5, 11, 9, 9, 0);
    answer = view(BEYUNLAK_CAMERA, BEYUNLAK_VIEW_MAX);
    check("the camera's view of P1, byte by byte", answer == 0 && memcmp(out, camera, 12) == 0 && untouched_from(12));
    start(0, 0);
    put(0, 2);
    put(0, 2);
    counts(0, 1, 2, 3, 4);
    for (uint32_t caller = 0; caller < BEYUNLAK_DEVICES; caller++)
        sees("no events", caller, NULL, 0);
}

/* Ten events, two of each device, free and committed. */
static void view_devices(void)
{
    static const uint32_t flags[] = {0, 1, 2, 512, 341, 682, 1023};
    const uint32_t numbers[BEYUNLAK_DEVICES] = {2, 9, 300, 65535, 2};
    char text[80];
    for (size_t k = 0; k < sizeof flags / sizeof *flags; k++)
        for (uint32_t caller = 0; caller < BEYUNLAK_DEVICES; caller++) {
            uint32_t events[10][4], count = 0;
            for (uint32_t i = 0; i < ten; i++)
                if (caller == BEYUNLAK_DATABASE || two_each[i] == caller) {
                    events[count][0] = i + 1;
                    events[count][1] = flags[k] >> i & 1;
                    events[count][2] = i == 6 ? 3 : 0;
                    events[count++][3] = i == 6 ? 4 : 9;
                }
            devices(flags[k], 7, 3, 4, numbers);
            sprintf(text, "flags %u", (unsigned)flags[k]);
            sees(text, caller, (const uint32_t(*)[4])events, count);
        }
}

/* Forty events, in numbers of four bytes: the longest view, of the device that owns them and of the database. */
static void longest_view(void)
{
    static uint32_t all[BEYUNLAK_EVENTS_MAX][4];
    for (uint32_t k = 0; k < BEYUNLAK_EVENTS_MAX; k++) {
        all[k][0] = k + 1;
        all[k][1] = 1;
        all[k][2] = k == 39 ? 70000 : 0;
        all[k][3] = k == 39 ? 999999 : BEYUNLAK_HORIZON_MAX;
    }
    longest_record(70000, 999999, 40);
    sees("the longest record", BEYUNLAK_CAMERA, (const uint32_t(*)[4])all, BEYUNLAK_EVENTS_MAX);
    sees("the longest record", BEYUNLAK_DATABASE, (const uint32_t(*)[4])all, BEYUNLAK_EVENTS_MAX);
    sees("the longest record", BEYUNLAK_STAGE, NULL, 0);
}

/* The first cause decides: 10, 19, the record, 15. */
static void view_order(void)
{
    char text[80];
    for (uint32_t number = 0; number < WRONG_RECORDS; number++) {
        wrong_record(number);
        for (uint32_t caller = 0; record_answers[number] && caller < BEYUNLAK_DEVICES; caller++) {
            sprintf(text, "record %u, caller %u", (unsigned)number, (unsigned)caller);
            refuses(text, view(caller, BEYUNLAK_VIEW_MAX), record_answers[number]);
        }
        for (size_t k = 0; k < NO_DEVICES; k++) {
            sprintf(text, "19, record %u, caller %u", (unsigned)number, (unsigned)no_device[k]);
            refuses(text, view(no_device[k], BEYUNLAK_VIEW_MAX), BEYUNLAK_CALLER);
            refuses(text, view(no_device[k], sizeof out), BEYUNLAK_CALLER);
        }
        for (size_t length = 0; length < BEYUNLAK_VIEW_MAX; length += length < 370 ? 37 : 1) {
            sprintf(text, "10, record %u, an output of %u bytes", (unsigned)number, (unsigned)length);
            refuses(text, view((uint32_t)length % BEYUNLAK_DEVICES, length), BEYUNLAK_SHORT);
            refuses(text, view(no_device[length % NO_DEVICES], length), BEYUNLAK_SHORT);
        }
    }
}

/* Wherever the bytes of a record end it is 1, and a byte more is 8, for every device. */
static void view_bytes(void)
{
    trains_flags(1, 10, 10, 1, 10, 12, 2, 1);
    const size_t whole = in_len;
    int cut = 1;
    for (in_len = 0; in_len < whole; in_len++)
        for (uint32_t caller = 0; caller < BEYUNLAK_DEVICES; caller++)
            cut = cut && view(caller, BEYUNLAK_VIEW_MAX) == BEYUNLAK_CUT && untouched_from(0);
    check("1 wherever the bytes end", cut);
    put(0, 1);
    for (uint32_t caller = 0; caller < BEYUNLAK_DEVICES; caller++)
        refuses("8", view(caller, BEYUNLAK_VIEW_MAX), BEYUNLAK_TRAILING);
}

/* Memory of just the lengths that are asked for, at any address. */
static void view_exact(void)
{
    static const uint32_t flash[][4] = {{2, 1, 10, 12}};
    for (size_t k = 0; k < 4; k++) {
        trains_flags(1, 10, 10, 1, 10, 12, 2, 1);
        fill();
        uint8_t *record = malloc(in_len + k), *to = malloc(BEYUNLAK_VIEW_MAX + k);
        memcpy(record + k, in, in_len);
        memcpy(to + k, out, BEYUNLAK_VIEW_MAX);
        uint32_t answer = beyunlak_view(record + k, in_len, BEYUNLAK_LAMPS, to + k, BEYUNLAK_VIEW_MAX);
        memcpy(out, to + k, BEYUNLAK_VIEW_MAX);
        check("just enough memory, the input", memcmp(record + k, in, in_len) == 0);
        view_of(flash, 1);
        gives("just enough memory, the view", answer);
        free(record);
        free(to);
    }
}

/* The events of a device, by their numbers, and its count: what it may know of a record. */
struct own {
    uint32_t device, count, windows[12][3];
    int has[12];
};

static struct own drawn_own(void)
{
    static const uint32_t more[] = {0, 2, 65000};
    struct own own = {draw(3), 0, {{0}}, {0}};
    uint32_t flags = 0;
    for (int i = 0; i < 12; i++)
        if (draw(2) == 0) {
            own.has[i] = 1;
            flags += own.windows[i][0] = draw(1);
            own.windows[i][1] = draw(500);
            own.windows[i][2] = own.windows[i][1] + draw(draw(1) ? 400 : 1);
        }
    own.count = draw(3) ? flags + draw(more[draw(2)]) : BEYUNLAK_COUNT_MAX;
    return own;
}

/* A record with these events of the device and its count, whose windows are fit, and all else drawn: the horizon, the
 * other events, their owners, windows and flags, how many there are, the rules, and the other counts. */
static void drawn_record(const struct own *own)
{
    uint32_t n = draw(8), owner[20], windows[21][3] = {{0}}, numbers[BEYUNLAK_DEVICES] = {0};
    const uint32_t horizon = 1000 + draw(9000), rules = draw(40);
    for (uint32_t i = 0; i < 12; i++)
        if (own->has[i] && n < i + 1)
            n = i + 1;
    for (uint32_t i = 0; i < n; i++) {
        const int has = i < 12 && own->has[i];
        owner[i] = has ? own->device : (own->device + 1 + draw(3)) % BEYUNLAK_DEVICES;
        windows[i + 1][0] = has ? own->windows[i][0] : draw(1);
        windows[i + 1][1] = has ? own->windows[i][1] : draw(horizon);
        windows[i + 1][2] = has ? own->windows[i][2] : windows[i + 1][1] + draw(horizon - windows[i + 1][1]);
        numbers[owner[i]] += windows[i + 1][0];
    }
    for (uint32_t device = 0; device < BEYUNLAK_DEVICES; device++)
        numbers[device] = device == own->device ? own->count : draw(2) ? numbers[device] + draw(300) : BEYUNLAK_COUNT_MAX;
    start(horizon, n);
    for (uint32_t i = 0; i < n; i++)
        put(owner[i], 1);
    put(n ? rules : 0, 2);
    for (uint32_t k = 0; n && k < rules; k++) {
        const uint32_t from = draw(n), to = (from + 1 + draw(n - 1)) % (n + 1);
        rule(from, to, (int32_t)windows[to][2] - (int32_t)windows[from][1] + (int32_t)draw(draw(1) ? 0 : 900));
    }
    put(n, 2);
    for (uint32_t i = 1; i <= n; i++)
        window(windows[i][0], windows[i][1], windows[i][2]);
    counts(numbers[0], numbers[1], numbers[2], numbers[3], numbers[4]);
}

/* Two records in which a device has the same events, windows, flags and count: it sees the same, and each of its
 * commitments is answered with the same number. */
static void as_far_as_it_sees(void)
{
    static uint8_t records[2][BEYUNLAK_RECORD_MAX], views[2][BEYUNLAK_VIEW_MAX];
    size_t lengths[2];
    uint32_t seen = 0;
    char text[80];
    for (uint32_t k = 0; k < 300; k++) {
        const struct own own = drawn_own();
        int good = 1, same = 1;
        for (int i = 0; i < 2; i++) {
            drawn_record(&own);
            memcpy(records[i], in, lengths[i] = in_len);
            good = good && view(own.device, BEYUNLAK_VIEW_MAX) == BEYUNLAK_ACCEPTED;
            good = good && untouched_from(BEYUNLAK_VIEW_LENGTH(out[0]));
            memcpy(views[i], out, BEYUNLAK_VIEW_MAX);
        }
        good = good && memcmp(views[0], views[1], BEYUNLAK_VIEW_MAX) == 0;
        sprintf(text, "two records, views %u", (unsigned)k);
        check(text, good);
        for (uint32_t asked = 0; asked < 60; asked++) {
            const uint32_t event = asked / 4, *w = own.windows[event ? (event - 1) % 12 : 0], middle = (w[1] + w[2]) / 2;
            const uint32_t ends[4][2] = {{w[1], w[2]}, {middle, middle}, {w[1], w[2] + 1}, {w[2], w[1]}};
            uint32_t answers[2];
            for (int i = 0; i < 2; i++) {
                memcpy(in, records[i], in_len = lengths[i]);
                answers[i] = commit_as(own.device, event, ends[asked % 4][0], ends[asked % 4][1], BEYUNLAK_RECORD_MAX);
                same = same && (answers[i] == BEYUNLAK_ACCEPTED || untouched_from(0));
            }
            same = same && answers[0] == answers[1];
            if (answers[0] < 32)
                seen |= 1u << answers[0];
        }
        sprintf(text, "two records, answers %u", (unsigned)k);
        check(text, same);
    }
    check("0, 13, 18 and 20 were among them", seen == (1u | 1u << 13 | 1u << 18 | 1u << 20));
}

int main(int count, char **words)
{
    (void)words;
    tickets();
    records();
    examples();
    longest();
    of = "weights: ";
    weights();
    weighed_plans(0);
    of = "again: ";
    narrowing();
    by_turns();
    longest_again();
    of = "counts: ";
    counting();
    count_ends();
    each_device();
    count_run();
    each_count();
    count_fields();
    former_layout();
    output_lengths();
    if (count == 1)
        count_whole();
    of = "";
    layout();
    table_answers();
    tables();
    answers_after_stops();
    bytes_after_stops();
    working_tables();
    ring_after_stops();
    longest_path();
    reasons_of_tickets();
    reasons_of_lists();
    reasons();
    longest_reason();
    of = "mend: ";
    mend_lengths();
    mend_examples();
    mend_rings();
    mend_longest();
    mend_bytes();
    mend_exact();
    planning = mending;
    malformed();
    of = "part: ";
    planning = beyunlak_plan;
    part_examples();
    part_refusals();
    part_bytes();
    parts_of_plans();
    longest_part();
    part_exact();
    planning = parting;
    for (device_asked = 0; device_asked < BEYUNLAK_DEVICES; device_asked++) {
        char asked[40];
        sprintf(asked, "part of device %u: ", (unsigned)device_asked);
        of = asked;
        malformed();
    }
    planning = beyunlak_plan;
    of = "callers: ";
    callers();
    caller_order();
    of = "view: ";
    view_examples();
    view_devices();
    longest_view();
    view_order();
    view_bytes();
    view_exact();
    as_far_as_it_sees();
    planning = beyunlak_plan_latest;
    of = "latest ";
    tickets();
    latest_examples();
    latest_then_commitment();
    longest();
    weighed_plans(1);
    return 0;
}
