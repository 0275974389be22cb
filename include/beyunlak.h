/*
 * beyunlak.h - time windows for the devices of an imaging rig.
 *
 * A session has a horizon and up to 40 events, each owned by a device, and rules on the time between two
 * points. beyunlak_plan gives every event a window, so that each device may pick any tick of its own window
 * without asking the others and no rule is broken; beyunlak_plan_latest does so as late as can be.
 * beyunlak_commit commits an event to a window inside its own, later to a narrower one, and widens the windows
 * of the free events as far as that allows; a device commits its own events only. beyunlak_view shows a device
 * the windows of its own events, and the database those of all. beyunlak_table tells how far apart in time any
 * two points can be, and beyunlak_table_after what stands in its table on the way there, stop by stop.
 * beyunlak_reason tells in words why no times keep all rules. beyunlak_mend drops from such a ticket each rule
 * that cannot be kept with those kept before it. beyunlak_part plans the events of one device alone.
 *
 * Link with libbeyunlak.a. It needs no other library, keeps nothing between two calls, allocates nothing
 * and makes no system call.
 *
 * TIME AND POINTS
 *   A tick is a tenth of a second. Point 0 is the start of the session, at tick 0. Points 1 to n are the
 *   events. Every event lies between tick 0 and the horizon, without a rule that says so.
 *
 * A TICKET, the input of both plans, of a working table, of a reason, of a part and of mending, whose first
 *   output is a ticket too. Numbers are unsigned and little-endian unless noted.
 *     offset       bytes  field
 *     0            4      horizon, 0 to 1,000,000
 *     4            2      n, the number of events, 0 to 40
 *     6            n      the owner of each event: enum beyunlak_owner
 *     6 + n        2      m, the number of rules, 0 to 256
 *     8 + n + 6k   6      rule k, for k from 0 to m - 1:
 *                           1 byte   from, a point
 *                           1 byte   to, another point
 *                           4 bytes  bound, signed (two's complement), -1,000,000 to 1,000,000
 *   A rule says: time of `to` minus time of `from` is at most `bound`. "2 at least 5 ticks after 1" is the
 *   rule from 2 to 1 with bound -5. A pair of points may have several rules.
 *   A ticket has 8 + n + 6m bytes, and nothing follows it.
 *
 * A RECORD, the output of both plans, both input and output of beyunlak_commit, and the input of beyunlak_view.
 *   T stands for 8 + n + 6m.
 *     offset       bytes  field
 *     0            T      the ticket
 *     T            2      n again
 *     T + 2 + 9k   9      the window of event k + 1, for k from 0 to n - 1:
 *                           1 byte   1 if the event is committed, 0 if it is free
 *                           4 bytes  open, the first tick of the window
 *                           4 bytes  close, the last tick; open <= close <= horizon
 *     T + 2 + 9n   2      the number of devices, 5 (BEYUNLAK_DEVICES)
 *     T + 4 + 9n   10     the counts: for each device, in the order of enum beyunlak_owner, 2 bytes, the count
 *                         of its accepted commitments, at least the number of its committed events
 *   A record has T + 14 + 9n bytes. The length is not returned, since n and m stand in the record.
 *   The last ten bytes of a record are the counts; that of device d begins 10 - 2d bytes before the end.
 *   They are 0 in a plan. An accepted commitment raises the count of the event's owner by one, also where the
 *   event was committed before, and leaves the other four. So after any commitments on a record each count is
 *   what it was there plus the accepted commitments of that device's events. At 65,535 a count cannot rise, and
 *   no commitment of an event of that device is accepted.
 *   A record of the former layout, with one number for all devices in place of these last twelve bytes, is
 *   refused: 14, or 1 where that number is 5.
 *   A window of width 0 (open = close) is one tick.
 *
 * THE TOTAL WIDTH of a plan, by which windows are chosen: the sum over the events of close - open times the
 *   weight of the event's owner, BEYUNLAK_WEIGHT. A tick of width counts 3 for the camera, 1 for wheel, lamps
 *   and stage, and 0 for the database. So the total is three times the widths of the camera's windows plus
 *   those of wheel, lamps and stage, at most 120,000,000. It is not stored: it follows from the record.
 *   Windows of the database do not count: in both plans each is a single tick, as early (in the latest plan as
 *   late) as the others' windows allow. After a commitment they contain their former ones, as all free windows
 *   do. With events of the database alone every total is 0, and the plan has each at its earliest time.
 *
 * A TABLE, the output of beyunlak_table: (n + 1) * (n + 1) signed numbers, row by row from point 0 on, so that
 *   D(i, j) stands at place i * (n + 1) + j. D(i, j) is the largest time of j minus time of i, over all times
 *   that keep the rules: the latest time of event i is D(0, i), its earliest -D(i, 0). D(i, i) is 0, and every
 *   number lies in -horizon to horizon.
 *
 * A WORKING TABLE, the output of beyunlak_table_after: numbers in the places of a table, as they are after
 *   some stops. The points are taken as stops in the order n, n - 1, .., 1, 0: the last event first, the start
 *   of the session last.
 *   A path from i to j is a list of rules in which the first goes from i, each other one from the point that
 *   the one before it goes to, and the last to j. Its inner points are those that its rules go to, but for the
 *   last rule's. What holds without a rule counts as rules too: for each event i "from i to 0, bound 0" and
 *   "from 0 to i, bound horizon". The list of no rules is a path from each point to itself.
 *   After k stops the number (i, j) is the least sum of bounds over the paths from i to j whose inner points
 *   are all among the first k stops, or BEYUNLAK_NO_PATH where there is no such path. Before the first stop it
 *   is the least bound of a rule from i to j, and after n + 1 stops it is D(i, j). The number (i, i) is 0 all
 *   the way, and every number but BEYUNLAK_NO_PATH lies in -horizon to 41,000,000. The horizon 9, two events
 *   and the rule from 1 to 2 with bound 4 give, row by row,
 *     0 9 9   0 0 4   0 BEYUNLAK_NO_PATH 0   after 0, 1 and 2 stops
 *     0 9 9   0 0 4   0 9 0                  after 3
 *
 * A LIST OF NAMES, an input of beyunlak_reason: the labels, a name for each of the n events in their order, or
 *   the roster, a name for each of the five devices in the order of enum beyunlak_owner.
 *     bytes    field
 *     2        the number of names: n for the labels, 5 for the roster
 *   then for each name
 *     1        its length, 1 to 16
 *     1 to 16  its letters, each a byte from 'a' to 'z'
 *   Nothing follows the last name. Names may be equal.
 *
 * A REASON, the output of beyunlak_reason: a text that names rules which cannot all be kept.
 *   The rules of a ticket have the numbers 1 to m, in their order. What holds without a rule has numbers too:
 *   "from event i to point 0, bound 0" (not before the start) has m + 2i - 1, and "from point 0 to event i,
 *   bound horizon" (not after the horizon) has m + 2i.
 *   A ring is a list of rules in which each goes from the point that the one before it goes to, and the first
 *   from the point that the last one goes to. The times between these points sum to 0, and each is at most its
 *   bound: where the bounds sum below 0, the rules of the ring cannot all be kept. There is such a ring exactly
 *   where no times keep all rules. The text has one with the fewest rules, at most n + 1; of several the one
 *   whose numbers, listed from the lowest on and compared one by one, come first. Its lines have these forms:
 *     at LABEL DEVICE   the event that the next rule goes from: its label, and its owner's name in the roster
 *     at start          the same for point 0
 *     by NUMBER BOUND   the rule; both numbers are decimal, and a bound below 0 begins with '-'
 *   The first line is the point that the rule with the lowest number goes from. A rule line follows each point
 *   line and a point line each rule line but the last, which ends the text. The parts of a line stand one space
 *   apart, and each line ends with byte 10; no byte 0 ends the text. The horizon 10, one event of the stage,
 *   labelled "last", and the rule from 1 to 0 with bound -11 give
 *     at last stage
 *     by 1 -11
 *     at start
 *     by 3 10
 *   To read a ring back, pass over the first line and over every second one after it: in the others the number
 *   stands after "by " and the bound after the next space. So a text tells one list of numbers and bounds only.
 *
 * A LIST OF DROPPED RULES, the second output of beyunlak_mend. The rules of the ticket handed in have the
 *   numbers 1 to m, in their order, as in a reason.
 *     offset   bytes  field
 *     0        2      d, the number of dropped rules, 0 to m
 *     2 + 2k   2      the number of a dropped rule, for k from 0 to d - 1; the numbers rise
 *   A list has 2 + 2d bytes, and the mended ticket m - d rules. Neither length is returned, since d stands in
 *   the list, and n and the number of rules in the mended ticket.
 *
 * A PART, the output of beyunlak_part: the events of one device, planned alone.
 *     offset   bytes  field
 *     0        2      e, the number of the device's events, 0 to n
 *     2 + 9k   9      for k from 0 to e - 1, the events rising:
 *                       1 byte   the event's number, 1 to n
 *                       4 bytes  open, as in a record
 *                       4 bytes  close, as in a record
 *   A part has 2 + 9e bytes. Its length is not returned, since e stands in it.
 *   What is planned has the ticket's horizon, the device's events and point 0, and keeps all distances among
 *   these: for any two of these points i and j it has the rule from i to j with bound D(i, j), which stands in
 *   the table of the whole ticket, and no other rules. Every choice of one tick in each window of a part keeps
 *   these rules. Choices from the parts of two devices together may break a rule between their events.
 *   The total of a part is the sum of close - open times the device's weight. The totals of the five parts sum
 *   to no less than the total of the plan. Where no rule joins events of two devices they sum to it, and the
 *   windows of the parts are those of the plan. The ticket of examples/host.c has the plan 5..11 and 9..9 with
 *   the total 18. Its camera's part has event 1 with 5..15, its lamps' part event 2 with 8..19, the other three
 *   are empty, and the totals are 30, 0, 11, 0 and 0.
 *
 * A VIEW, the output of beyunlak_view: the events that the caller sees, as they are in a record.
 *     offset    bytes  field
 *     0         2      e, the number of events that are shown, 0 to n
 *     2 + 10k   10     for k from 0 to e - 1, the events rising:
 *                        1 byte   the event's number, 1 to n
 *                        1 byte   1 if the event is committed, 0 if it is free
 *                        4 bytes  open, as in a record
 *                        4 bytes  close, as in a record
 *   A view has 2 + 10e bytes. Its length is not returned, since e stands in it.
 *   In the plan of the ticket of examples/host.c the camera sees event 1, free, with 5..11, the lamps event 2,
 *   free, with 9..9, the database both, and the other two see none.
 *
 * WHO SEES AND WHO COMMITS
 *   beyunlak_view and beyunlak_commit take the device that asks, `caller`, one of enum beyunlak_owner. A device
 *   sees the numbers, windows and flags of its own events, and the database those of all events. A device
 *   commits its own events and no others; the database too.
 *   For a device other than the database, its view and the number that answers its commitment depend on nothing
 *   in the record but the numbers, windows and flags of its own events and its own count. Two records that are
 *   equal in these give it equal views and equal numbers, whatever their horizons, rules and other events are,
 *   if both can be read, their windows are fit and the outputs are long enough. Whether an output is written
 *   follows from that number.
 *   This does not cover:
 *   - the record that an accepted commitment writes. It has the windows of all events: a host that wants to keep
 *     them from a device's maker hands out views, not records; nor tickets, since whoever has one can plan it;
 *   - the windows themselves. They follow from all rules, and a free one may be wider after a commitment of
 *     another device;
 *   - how long a call takes.
 *   The library cannot know who calls it: the host vouches for `caller`.
 *
 * WHAT IS LEFT IN THE OUTPUT
 *   Answer 0: the record, the view, the table, the text, the mended ticket or the part stands at the start of
 *   `out`, and the list of dropped rules at the start of `dropped`; what lies after each is as it was.
 *   Any other answer: all of `out` and all of `dropped` is as it was. beyunlak_reason then writes 0 to *length.
 *
 * WHAT A CALLER OWES
 *   - No pointer is null, not even one whose length is 0, and each length is true.
 *   - `out` does not overlap the other memory lent to the call, nor do `length` and `dropped`. For the next
 *     commitment, swap two buffers (see below).
 *   - While a call runs, nobody else writes its input or touches its output.
 *   Calls in several threads need no lock where each has memory of its own. Every function ends after a
 *   bounded number of steps, whatever it is given. Of stack both plans use less than 30 kilobytes and
 *   beyunlak_commit less than 24, in each 7,296 bytes of them for the scratch that the caller does not lend;
 *   beyunlak_part uses less than 110, beyunlak_table_after less than 65, and every other function,
 *   beyunlak_view among them, less than 45 (measured; it depends on how the library was compiled).
 *   Bytes from a stranger are safe: they are refused or accepted, and never read or written past their length.
 *
 * EXAMPLE (examples/host.c is a whole program)
 *
 *     uint8_t ticket[BEYUNLAK_TICKET_MAX], plan[BEYUNLAK_RECORD_MAX], next[BEYUNLAK_RECORD_MAX];
 *     size_t ticket_len = fill_in(ticket);
 *
 *     uint32_t answer = beyunlak_plan(ticket, ticket_len, plan, sizeof plan);
 *     if (answer != BEYUNLAK_ACCEPTED)
 *         return give_up(answer);
 *
 *     answer = beyunlak_commit(plan, BEYUNLAK_RECORD_LENGTH(2, 6), BEYUNLAK_CAMERA, 1, 10, 10,
 *                              next, sizeof next);
 *     if (answer == BEYUNLAK_ACCEPTED)
 *         use(next);                       // hand `next` in and take `plan` as output the next time
 */
#ifndef BEYUNLAK_H
#define BEYUNLAK_H

#include <stddef.h>
#include <stdint.h>

#ifdef __cplusplus
extern "C" {
#endif

/* Limits of a ticket. */
#define BEYUNLAK_HORIZON_MAX 1000000
#define BEYUNLAK_EVENTS_MAX 40
#define BEYUNLAK_RULES_MAX 256
#define BEYUNLAK_BOUND_MAX 1000000 /* either way: -1,000,000 to 1,000,000 */

/* The largest count of a device in a record. */
#define BEYUNLAK_COUNT_MAX 65535

/* Lengths in bytes, for n events and m rules. */
#define BEYUNLAK_TICKET_LENGTH(n, m) (8 + (size_t)(n) + 6 * (size_t)(m))
#define BEYUNLAK_RECORD_LENGTH(n, m) (BEYUNLAK_TICKET_LENGTH(n, m) + 14 + 9 * (size_t)(n))

/* The longest ticket and the longest record. The output of a record holds at least BEYUNLAK_RECORD_MAX bytes,
 * that of a mended ticket at least BEYUNLAK_TICKET_MAX, also for short ones: under that the answer is
 * BEYUNLAK_SHORT. */
#define BEYUNLAK_TICKET_MAX 1584
#define BEYUNLAK_RECORD_MAX 1958

/* How many numbers the largest table has. A table's output holds at least as many, also for fewer events:
 * under that the answer is BEYUNLAK_SHORT. */
#define BEYUNLAK_TABLE_MAX 1681

/* In a working table: there is no path yet. It is above every sum. */
#define BEYUNLAK_NO_PATH INT32_MAX

/* The least size of a reason's output, in bytes, also for a short text: under that the answer is
 * BEYUNLAK_SHORT. No text is longer. */
#define BEYUNLAK_REASON_MAX 2200

/* Lists of names: how many letters a name has at most, and how many bytes a list of so many names. */
#define BEYUNLAK_NAME_MAX 16
#define BEYUNLAK_NAMES_MAX(count) (2 + (1 + BEYUNLAK_NAME_MAX) * (size_t)(count))

/* Lists of dropped rules: how many bytes a list of d numbers has, and the longest list. The output of a list
 * holds at least as many as that, also for fewer numbers: under that the answer is BEYUNLAK_SHORT. */
#define BEYUNLAK_DROPPED_LENGTH(d) (2 + 2 * (size_t)(d))
#define BEYUNLAK_DROPPED_MAX 514

/* Parts: how many bytes a part of e events has, and the longest part. The output of a part holds at least as
 * many as that, also for fewer events: under that the answer is BEYUNLAK_SHORT. */
#define BEYUNLAK_PART_LENGTH(e) (2 + 9 * (size_t)(e))
#define BEYUNLAK_PART_MAX 362

/* Views: how many bytes a view of e events has, and the longest view. The output of a view holds at least as
 * many as that, also for fewer events: under that the answer is BEYUNLAK_SHORT. */
#define BEYUNLAK_VIEW_LENGTH(e) (2 + 10 * (size_t)(e))
#define BEYUNLAK_VIEW_MAX 402

/* The devices that own events, how many they are, and what a tick of width counts in the total for each. */
#define BEYUNLAK_DEVICES 5
enum beyunlak_owner {
    BEYUNLAK_CAMERA = 0,
    BEYUNLAK_FILTER_WHEEL = 1,
    BEYUNLAK_LAMPS = 2,
    BEYUNLAK_STAGE = 3,
    BEYUNLAK_DATABASE = 4
};
#define BEYUNLAK_WEIGHT(owner) ((owner) == BEYUNLAK_CAMERA ? 3u : (owner) == BEYUNLAK_DATABASE ? 0u : 1u)

/* A rule: time of `to` minus time of `from` is at most `bound`. It has 8 bytes: from at offset 0, to at 1,
 * bound at 4; the two bytes between are not looked at. */
struct beyunlak_rule {
    uint8_t from;
    uint8_t to;
    int32_t bound;
};

/* The answers. An output's length is tested first, then the caller of a commitment or a view (19). Then the
 * input is read field by field in the order of its bytes, each field's presence before its value, and the first
 * cause decides. Each rule is a field, each window with its flag, and each count: one that is too low is 14,
 * though the next is cut off. Then come 9 for a plan, 15 for a view, and 15, 20, 13, 18 in this order for a
 * commitment. The orders of both tables, of a reason, of mending and of a part stand at beyunlak_table,
 * beyunlak_table_after, beyunlak_reason, beyunlak_mend and beyunlak_part. */
enum beyunlak_answer {
    BEYUNLAK_ACCEPTED = 0,
    BEYUNLAK_CUT = 1,        /* the bytes end inside a field */
    BEYUNLAK_HORIZON = 2,    /* the horizon is above 1,000,000 */
    BEYUNLAK_EVENTS = 3,     /* there are more than 40 events */
    BEYUNLAK_OWNER = 4,      /* an owner is above 4, or the device of a part */
    BEYUNLAK_RULES = 5,      /* there are more than 256 rules */
    BEYUNLAK_POINTS = 6,     /* a point of a rule is above n, or both are the same */
    BEYUNLAK_BOUND = 7,      /* a bound is below -1,000,000 or above 1,000,000 */
    BEYUNLAK_TRAILING = 8,   /* bytes follow the end of the ticket or record */
    BEYUNLAK_IMPOSSIBLE = 9, /* no times keep all rules (planning, both tables and a part) */
    BEYUNLAK_SHORT = 10,     /* an output is shorter than BEYUNLAK_RECORD_MAX, _VIEW_MAX, _TABLE_MAX,
                                _REASON_MAX, _PART_MAX or, for mending, _TICKET_MAX or _DROPPED_MAX */
    BEYUNLAK_EVENT = 11,     /* no longer answered: a commitment to no event is 20 */
    BEYUNLAK_COMMITTED = 12, /* no longer answered: a committed event may be committed again */
    BEYUNLAK_WINDOW = 13,    /* open is above close, or they are not inside the event's window */
    BEYUNLAK_LAYOUT = 14,    /* the record's second n, a flag, a window or the number of devices is wrong, or a
                                device's count is below the number of its committed events */
    BEYUNLAK_UNFIT = 15,     /* the record's windows allow a choice that breaks a rule */
    BEYUNLAK_NAMES = 16,     /* a list of names breaks its layout */
    BEYUNLAK_POSSIBLE = 17,  /* a schedule exists: some times keep all rules, so there is no reason */
    BEYUNLAK_COUNT = 18,     /* the count of the event's owner is 65,535 and cannot rise */
    BEYUNLAK_CALLER = 19,    /* the caller is no device: above 4 */
    BEYUNLAK_NOT_OWN = 20    /* a commitment to an event that is not the caller's, or to none: 0 or above n */
};

/*
 * The plan of a ticket: of all sets of windows from which every choice keeps all rules, the one of the largest
 * total width; where several have the same, the one in which every open and every close is earliest.
 * Answers 0 to 10.
 */
uint32_t beyunlak_plan(const uint8_t *ticket, size_t ticket_len, uint8_t *out, size_t out_len);

/*
 * The latest plan of a ticket: of the sets of the largest total width that beyunlak_plan chooses from, the one
 * in which every open and every close is latest. A commitment on its record prefers the earliest,
 * as on any record. Answers 0 to 10, the same number as beyunlak_plan.
 */
uint32_t beyunlak_plan_latest(const uint8_t *ticket, size_t ticket_len, uint8_t *out, size_t out_len);

/*
 * The record after `caller` commits its own event `event` to the window `open` to `close`, which lies inside its
 * present one. A committed event may be committed again to any window inside its present one, the same included;
 * the last one counts. The other committed events keep their windows and every free window contains its former
 * one; of all such sets the widest is taken, then the earliest, as in a plan. The count of the event's owner,
 * who is the caller, rises by one. The record may come from a plan, from a commitment, or from elsewhere, if its
 * windows are fit. After a refusal go on with the record that was handed in. examples/commit.c is a whole
 * program.
 * Answers 0, or the first of these that applies: 10 (`out` is shorter than BEYUNLAK_RECORD_MAX), 19 (`caller` is
 * above 4), 1 to 8 and 14 (the record), 15, 20, 13, 18.
 */
uint32_t beyunlak_commit(const uint8_t *record, size_t record_len, uint32_t caller, uint32_t event,
                         uint32_t open, uint32_t close, uint8_t *out, size_t out_len);

/*
 * The view of `caller` in a record: at the start of `out` the caller's own events with their flags and windows,
 * and for the database all events. Where there are none to show the view has two bytes, both 0.
 * examples/view.c is a whole program.
 * Answers 0, or the first of these that applies: 10 (`out` is shorter than BEYUNLAK_VIEW_MAX), 19 (`caller` is
 * above 4), 1 to 8 and 14 (the record, as in beyunlak_commit), 15.
 */
uint32_t beyunlak_view(const uint8_t *record, size_t record_len, uint32_t caller, uint8_t *out, size_t out_len);

/*
 * The table of a session with this horizon, this number of events and these rules, which may stand in any
 * order. rules_len counts rules and out_len numbers, not bytes. Owners and windows play no part in a table.
 * Answers 0, or the first of these that applies: 10 (`out` is shorter than BEYUNLAK_TABLE_MAX), 2 (horizon), 3
 * (events), 5 (rules), then rule by rule 6 (its points) before 7 (its bound), then 9.
 */
uint32_t beyunlak_table(uint32_t horizon, uint32_t events, const struct beyunlak_rule *rules, size_t rules_len,
                        int32_t *out, size_t out_len);

/*
 * The working table of a ticket after `stops` stops. More than n + 1 count as n + 1, after which the output is
 * that of beyunlak_table for the ticket's horizon, events and rules. out_len counts numbers, not bytes.
 * examples/table.c is a whole program.
 * Answers 0, or the first of these that applies, whatever `stops` is: 10 (`out` is shorter than
 * BEYUNLAK_TABLE_MAX), 1 to 8 (the ticket, as in beyunlak_plan), 9.
 */
uint32_t beyunlak_table_after(const uint8_t *ticket, size_t ticket_len, uint32_t stops, int32_t *out,
                              size_t out_len);

/*
 * The reason why no times keep all rules of a ticket that beyunlak_plan refuses with 9: a text at the start of
 * `out`, and its length in bytes in *length. examples/reason.c is a whole program.
 * Answers 0, or the first of these that applies: 10 (`out` is shorter than BEYUNLAK_REASON_MAX), 1 to 8 (the
 * ticket, as in beyunlak_plan), 16 (the labels, or the roster), 17. After a refusal *length is 0.
 */
uint32_t beyunlak_reason(const uint8_t *ticket, size_t ticket_len, const uint8_t *labels, size_t labels_len,
                         const uint8_t *roster, size_t roster_len, uint8_t *out, size_t out_len,
                         uint32_t *length);

/*
 * A ticket mended: the mended ticket at the start of `out`, and the list of dropped rules at the start of
 * `dropped`. Rule by rule, in the ticket's order, a rule is kept if some times keep it together with the rules
 * kept so far; otherwise it is dropped. The mended ticket has the ticket's horizon, events and owners, and the
 * kept rules in their order. It has a schedule, so it can be planned; with any one dropped rule put back, in
 * any place, it has none. A ticket that has a schedule comes out byte for byte, with an empty list, and so does
 * a mended ticket that is mended again. Where no rule can be kept the mended ticket has no rules.
 * examples/mend.c is a whole program.
 * Answers 0, or the first of these that applies: 10 (`out` is shorter than BEYUNLAK_TICKET_MAX, or `dropped`
 * than BEYUNLAK_DROPPED_MAX), 1 to 8 (the ticket, as in beyunlak_plan). It never answers 9.
 */
uint32_t beyunlak_mend(const uint8_t *ticket, size_t ticket_len, uint8_t *out, size_t out_len,
                       uint8_t *dropped, size_t dropped_len);

/*
 * The part of `device`, one of enum beyunlak_owner, in a ticket: at the start of `out` the device's events with
 * their windows, planned as beyunlak_plan plans a ticket, with the same weights, from the distances of the
 * whole ticket among these events and point 0. Of all sets of windows from which every choice keeps these
 * distances it is the one of the largest total width; where several have the same, the one in which every open
 * and every close is earliest. A device that owns no events has a part of two bytes, both 0.
 * examples/part.c is a whole program.
 * Answers 0, or the first of these that applies: 10 (`out` is shorter than BEYUNLAK_PART_MAX), 4 (`device` is
 * above 4), 1 to 8 (the ticket, as in beyunlak_plan), 9.
 */
uint32_t beyunlak_part(const uint8_t *ticket, size_t ticket_len, uint32_t device, uint8_t *out, size_t out_len);

#ifdef __cplusplus
}
#endif

#endif
