// Tickets of the structures that are measured, their bytes, and the networks that the peers solve.
#pragma once
#include <cstdint>
#include <string>
#include <vector>

// xorshift64*: one seed gives one sequence.
struct Random {
    uint64_t state;
    explicit Random(uint64_t seed) : state(seed * 0x2545f4914f6cdd1dull + 0x9e3779b97f4a7c15ull) {}
    uint64_t next() {
        state ^= state >> 12;
        state ^= state << 25;
        state ^= state >> 27;
        return state * 0x2545f4914f6cdd1dull;
    }
    int64_t between(int64_t low, int64_t high) {
        return low + static_cast<int64_t>(next() % static_cast<uint64_t>(high - low + 1));
    }
};

struct Rule {
    int from, to;
    int64_t bound;
};

struct Ticket {
    int64_t horizon = 0;
    std::vector<int> owners;
    std::vector<Rule> rules;
    int events() const { return static_cast<int>(owners.size()); }
};

struct Window {
    int64_t open, close;
    bool operator==(const Window &other) const { return open == other.open && close == other.close; }
};
using Windows = std::vector<Window>;

struct Commitment {
    int event;
    int64_t open, close;
};

// What a window may be: low and high end of its open and of its close.
struct Range {
    int64_t open_low, open_high, close_low, close_high;
};

// Node 0 is session start, node i the open of event i, node n + i its close. An arc demands: tick of head
// minus tick of tail is at most cost; a box, that a node's tick lies in low to high. A tick of event i's width counts
// weight[i].
struct Arc {
    int tail, head;
    int64_t cost;
};

struct Network {
    int events;
    std::vector<Arc> arcs;
    std::vector<int64_t> low, high, weight;
    int nodes() const { return 2 * events + 1; }
    Windows windows(const std::vector<int64_t> &tick) const;
};

// Six structures; every ticket has a schedule: a time for each point, for those who ask for `times`.
extern const std::vector<std::string> structures;
Ticket make_ticket(const std::string &structure, int events, int rules, uint64_t seed, std::vector<int64_t> *times = nullptr);
int usual_rules(const std::string &structure, int events);

// A ticket of 40 events and 256 rules. Where the structure has fewer, copies of its rules with more room come after them, so
// that its distances stay.
Ticket full_ticket(const std::string &structure, uint64_t seed, std::vector<int64_t> *times = nullptr);
Ticket of_one_device(Ticket ticket, int device);
// Each time t becomes H - t. A bound above a ticket's range is cut: it holds for all ticks anyway.
Ticket mirrored(const Ticket &ticket);
// Impossible by one rule more, or in the place of the last one: the opposite of the first whose opposite is in range, a tick
// too tight.
Ticket closed_by_one(Ticket ticket);
// Impossible by a rule from each point to the next, which the times just keep, but for the first, which is a tick too tight;
// rules above the limit make room.
Ticket closed_through_all(Ticket ticket, const std::vector<int64_t> &times);

std::vector<uint8_t> ticket_bytes(const Ticket &ticket);
// The ticket of bytes that planning accepts.
Ticket ticket_of(const std::vector<uint8_t> &bytes);
// Lists of names for a reason.
std::vector<uint8_t> labels_of(int events);
extern const std::vector<uint8_t> roster;
Windows record_windows(const Ticket &ticket, const std::vector<uint8_t> &record);
std::vector<uint8_t> record_bytes(const Ticket &ticket, const Windows &windows, const std::vector<bool> &committed);

std::vector<Range> any_windows(const Ticket &ticket);
std::vector<Range> ranges_after(const Ticket &ticket, const Windows &windows, const std::vector<bool> &committed,
                                const Commitment &commitment);
Network make_network(const Ticket &ticket, const std::vector<Range> &ranges);
