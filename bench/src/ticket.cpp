#include "ticket.h"

#include <algorithm>

#include "../../include/beyunlak.h"

namespace {

constexpr int64_t horizon = 1000000;
// Camera, filter wheel, lamps, stage, database.
constexpr int64_t weights[5] = {3, 1, 1, 1, 0};

// Rules that a hidden schedule keeps.
struct Drawing {
    Ticket ticket;
    std::vector<int64_t> time;
    size_t most;

    void at_most(int from, int to, int64_t room) {
        if (from != to && ticket.rules.size() < most) {
            ticket.rules.push_back({from, to, time[to] - time[from] + room});
        }
    }
    void between(int from, int to, int64_t room_below, int64_t room_above) {
        at_most(from, to, room_above);
        at_most(to, from, room_below);
    }
};

// Rounds of five devices, one event after the other; a round starts when the one before it allows.
void draw_session(Drawing &d, int n, Random &random) {
    const int64_t step = horizon / (n + 1);
    for (int event = 1; event <= n; event++) {
        d.between(event - 1, event, random.between(0, step / 2), random.between(0, step));
        if (event > 5) d.at_most(event, event - 5, random.between(0, step));
        if (event % 5 == 0) d.at_most(event - 4, event, random.between(0, 2 * step));
    }
}

// Pairs drawn at random, with up to a quarter of the horizon of room.
void draw_dense(Drawing &d, int n, Random &random) {
    while (d.ticket.rules.size() < d.most) {
        const int from = static_cast<int>(random.between(0, n)), to = static_cast<int>(random.between(0, n));
        d.at_most(from, to, random.between(0, horizon / 4));
    }
}

// Each event after the one before it, within limits.
void draw_chain(Drawing &d, int n, Random &random) {
    const int64_t step = horizon / (n + 1);
    for (int event = 1; event <= n; event++) {
        d.between(event - 1, event, random.between(0, step), random.between(0, step));
    }
}

// One event before two, these before a fourth, and so on.
void draw_diamonds(Drawing &d, int n, Random &random) {
    const int64_t step = horizon / (n + 1);
    for (int top = 0; top + 3 <= n; top += 3) {
        for (int side = top + 1; side <= top + 2; side++) {
            d.between(top, side, random.between(0, step), random.between(0, step));
            d.between(side, top + 3, random.between(0, step), random.between(0, step));
        }
    }
}

// A ring of sum 0 through all points, and rules with room.
void draw_ring(Drawing &d, int n, Random &random) {
    for (int point = 0; point <= n; point++) d.at_most(point, (point + 1) % (n + 1), 0);
    while (d.ticket.rules.size() < d.most) {
        const int from = static_cast<int>(random.between(0, n)), to = static_cast<int>(random.between(0, n));
        d.at_most(from, to, random.between(0, horizon / 8));
    }
}

// Events after others, by up to the time between them.
void draw_precedence(Drawing &d, int n, Random &random) {
    while (d.ticket.rules.size() < d.most) {
        const int a = static_cast<int>(random.between(1, n)), b = static_cast<int>(random.between(1, n));
        if (d.time[a] < d.time[b]) d.at_most(b, a, random.between(0, d.time[b] - d.time[a]));
    }
}

void put(std::vector<uint8_t> &bytes, int64_t value, int size) {
    const uint64_t bits = static_cast<uint64_t>(value);
    for (int k = 0; k < size; k++) bytes.push_back(static_cast<uint8_t>(bits >> (8 * k)));
}

int64_t number(const uint8_t *at) {
    return static_cast<int64_t>(at[0]) | at[1] << 8 | at[2] << 16 | static_cast<int64_t>(at[3]) << 24;
}

// A list of names: its count, then each name after its length.
std::vector<uint8_t> name_list(const std::vector<std::string> &names) {
    std::vector<uint8_t> bytes = {static_cast<uint8_t>(names.size()), 0};
    for (const std::string &name : names) {
        bytes.push_back(static_cast<uint8_t>(name.size()));
        bytes.insert(bytes.end(), name.begin(), name.end());
    }
    return bytes;
}

}  // namespace

const std::vector<std::string> structures = {"session", "dense", "chain", "diamonds", "ring", "precedence"};

int usual_rules(const std::string &structure, int events) {
    if (structure == "dense") return std::min(256, 32 * events / 5);
    if (structure == "ring") return std::min(256, 4 * events);
    if (structure == "precedence") return 3 * events;
    return 256;
}

Ticket make_ticket(const std::string &structure, int events, int rules, uint64_t seed, std::vector<int64_t> *times) {
    Random random(seed);
    Drawing d;
    d.most = static_cast<size_t>(rules);
    d.ticket.horizon = horizon;
    d.time.assign(events + 1, 0);
    for (int event = 1; event <= events; event++) {
        d.ticket.owners.push_back((event - 1) % 5);
        d.time[event] = random.between(0, horizon);
    }
    if (structure != "dense" && structure != "precedence") std::sort(d.time.begin(), d.time.end());
    if (structure == "session") draw_session(d, events, random);
    if (structure == "dense") draw_dense(d, events, random);
    if (structure == "chain") draw_chain(d, events, random);
    if (structure == "diamonds") draw_diamonds(d, events, random);
    if (structure == "ring") draw_ring(d, events, random);
    if (structure == "precedence") draw_precedence(d, events, random);
    for (Rule &rule : d.ticket.rules) rule.bound = std::clamp<int64_t>(rule.bound, -1000000, 1000000);
    if (times) *times = d.time;
    return d.ticket;
}

Ticket full_ticket(const std::string &structure, uint64_t seed, std::vector<int64_t> *times) {
    Ticket ticket = make_ticket(structure, BEYUNLAK_EVENTS_MAX, BEYUNLAK_RULES_MAX, seed, times);
    for (size_t k = 0; ticket.rules.size() < BEYUNLAK_RULES_MAX; k++) {
        Rule rule = ticket.rules[k];
        rule.bound = std::min<int64_t>(rule.bound + static_cast<int64_t>(1000 * (k % 10 + 1)), BEYUNLAK_BOUND_MAX);
        ticket.rules.push_back(rule);
    }
    return ticket;
}

Ticket of_one_device(Ticket ticket, int device) {
    std::fill(ticket.owners.begin(), ticket.owners.end(), device);
    return ticket;
}

Ticket mirrored(const Ticket &ticket) {
    Ticket mirror = ticket;
    for (Rule &rule : mirror.rules) {
        if (rule.from == 0) rule.bound -= ticket.horizon;
        if (rule.to == 0) rule.bound += ticket.horizon;
        rule.bound = std::min<int64_t>(rule.bound, BEYUNLAK_BOUND_MAX);
        std::swap(rule.from, rule.to);
    }
    return mirror;
}

Ticket closed_by_one(Ticket ticket) {
    const auto in_range = [](const Rule &rule) { return rule.bound < BEYUNLAK_BOUND_MAX; };
    const Rule rule = *std::find_if(ticket.rules.begin(), ticket.rules.end(), in_range);
    if (ticket.rules.size() == BEYUNLAK_RULES_MAX) ticket.rules.pop_back();
    ticket.rules.push_back({rule.to, rule.from, -rule.bound - 1});
    return ticket;
}

Ticket closed_through_all(Ticket ticket, const std::vector<int64_t> &times) {
    const size_t points = times.size();
    ticket.rules.resize(std::min(ticket.rules.size(), BEYUNLAK_RULES_MAX - points));
    for (size_t p = 0; p < points; p++) {
        const size_t next = (p + 1) % points;
        ticket.rules.push_back({static_cast<int>(p), static_cast<int>(next), times[next] - times[p] - (p == 0)});
    }
    return ticket;
}

std::vector<uint8_t> ticket_bytes(const Ticket &ticket) {
    std::vector<uint8_t> bytes;
    put(bytes, ticket.horizon, 4);
    put(bytes, ticket.events(), 2);
    for (int owner : ticket.owners) put(bytes, owner, 1);
    put(bytes, static_cast<int64_t>(ticket.rules.size()), 2);
    for (const Rule &rule : ticket.rules) {
        put(bytes, rule.from, 1);
        put(bytes, rule.to, 1);
        put(bytes, rule.bound, 4);
    }
    return bytes;
}

std::vector<uint8_t> record_bytes(const Ticket &ticket, const Windows &windows, const std::vector<bool> &committed) {
    std::vector<uint8_t> bytes = ticket_bytes(ticket);
    std::vector<int> counts(5);
    put(bytes, ticket.events(), 2);
    for (size_t k = 0; k < windows.size(); k++) {
        put(bytes, committed[k], 1);
        put(bytes, windows[k].open, 4);
        put(bytes, windows[k].close, 4);
        counts[ticket.owners[k]] += committed[k];
    }
    put(bytes, static_cast<int64_t>(counts.size()), 2);
    for (int count : counts) put(bytes, count, 2);
    return bytes;
}

Ticket ticket_of(const std::vector<uint8_t> &bytes) {
    Ticket ticket;
    ticket.horizon = number(bytes.data());
    ticket.owners.assign(bytes.begin() + 6, bytes.begin() + 6 + bytes[4]);
    for (size_t at = 8 + ticket.owners.size(); at < bytes.size(); at += 6) {
        ticket.rules.push_back({bytes[at], bytes[at + 1], static_cast<int32_t>(number(bytes.data() + at + 2))});
    }
    return ticket;
}

std::vector<uint8_t> labels_of(int events) {
    std::vector<std::string> names;
    for (int k = 0; k < events; k++) names.push_back(std::string("event") + char('a' + k / 26) + char('a' + k % 26));
    return name_list(names);
}

const std::vector<uint8_t> roster = name_list({"camera", "filterwheel", "lamps", "stage", "database"});

Windows record_windows(const Ticket &ticket, const std::vector<uint8_t> &record) {
    const uint8_t *at = record.data() + 8 + ticket.events() + 6 * ticket.rules.size() + 2;
    Windows windows;
    for (int k = 0; k < ticket.events(); k++, at += 9) windows.push_back({number(at + 1), number(at + 5)});
    return windows;
}

std::vector<Range> any_windows(const Ticket &ticket) {
    return std::vector<Range>(ticket.events(), Range{0, ticket.horizon, 0, ticket.horizon});
}

std::vector<Range> ranges_after(const Ticket &ticket, const Windows &windows, const std::vector<bool> &committed,
                                const Commitment &c) {
    std::vector<Range> ranges;
    for (size_t k = 0; k < windows.size(); k++) {
        const Window &w = windows[k];
        if (committed[k]) ranges.push_back({w.open, w.open, w.close, w.close});
        else ranges.push_back({0, w.open, w.close, ticket.horizon});
    }
    ranges[c.event - 1] = {c.open, c.open, c.close, c.close};
    return ranges;
}

Network make_network(const Ticket &ticket, const std::vector<Range> &ranges) {
    Network network;
    const int n = network.events = ticket.events();
    network.low.assign(network.nodes(), 0);
    network.high.assign(network.nodes(), 0);
    network.weight.assign(n + 1, 0);
    for (int k = 1; k <= n; k++) {
        const Range &range = ranges[k - 1];
        network.weight[k] = weights[ticket.owners[k - 1]];
        network.low[k] = range.open_low;
        network.high[k] = range.open_high;
        network.low[n + k] = range.close_low;
        network.high[n + k] = range.close_high;
        network.arcs.push_back({n + k, k, 0});
    }
    for (const Rule &rule : ticket.rules) {
        network.arcs.push_back({rule.from, rule.to == 0 ? 0 : n + rule.to, rule.bound});
    }
    return network;
}

Windows Network::windows(const std::vector<int64_t> &tick) const {
    Windows result;
    for (int k = 1; k <= events; k++) result.push_back({tick[k] - tick[0], tick[events + k] - tick[0]});
    return result;
}
