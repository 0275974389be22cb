// Nanoseconds of processor time that mending takes, by structure and size, beside the plan of the ticket that it starts
// from, and how often the time of the slowest plan of that size: of the structures the one whose plans take longest. The
// ticket is mended as it is, and with as many other rules in the places of its own, of which some or all are dropped.
// The calls take turns, ticket by ticket. Before it is timed every mending has to be the one that Bellman's and Ford's
// method gives, each step from nothing.
#include <algorithm>
#include <cstdio>
#include <cstdlib>
#include <cstring>

#include "../../include/beyunlak.h"
#include "clock.h"
#include "ticket.h"

namespace {

constexpr int tickets_each = 6;
constexpr double target = 1.5;
const std::vector<int> sizes = {5, 10, 20, 40};

int turns = 15;
double least_seconds = 0.0005;

using Times = std::vector<int64_t>;

// The rule that makes a ring of sum -1 with this one.
Rule opposite(const Rule &rule) { return {rule.to, rule.from, -rule.bound - 1}; }

Ticket as_it_is(const Ticket &ticket, const Times &) { return ticket; }

// The opposite of the first rule in the place of the last: it alone is dropped.
Ticket one_ring(const Ticket &ticket, const Times &) {
    Ticket made = ticket;
    const auto first = std::find_if(made.rules.begin(), made.rules.end(), [](const Rule &rule) { return rule.bound < BEYUNLAK_BOUND_MAX; });
    made.rules.back() = opposite(*first);
    return made;
}

// After each rule its opposite: every other rule is dropped.
Ticket opposed(const Ticket &ticket, const Times &) {
    Ticket made = ticket;
    made.rules.clear();
    for (size_t k = 0; made.rules.size() < ticket.rules.size(); k++) {
        const Rule &rule = ticket.rules[k % ticket.rules.size()];
        if (rule.bound == BEYUNLAK_BOUND_MAX) continue;
        made.rules.push_back(rule);
        if (made.rules.size() < ticket.rules.size()) made.rules.push_back(opposite(rule));
    }
    return made;
}

// A rule from each point to the next that the times just keep, and then rules that close a ring of sum -1 or less through
// all points: these are dropped.
Ticket closed_late(const Ticket &ticket, const Times &times) {
    Ticket made = ticket;
    const int n = ticket.events();
    for (size_t k = 0; k < made.rules.size(); k++) {
        const int p = static_cast<int>(k);
        const int64_t more = p - n + 1;
        if (p < n) made.rules[k] = {p, p + 1, times[p + 1] - times[p]};
        else made.rules[k] = {n, 0, -std::min<int64_t>(times[n] + more, BEYUNLAK_BOUND_MAX)};
    }
    return made;
}

// Every event before the start: all rules are dropped.
Ticket before_start(const Ticket &ticket, const Times &) {
    Ticket made = ticket;
    for (size_t k = 0; k < made.rules.size(); k++) {
        made.rules[k] = {0, static_cast<int>(k) % ticket.events() + 1, -1 - static_cast<int64_t>(k)};
    }
    return made;
}

// Events in their order, each at most a step after the one before it, in up to half of the rules; then by turns the last
// one a tick later than it can be and a tick earlier: these are dropped, and pull all events to and fro.
Ticket to_and_fro(const Ticket &ticket, const Times &) {
    Ticket made = ticket;
    const int events = std::min(ticket.events(), static_cast<int>(ticket.rules.size()) / 4);
    const int64_t step = ticket.horizon / (events + 1);
    for (size_t k = 0; k < made.rules.size(); k++) {
        const int p = static_cast<int>(k) / 2;
        if (p < events) made.rules[k] = k % 2 ? Rule{p + 1, p, 0} : Rule{p, p + 1, step};
        else made.rules[k] = k % 2 ? Rule{0, events, -1} : Rule{events, 0, -events * step - 1};
    }
    return made;
}

struct Kind {
    const char *name;
    Ticket (*made)(const Ticket &, const Times &);
};
const std::vector<Kind> kinds = {{"as it is", as_it_is},
                                 {"one rule dropped", one_ring},
                                 {"every other rule dropped", opposed},
                                 {"ring through all points", closed_late},
                                 {"every rule dropped", before_start},
                                 {"to and fro", to_and_fro}};

// Whether some times keep these rules.
bool possible(const Ticket &ticket, const std::vector<Rule> &rules) {
    Times times(ticket.events() + 1, 0);
    for (size_t round = 0; round <= times.size(); round++) {
        bool moved = false;
        const auto keep = [&](const Rule &rule) {
            if (times[rule.to] <= times[rule.from] + rule.bound) return;
            times[rule.to] = times[rule.from] + rule.bound;
            moved = true;
        };
        for (int event = 1; event <= ticket.events(); event++) {
            keep({event, 0, 0});
            keep({0, event, ticket.horizon});
        }
        for (const Rule &rule : rules) keep(rule);
        if (!moved) return true;
    }
    return false;
}

// What mending writes: the mended ticket, and the numbers of the dropped rules.
struct Mended {
    std::vector<uint8_t> ticket;
    std::vector<int> dropped;
    bool operator==(const Mended &other) const { return ticket == other.ticket && dropped == other.dropped; }
};

Mended wanted(const Ticket &ticket) {
    Ticket left = ticket;
    left.rules.clear();
    std::vector<int> dropped;
    for (size_t k = 0; k < ticket.rules.size(); k++) {
        left.rules.push_back(ticket.rules[k]);
        if (possible(ticket, left.rules)) continue;
        left.rules.pop_back();
        dropped.push_back(static_cast<int>(k) + 1);
    }
    return {ticket_bytes(left), dropped};
}

// A call of one of the two functions on a ticket.
struct Call {
    bool mend;
    std::vector<uint8_t> ticket;
    double least = 1e18;

    uint32_t ask(uint8_t *out, uint8_t *dropped) const {
        if (!mend) return beyunlak_plan(ticket.data(), ticket.size(), out, BEYUNLAK_RECORD_MAX);
        return beyunlak_mend(ticket.data(), ticket.size(), out, BEYUNLAK_TICKET_MAX, dropped, BEYUNLAK_DROPPED_MAX);
    }

    Mended mended() const {
        uint8_t out[BEYUNLAK_RECORD_MAX], list[BEYUNLAK_DROPPED_MAX];
        if (ask(out, list) != BEYUNLAK_ACCEPTED) return {};
        const auto number = [](const uint8_t *at) { return at[0] | at[1] << 8; };
        const int n = number(out + 4);
        std::vector<int> dropped;
        for (int k = 0; k < number(list); k++) dropped.push_back(number(list + BEYUNLAK_DROPPED_LENGTH(k)));
        return {{out, out + BEYUNLAK_TICKET_LENGTH(n, number(out + 6 + n))}, dropped};
    }

    void measure() {
        static uint8_t out[BEYUNLAK_RECORD_MAX], dropped[BEYUNLAK_DROPPED_MAX];
        least = std::min(least, mean_nanoseconds(1, least_seconds, [&] { ask(out, dropped); }));
    }
};

// The calls on one ticket: its plan, and a mending of each kind.
std::vector<Call> checked_calls(const std::string &structure, int events, uint64_t seed) {
    Times times;
    const Ticket ticket = make_ticket(structure, events, usual_rules(structure, events), seed, &times);
    std::vector<Call> calls = {{false, ticket_bytes(ticket)}};
    for (const Kind &kind : kinds) {
        const Ticket made = kind.made(ticket, times);
        calls.push_back({true, ticket_bytes(made)});
        if (calls.back().mended() == wanted(made)) continue;
        std::printf("MENDED IN ANOTHER WAY: %s n %d, %s\n", structure.c_str(), events, kind.name);
        std::exit(1);
    }
    return calls;
}

// Mean times over some tickets of a structure: of the plan, then of each mending.
struct Row {
    std::string structure;
    size_t rules;
    std::vector<double> times;
};

Row measured(const std::string &structure, int events) {
    std::vector<std::vector<Call>> all;
    for (int seed = 1; seed <= tickets_each; seed++) all.push_back(checked_calls(structure, events, seed));
    for (int turn = 0; turn < turns; turn++) {
        for (auto &calls : all) {
            // another call comes first each time
            for (size_t k = 0; k < calls.size(); k++) calls[(k + static_cast<size_t>(turn)) % calls.size()].measure();
        }
    }
    Row row{structure, ticket_of(all[0][0].ticket).rules.size(), std::vector<double>(all[0].size(), 0)};
    for (const auto &calls : all) {
        for (size_t k = 0; k < calls.size(); k++) row.times[k] += calls[k].least / tickets_each;
    }
    return row;
}

// The rows of a size, each mending with its ratio to the slowest plan; these ratios.
std::vector<double> print(int events, const std::vector<Row> &rows) {
    const auto less = [](const Row &a, const Row &b) { return a.times[0] < b.times[0]; };
    const double slowest = std::max_element(rows.begin(), rows.end(), less)->times[0];
    std::vector<double> ratios;
    for (const Row &row : rows) {
        std::printf("| %-10s | %2d | %3zu | %6.0f |", row.structure.c_str(), events, row.rules, row.times[0]);
        for (size_t k = 1; k < row.times.size(); k++) {
            ratios.push_back(row.times[k] / slowest);
            std::printf(" %7.0f (%.2f) |", row.times[k], ratios.back());
        }
        std::printf("\n");
    }
    std::fflush(stdout);
    return ratios;
}

}  // namespace

int main(int count, char **words) {
    for (int k = 1; k < count; k++) {
        if (!std::strcmp(words[k], "--short")) turns = 2, least_seconds = 0.0002;
    }
    std::printf("\nMending: nanoseconds; in brackets, how often the time of the slowest plan of as many events\n\n");
    std::printf("| structure  |  n |   m | plan |");
    for (const Kind &kind : kinds) std::printf(" %s |", kind.name);
    std::printf("\n|---|---|---|---|");
    for (size_t k = 0; k < kinds.size(); k++) std::printf("---|");
    std::printf("\n");
    std::vector<double> ratios;
    for (int n : sizes) {
        std::vector<Row> rows;
        for (const std::string &structure : structures) rows.push_back(measured(structure, n));
        for (double ratio : print(n, rows)) ratios.push_back(ratio);
    }
    const auto above = std::count_if(ratios.begin(), ratios.end(), [](double ratio) { return ratio > target; });
    std::printf("\nabove %.2f of the slowest plan: %zu of %zu, worst %.2f\n", target, static_cast<size_t>(above), ratios.size(),
                *std::max_element(ratios.begin(), ratios.end()));
    std::printf("every mending is the one that Bellman's and Ford's method gives: yes\n");
    return 0;
}
