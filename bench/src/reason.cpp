// Nanoseconds of processor time that a reason takes, by structure and size, beside a plan of the ticket that is made
// impossible: once by one more rule, the opposite of the first and a tick too tight, once by a ring through all points.
// The ticket itself, which has a schedule, is asked for its reason too (17). The calls take turns, ticket by ticket.
// Before it is timed every ring has to be the one that a search over all pairs of points finds.
#include <algorithm>
#include <cmath>
#include <cstdio>
#include <cstdlib>
#include <cstring>
#include <map>

#include "../../include/beyunlak.h"
#include "clock.h"
#include "ticket.h"

namespace {

constexpr int tickets_each = 6;
const std::vector<int> sizes = {5, 10, 20, 40};

int turns = 15;
double least_seconds = 0.0005;

// The ticket's rules and, behind them, those that hold unwritten: number k stands at place k - 1.
std::vector<Rule> numbered_rules(const Ticket &ticket) {
    std::vector<Rule> rules = ticket.rules;
    for (int event = 1; event <= ticket.events(); event++) {
        rules.push_back({event, 0, 0});
        rules.push_back({0, event, ticket.horizon});
    }
    return rules;
}

using Ring = std::vector<int>;

// The first of the shortest rings, by the least sums of walks of each length between all points; empty if there is none.
Ring first_ring(const Ticket &ticket) {
    constexpr int64_t none = int64_t{1} << 40;
    const std::vector<Rule> rules = numbered_rules(ticket);
    const size_t points = static_cast<size_t>(ticket.events()) + 1;
    std::vector<std::vector<int64_t>> sums = {std::vector<int64_t>(points * points, none)};
    for (size_t p = 0; p < points; p++) sums[0][p * points + p] = 0;
    bool found = false;
    while (!found && sums.size() <= points) {
        const std::vector<int64_t> &last = sums.back();
        std::vector<int64_t> next(points * points, none);
        for (const Rule &rule : rules) {
            for (size_t p = 0; p < points; p++) {
                int64_t &sum = next[rule.from * points + p];
                sum = std::min(sum, last[rule.to * points + p] >= none / 2 ? none : rule.bound + last[rule.to * points + p]);
            }
        }
        for (size_t p = 0; p < points; p++) found = found || next[p * points + p] < 0;
        sums.push_back(next);
    }
    Ring ring;
    int64_t sum = 0;
    for (size_t left = found ? sums.size() - 1 : 0; left > 0; left--) {
        size_t k = 0;
        for (;; k++) {
            const Rule &rule = rules[k];
            const int root = ring.empty() ? rule.from : rules[ring[0] - 1].from;
            if (!ring.empty() && rules[ring.back() - 1].to != rule.from) continue;
            if (sum + rule.bound + sums[left - 1][rule.to * points + root] < 0) break;
        }
        ring.push_back(static_cast<int>(k) + 1);
        sum += rules[k].bound;
    }
    return ring;
}

// A call of one of the two functions on a ticket.
struct Call {
    bool reason;
    std::vector<uint8_t> ticket, labels;
    double least = 1e18;

    uint32_t ask(uint8_t *out, uint32_t *length) const {
        if (!reason) return beyunlak_plan(ticket.data(), ticket.size(), out, BEYUNLAK_RECORD_MAX);
        return beyunlak_reason(ticket.data(), ticket.size(), labels.data(), labels.size(), roster.data(), roster.size(), out,
                               BEYUNLAK_REASON_MAX, length);
    }

    void measure() {
        static uint8_t out[BEYUNLAK_REASON_MAX];
        uint32_t length;
        least = std::min(least, mean_nanoseconds(1, least_seconds, [&] { ask(out, &length); }));
    }
};

Call call_on(bool reason, const Ticket &ticket) { return {reason, ticket_bytes(ticket), labels_of(ticket.events())}; }

// The rule numbers of the text that a reason writes; empty where the answer is 17.
Ring ring_told(const Call &call) {
    uint8_t out[BEYUNLAK_REASON_MAX + 1];
    uint32_t length;
    const uint32_t answer = call.ask(out, &length);
    if (answer != BEYUNLAK_ACCEPTED) return answer == BEYUNLAK_POSSIBLE ? Ring{} : Ring{-1};
    out[length] = 0;
    Ring ring;
    const char *at = reinterpret_cast<const char *>(out);
    while ((at = std::strstr(at, "\nby ")) != nullptr) ring.push_back(std::atoi(at += 4));
    return ring;
}

// The calls on one ticket: its plan; the reasons of two impossible ones; its reason, which it does not have.
std::vector<Call> checked_calls(const std::string &structure, int events, uint64_t seed) {
    std::vector<int64_t> times;
    const Ticket ticket = make_ticket(structure, events, usual_rules(structure, events), seed, &times);
    const std::vector<Ticket> asked = {closed_by_one(ticket), closed_through_all(ticket, times), ticket};
    const std::vector<size_t> lengths = {2, times.size(), 0};
    std::vector<Call> calls = {call_on(false, ticket)};
    for (size_t k = 0; k < asked.size(); k++) {
        calls.push_back(call_on(true, asked[k]));
        const Ring ring = first_ring(asked[k]);
        if (ring_told(calls.back()) != ring) {
            std::printf("ANOTHER RING: %s n %d\n", structure.c_str(), events);
            std::exit(1);
        }
        if (ring.size() != lengths[k]) {
            std::printf("A RING OF %zu RULES, NOT %zu: %s n %d\n", ring.size(), lengths[k], structure.c_str(), events);
            std::exit(1);
        }
    }
    return calls;
}

// Mean times of the four calls over some tickets of a structure.
std::vector<double> row(const std::string &structure, int events) {
    std::vector<std::vector<Call>> all;
    for (int seed = 1; seed <= tickets_each; seed++) all.push_back(checked_calls(structure, events, seed));
    for (int turn = 0; turn < turns; turn++) {
        for (auto &calls : all) {
            // another call comes first each time
            for (size_t k = 0; k < calls.size(); k++) calls[(k + static_cast<size_t>(turn)) % calls.size()].measure();
        }
    }
    std::vector<double> times(all[0].size(), 0);
    for (const auto &calls : all) {
        for (size_t k = 0; k < calls.size(); k++) times[k] += calls[k].least / tickets_each;
    }
    const size_t rules = ticket_of(all[0][0].ticket).rules.size();
    std::printf("| %-10s | %2d | %3zu | %6.0f |", structure.c_str(), events, rules, times[0]);
    for (size_t k = 1; k < times.size(); k++) std::printf(" %7.0f (%.1f) |", times[k], times[k] / times[0]);
    std::printf("\n");
    std::fflush(stdout);
    return times;
}

}  // namespace

int main(int count, char **words) {
    for (int k = 1; k < count; k++) {
        if (!std::strcmp(words[k], "--short")) turns = 2, least_seconds = 0.0002;
    }
    std::printf("\nA reason: nanoseconds; in brackets, how often the time of the plan\n\n");
    std::printf("| structure  |  n |   m | plan | ring of two rules | ring through all points | no ring (17) |\n");
    std::printf("|---|---|---|---|---|---|---|\n");
    std::map<int, std::vector<double>> logs;
    for (const std::string &structure : structures) {
        for (int n : sizes) {
            const std::vector<double> times = row(structure, n);
            logs[n].resize(times.size(), 0);
            for (size_t k = 0; k < times.size(); k++) logs[n][k] += std::log(times[k]) / static_cast<double>(structures.size());
        }
    }
    for (const auto &[n, means] : logs) {
        std::printf("geometric mean, n %d:  plan %.0f", n, std::exp(means[0]));
        const char *names[] = {"two rules", "all points", "17"};
        for (size_t k = 1; k < means.size(); k++) {
            std::printf("  %s %.0f (%.1f)", names[k - 1], std::exp(means[k]), std::exp(means[k] - means[0]));
        }
        std::printf("\n");
    }
    std::printf("\nevery ring is the one that a search over all pairs finds: yes\n");
    return 0;
}
