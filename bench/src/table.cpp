// Nanoseconds of processor time that the table of distances takes, by structure and size, for the library, for the
// library's table after half of the stops, and for a plain Floyd-Warshall over the same rules. All have to give the
// same finished table before they are timed.
#include <algorithm>
#include <array>
#include <cmath>
#include <cstdio>
#include <cstring>
#include <map>

#include "../../include/beyunlak.h"
#include "clock.h"
#include "ticket.h"

namespace {

constexpr int tickets_each = 6;
constexpr size_t table_numbers = BEYUNLAK_TABLE_MAX;
const std::vector<int> sizes = {5, 10, 20, 40};

int repeats = 5;
double least_seconds = 0.01;

struct Call {
    uint32_t horizon, events;
    std::vector<beyunlak_rule> rules;
    std::vector<uint8_t> ticket;
};

using Table = uint32_t (*)(const Call &, int32_t *out);

uint32_t by_library(const Call &call, int32_t *out) {
    return beyunlak_table(call.horizon, call.events, call.rules.data(), call.rules.size(), out, table_numbers);
}

uint32_t after(const Call &call, uint32_t stops, int32_t *out) {
    return beyunlak_table_after(call.ticket.data(), call.ticket.size(), stops, out, table_numbers);
}

uint32_t by_half_the_stops(const Call &call, int32_t *out) {
    return after(call, (call.events + 1) / 2, out);
}

// No test of the input but for a ring of rules that sums below zero.
uint32_t by_floyd_warshall(const Call &call, int32_t *out) {
    const size_t size = call.events + 1;
    const int32_t horizon = static_cast<int32_t>(call.horizon);
    for (size_t i = 0; i < size; i++) {
        for (size_t j = 0; j < size; j++) out[i * size + j] = i == j || j == 0 ? 0 : horizon;
    }
    for (const beyunlak_rule &rule : call.rules) {
        int32_t &entry = out[rule.from * size + rule.to];
        entry = std::min(entry, rule.bound);
    }
    for (size_t k = 0; k < size; k++) {
        const int32_t *by = out + k * size;
        for (size_t i = 0; i < size; i++) {
            int32_t *row = out + i * size;
            const int32_t first = row[k];
            for (size_t j = 0; j < size; j++) row[j] = std::min(row[j], first + by[j]);
        }
    }
    for (size_t i = 0; i < size; i++) {
        if (out[i * size + i] < 0) return BEYUNLAK_IMPOSSIBLE;
    }
    return BEYUNLAK_ACCEPTED;
}

std::vector<Call> make_calls(const std::string &structure, int events) {
    std::vector<Call> calls;
    for (int seed = 1; seed <= tickets_each; seed++) {
        const Ticket ticket = make_ticket(structure, events, usual_rules(structure, events), seed);
        Call call{static_cast<uint32_t>(ticket.horizon), static_cast<uint32_t>(events), {}, ticket_bytes(ticket)};
        for (const Rule &rule : ticket.rules) {
            call.rules.push_back({static_cast<uint8_t>(rule.from), static_cast<uint8_t>(rule.to),
                                  static_cast<int32_t>(rule.bound)});
        }
        calls.push_back(call);
    }
    return calls;
}

bool same(const Call &call) {
    std::vector<int32_t> one(table_numbers, 7), other(table_numbers, 7), last(table_numbers, 7);
    return by_library(call, one.data()) == 0 && by_floyd_warshall(call, other.data()) == 0 && one == other &&
           after(call, call.events + 1, last.data()) == 0 && one == last;
}

double measure(Table table, const std::vector<Call> &calls) {
    static int32_t out[table_numbers];
    return mean_nanoseconds(calls.size(), least_seconds, [&] {
        for (const Call &call : calls) table(call, out);
    });
}

}  // namespace

int main(int count, char **words) {
    for (int k = 1; k < count; k++) {
        if (!std::strcmp(words[k], "--short")) repeats = 1, least_seconds = 0.001;
    }
    const std::array<Table, 3> tables = {by_library, by_half_the_stops, by_floyd_warshall};
    std::printf("\nA table: nanoseconds; in brackets, how often the time of the library\n\n");
    std::printf("| structure  |  n |   m | library | after half of the stops | floyd-warshall |\n");
    std::printf("|---|---|---|---|---|---|\n");
    std::map<int, std::array<double, 3>> logs;
    for (const std::string &structure : structures) {
        for (int n : sizes) {
            const auto calls = make_calls(structure, n);
            if (!std::all_of(calls.begin(), calls.end(), same)) {
                std::printf("OTHER TABLE: %s n %d\n", structure.c_str(), n);
                return 1;
            }
            std::array<double, 3> times = {1e18, 1e18, 1e18};
            for (int repeat = 0; repeat < repeats; repeat++) {
                for (size_t k = 0; k < tables.size(); k++) times[k] = std::min(times[k], measure(tables[k], calls));
            }
            std::printf("| %-10s | %2d | %3zu | %6.0f | %6.0f (%.3f) | %6.0f (%.3f) |\n", structure.c_str(), n,
                        calls[0].rules.size(), times[0], times[1], times[1] / times[0], times[2], times[2] / times[0]);
            for (size_t k = 0; k < times.size(); k++) logs[n][k] += std::log(times[k]);
        }
    }
    const double parts = static_cast<double>(structures.size());
    for (const auto &[n, sums] : logs) {
        const double library = std::exp(sums[0] / parts), half = std::exp(sums[1] / parts);
        const double other = std::exp(sums[2] / parts);
        std::printf("geometric mean, n %d:  library %.0f", n, library);
        std::printf("  after half of the stops %.0f (%.3f)", half, half / library);
        std::printf("  floyd-warshall %.0f (%.3f)\n", other, other / library);
    }
    std::printf("\nall gave the same tables: yes\n");
    return 0;
}
