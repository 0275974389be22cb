// Nanoseconds of processor time that the part of a device takes, by structure, for tickets of 40 events and 256 rules
// whose events all belong to that device: beside the plan of the same ticket, and beside LEMON's network simplex on the
// part's network. That has 81 nodes, 40 arcs that order the windows, 160 for the limits 0 and horizon, and 1,640 for the
// distances between any two points.
// What is timed: of a plan and of a part the C function, bytes in and bytes out, the distances among it; the part of a
// device that owns no event of the ticket, which takes the reading and the distances alone; of LEMON a call from the
// ticket, which finds the distances by Floyd's and Warshall's method, and a call from the list of arcs with the distances
// known, once with the making of its graph, as for the other measurements, and once without it, where graph, costs and
// supplies stand ready. LEMON neither reads nor writes bytes.
// The calls take turns, ticket by ticket. Before they are timed they have to give the same windows, and so has another
// solver from the ticket's own rules.
#include <algorithm>
#include <cmath>
#include <cstdio>
#include <cstdlib>
#include <cstring>

#include "../../include/beyunlak.h"
#include "clock.h"
#include "peers.h"

namespace {

constexpr int tickets_each = 6;
constexpr double target = 0.6;

int turns = 15;
double least_seconds = 0.0005;

// The same ticket with a rule for each distance in the place of its own rules; by Floyd's and Warshall's method.
Ticket with_distances(const Ticket &ticket) {
    const int points = ticket.events() + 1;
    std::vector<int64_t> distance(points * points, ticket.horizon);
    const auto at = [&](int i, int j) -> int64_t & { return distance[i * points + j]; };
    for (int i = 0; i < points; i++) at(i, 0) = at(i, i) = 0;
    for (const Rule &rule : ticket.rules) at(rule.from, rule.to) = std::min(at(rule.from, rule.to), rule.bound);
    for (int k = 0; k < points; k++) {
        for (int i = 0; i < points; i++) {
            for (int j = 0; j < points; j++) at(i, j) = std::min(at(i, j), at(i, k) + at(k, j));
        }
    }
    Ticket dense = ticket;
    dense.rules.clear();
    for (int i = 0; i < points; i++) {
        for (int j = 0; j < points; j++) {
            if (i != j) dense.rules.push_back({i, j, at(i, j)});
        }
    }
    return dense;
}

Windows part_windows(const uint8_t *part) {
    const auto number = [](const uint8_t *at) { return at[0] | at[1] << 8 | at[2] << 16 | static_cast<int64_t>(at[3]) << 24; };
    Windows windows;
    const int count = part[0] | part[1] << 8;
    for (int k = 0; k < count; k++) {
        const uint8_t *event = part + BEYUNLAK_PART_LENGTH(k);
        if (event[0] != k + 1) return {};
        windows.push_back({number(event + 1), number(event + 5)});
    }
    return windows;
}

// A call that is measured, and the windows that it gives.
struct Call {
    std::function<void()> ask;
    std::function<Windows()> windows;
    double least = 1e18;

    void measure() { least = std::min(least, mean_nanoseconds(1, least_seconds, ask)); }
};

// The calls on one ticket: plan, part, the part of another device, and where it is installed LEMON from the ticket, LEMON
// from the arcs and LEMON on its finished graph.
enum { plan_call, part_call, distances_call, lemon_ticket, lemon_arcs, lemon_graph };

std::vector<Call> calls_on(const Ticket &ticket) {
    static uint8_t record[BEYUNLAK_RECORD_MAX], part[BEYUNLAK_PART_MAX];
    const auto bytes = ticket_bytes(ticket);
    const uint32_t device = static_cast<uint32_t>(ticket.owners[0]);
    const auto plan = [=] { return beyunlak_plan(bytes.data(), bytes.size(), record, sizeof record); };
    const auto alone = [=] { return beyunlak_part(bytes.data(), bytes.size(), device, part, sizeof part); };
    std::vector<Call> calls;
    calls.push_back({plan, [=] { return plan() ? Windows{} : record_windows(ticket, {record, record + sizeof record}); }});
    calls.push_back({alone, [=] { return alone() ? Windows{} : part_windows(part); }});
    const auto another = [=] { return beyunlak_part(bytes.data(), bytes.size(), (device + 1) % 5, part, sizeof part); };
    calls.push_back({another, [=] { return another() || part[0] || part[1] ? Windows{} : record_windows(ticket, {record, record + sizeof record}); }});
#ifdef HAVE_LEMON
    const Ticket dense = with_distances(ticket);
    const Network network = make_network(dense, any_windows(dense));
    const auto from_ticket = [=] {
        const Ticket found = with_distances(ticket);
        return solve_lemon(make_network(found, any_windows(found)));
    };
    calls.push_back({from_ticket, from_ticket});
    const auto from_arcs = [=] { return solve_lemon(network); };
    const auto finished = lemon_on(network);
    calls.push_back({from_arcs, from_arcs});
    calls.push_back({finished, finished});
#endif
    return calls;
}

int64_t total(const Ticket &ticket, const Windows &windows) {
    int64_t sum = 0;
    for (size_t k = 0; k < windows.size(); k++) {
        sum += BEYUNLAK_WEIGHT(ticket.owners[k]) * (windows[k].close - windows[k].open);
    }
    return sum;
}

std::vector<Call> checked_calls(const std::string &structure, int device, uint64_t seed) {
    const Ticket ticket = of_one_device(full_ticket(structure, seed), device);
    const Windows wanted = solve_ssp(make_network(ticket, any_windows(ticket)));
    const auto calls = calls_on(ticket);
    for (const Call &call : calls) {
        const Windows windows = call.windows();
        if (windows == wanted && total(ticket, windows) == total(ticket, wanted)) continue;
        std::printf("OTHER WINDOWS: %s, device %d, seed %d\n", structure.c_str(), device, static_cast<int>(seed));
        std::exit(1);
    }
    return calls;
}

// Mean times over some tickets of a structure.
struct Row {
    std::string name;
    std::vector<double> times;
    double ratio(size_t call) const { return times[part_call] / times[call]; }
    // of the part without the reading and the distances
    double network_ratio(size_t call) const { return (times[part_call] - times[distances_call]) / times[call]; }
};

Row measured(const std::string &structure, const std::string &name, int device) {
    std::vector<std::vector<Call>> all;
    for (int seed = 1; seed <= tickets_each; seed++) all.push_back(checked_calls(structure, device, seed));
    for (int turn = 0; turn < turns; turn++) {
        for (auto &calls : all) {
            // another call comes first each time
            for (size_t k = 0; k < calls.size(); k++) calls[(k + static_cast<size_t>(turn)) % calls.size()].measure();
        }
    }
    Row row{structure + ", " + name, std::vector<double>(all[0].size(), 0)};
    for (const auto &calls : all) {
        for (size_t k = 0; k < calls.size(); k++) row.times[k] += calls[k].least / tickets_each;
    }
    std::printf("| %-18s | %8.0f (%5.2f) | %8.0f | %8.0f |", row.name.c_str(), row.times[plan_call], row.ratio(plan_call), row.times[part_call],
                row.times[distances_call]);
    for (size_t k = lemon_ticket; k < row.times.size(); k++) {
        std::printf(" %8.0f (%5.2f) |", row.times[k], k == lemon_ticket ? row.ratio(k) : row.network_ratio(k));
    }
    std::printf("\n");
    std::fflush(stdout);
    return row;
}

// Over all rows how much of a call's time this takes, and for a peer in how many rows it is more than asked.
void means(const char *what, const std::vector<Row> &rows, bool peer, const std::function<double(const Row &)> &ratio) {
    double sum = 0;
    for (const Row &row : rows) sum += std::log(ratio(row));
    const Row &worst = *std::max_element(rows.begin(), rows.end(), [&](const Row &a, const Row &b) { return ratio(a) < ratio(b); });
    std::printf("%s: geometric mean %.2f, worst row %.2f (%s)", what, std::exp(sum / static_cast<double>(rows.size())), ratio(worst), worst.name.c_str());
    if (peer) {
        const auto above = std::count_if(rows.begin(), rows.end(), [&](const Row &row) { return ratio(row) > target; });
        std::printf("; above %.2f: %zu of %zu rows", target, static_cast<size_t>(above), rows.size());
    }
    std::printf("\n");
}

}  // namespace

int main(int count, char **words) {
    for (int k = 1; k < count; k++) {
        if (!std::strcmp(words[k], "--short")) turns = 2, least_seconds = 0.0002;
    }
    std::printf("\nThe part of the device that owns all of 40 events: nanoseconds. In brackets, how much of that time the part takes; after lemon's arcs and\n"
                "graph how much the part takes without its reading and its distances.\n\n");
    std::printf("| structure, device  | plan | part | of it reading and distances |");
#ifdef HAVE_LEMON
    std::printf(" lemon from the ticket | lemon from the arcs | lemon on its graph |");
#endif
    std::printf("\n|---|---|---|---|");
#ifdef HAVE_LEMON
    std::printf("---|---|---|");
#endif
    std::printf("\n");
    std::vector<Row> rows;
    for (const std::string &structure : structures) {
        rows.push_back(measured(structure, "camera", BEYUNLAK_CAMERA));
        rows.push_back(measured(structure, "wheel", BEYUNLAK_FILTER_WHEEL));
    }
    std::printf("\n");
    means("part of a plan", rows, false, [](const Row &row) { return row.ratio(plan_call); });
#ifdef HAVE_LEMON
    means("part of lemon from the ticket", rows, true, [](const Row &row) { return row.ratio(lemon_ticket); });
    means("part of lemon from the arcs", rows, true, [](const Row &row) { return row.ratio(lemon_arcs); });
    means("network of lemon from the arcs", rows, true, [](const Row &row) { return row.network_ratio(lemon_arcs); });
    means("network of lemon on its graph", rows, true, [](const Row &row) { return row.network_ratio(lemon_graph); });
#endif
    std::printf("every part has the windows of the plan and of the peers: yes\n");
    return 0;
}
