// How often the time of a plan a latest plan of the same ticket takes, and how often the time of a plan of the mirrored
// ticket, which finds the same windows: by structure and size, or for each of the ticket files named. The calls take
// turns, ticket by ticket. Before it is timed a latest plan has to be the mirror of what a peer finds for the mirror.
#include <algorithm>
#include <cmath>
#include <cstdio>
#include <cstring>
#include <fstream>
#include <iterator>
#include <map>

#include "../../include/beyunlak.h"
#include "clock.h"
#include "peers.h"

namespace {

constexpr int tickets_each = 6;
constexpr double target = 1.15;
const std::vector<int> sizes = {5, 10, 20, 40};

int turns = 25;
double least_seconds = 0.0005;

Windows mirrored(int64_t horizon, const Windows &windows) {
    Windows mirror;
    for (const Window &w : windows) mirror.push_back({horizon - w.close, horizon - w.open});
    return mirror;
}

struct Call {
    uint32_t (*plan)(const uint8_t *, size_t, uint8_t *, size_t);
    std::vector<uint8_t> bytes;
    double least;

    Windows windows(const Ticket &ticket) const {
        std::vector<uint8_t> out(BEYUNLAK_RECORD_MAX);
        const uint32_t number = plan(bytes.data(), bytes.size(), out.data(), out.size());
        return number == BEYUNLAK_ACCEPTED ? record_windows(ticket, out) : Windows{};
    }

    void measure() {
        static uint8_t out[BEYUNLAK_RECORD_MAX];
        const auto call = [&] { plan(bytes.data(), bytes.size(), out, sizeof out); };
        least = std::min(least, mean_nanoseconds(1, least_seconds, call));
    }
};

// The calls on one ticket: its plan, its latest plan, the plan of its mirror.
std::vector<Call> calls_on(const Ticket &ticket) {
    const auto bytes = ticket_bytes(ticket), mirror = ticket_bytes(mirrored(ticket));
    return {{beyunlak_plan, bytes, 1e18}, {beyunlak_plan_latest, bytes, 1e18}, {beyunlak_plan, mirror, 1e18}};
}

// Whether the three calls give the windows that a peer finds.
bool same(const Ticket &ticket, const std::vector<Call> &calls) {
    const Ticket mirror = mirrored(ticket);
    const Windows early = solve_ssp(make_network(ticket, any_windows(ticket)));
    const Windows late = solve_ssp(make_network(mirror, any_windows(mirror)));
    return calls[0].windows(ticket) == early && calls[1].windows(ticket) == mirrored(ticket.horizon, late) &&
           calls[2].windows(mirror) == late;
}

// Mean times over some tickets, and the greatest ratio of a latest plan to the plan.
struct Row {
    std::string name;
    int events;
    double plan = 0, latest = 0, mirror = 0, worst = 0;
    double ratio() const { return latest / plan; }
};

Row measured(const std::string &name, const std::vector<Ticket> &tickets) {
    std::vector<std::vector<Call>> all;
    for (const Ticket &ticket : tickets) {
        all.push_back(calls_on(ticket));
        if (same(ticket, all.back())) continue;
        std::printf("OTHER WINDOWS: %s n %d\n", name.c_str(), ticket.events());
        std::exit(1);
    }
    for (int turn = 0; turn < turns; turn++) {
        for (auto &calls : all) {
            // another call comes first each time
            for (size_t k = 0; k < calls.size(); k++) calls[(k + static_cast<size_t>(turn)) % calls.size()].measure();
        }
    }
    Row row{name, tickets[0].events()};
    const double parts = static_cast<double>(tickets.size());
    for (const auto &calls : all) {
        row.plan += calls[0].least / parts;
        row.latest += calls[1].least / parts;
        row.mirror += calls[2].least / parts;
        row.worst = std::max(row.worst, calls[1].least / calls[0].least);
    }
    std::printf("| %-10s | %2d | %3zu | %6.0f | %6.0f (%.3f) | %.3f | %6.0f (%.3f) |\n", name.c_str(), row.events,
                tickets[0].rules.size(), row.plan, row.latest, row.ratio(), row.worst, row.mirror, row.latest / row.mirror);
    std::fflush(stdout);
    return row;
}

std::vector<Row> by_structure() {
    std::vector<Row> rows;
    for (const std::string &structure : structures) {
        for (int n : sizes) {
            std::vector<Ticket> tickets;
            for (int seed = 1; seed <= tickets_each; seed++) {
                tickets.push_back(make_ticket(structure, n, usual_rules(structure, n), seed));
            }
            rows.push_back(measured(structure, tickets));
        }
    }
    return rows;
}

std::vector<Row> by_file(const std::vector<std::string> &files) {
    std::vector<Row> rows;
    for (const std::string &path : files) {
        std::ifstream file(path, std::ios::binary);
        const std::vector<uint8_t> bytes((std::istreambuf_iterator<char>(file)), {});
        std::vector<uint8_t> out(BEYUNLAK_RECORD_MAX);
        if (beyunlak_plan(bytes.data(), bytes.size(), out.data(), out.size()) != BEYUNLAK_ACCEPTED) {
            std::printf("%s is left out: it has no plan\n", path.c_str());
            continue;
        }
        rows.push_back(measured(path.substr(path.find_last_of('/') + 1), {ticket_of(bytes)}));
    }
    return rows;
}

double mean(const std::vector<Row> &rows, double (*ratio)(const Row &)) {
    double sum = 0;
    for (const Row &row : rows) sum += std::log(ratio(row));
    return std::exp(sum / static_cast<double>(rows.size()));
}

void means(const std::string &what, const std::vector<Row> &rows) {
    const double plan = mean(rows, [](const Row &row) { return row.ratio(); });
    const double mirror = mean(rows, [](const Row &row) { return row.latest / row.mirror; });
    const auto less = [](const Row &a, const Row &b) { return a.ratio() < b.ratio(); };
    const Row worst = *std::max_element(rows.begin(), rows.end(), less);
    std::printf("%s: of a plan %.3f, worst %.3f (%s, n %d); of a plan of the mirror %.3f\n", what.c_str(), plan, worst.ratio(),
                worst.name.c_str(), worst.events, mirror);
}

}  // namespace

int main(int count, char **words) {
    std::vector<std::string> files;
    for (int k = 1; k < count; k++) {
        if (!std::strcmp(words[k], "--short")) turns = 3, least_seconds = 0.0002;
        else files.push_back(words[k]);
    }
    std::printf("\nA latest plan: nanoseconds; in brackets, how often the time of the plan; the same of the worst ticket; and the\n");
    std::printf("plan of the mirrored ticket, in brackets how often its time the latest plan takes\n\n");
    std::printf("| structure  |  n |   m | plan | latest | worst ticket | plan of the mirror |\n|---|---|---|---|---|---|---|\n");
    const std::vector<Row> rows = files.empty() ? by_structure() : by_file(files);
    if (rows.empty()) return 1;
    std::map<int, std::vector<Row>> by_size;
    for (const Row &row : rows) by_size[row.events].push_back(row);
    for (const auto &entry : by_size) means("geometric mean, n " + std::to_string(entry.first), entry.second);
    means("geometric mean, all", rows);
    size_t above = 0;
    for (const Row &row : rows) above += row.ratio() > target;
    std::printf("rows above %.2f of a plan: %zu of %zu\n", target, above, rows.size());
    std::printf("\nevery latest plan is the mirror of a peer's plan of the mirror: yes\n");
    return 0;
}
