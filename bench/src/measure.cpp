// Nanoseconds of processor time a plan and a commitment take, by structure and size, for the library and its
// peers, in one run.
// Every solver has to give the same windows; one that does not is reported and fails the run.
#include <algorithm>
#include <cmath>
#include <cstdio>
#include <cstring>
#include <functional>
#include <map>

#include "clock.h"
#include "peers.h"
#include "plot.h"

#ifdef HAVE_LIBRARY
extern "C" uint32_t beyunlak_plan(const uint8_t *ticket, size_t ticket_len, uint8_t *out, size_t out_len);
extern "C" uint32_t beyunlak_commit(const uint8_t *record, size_t record_len, uint32_t caller, uint32_t event,
                                    uint32_t open, uint32_t close, uint8_t *out, size_t out_len);
#endif

namespace {

constexpr size_t record_limit = 1958;
constexpr int tickets_each = 6;
const std::vector<int> sizes = {5, 10, 20, 40};

// A call on a ticket: planning, or a commitment on a record.
struct Call {
    Ticket ticket;
    std::vector<uint8_t> bytes;
    std::vector<Range> ranges;
    Commitment commitment;
    Windows answer;
};

struct Solver {
    std::string name;
    std::function<Windows(const Call &, bool commit)> solve;
};

int wrong_answers = 0;
int repeats = 5;
double least_seconds = 0.01;

Windows solve_by_peer(const Peer &peer, const Call &call) { return peer.solve(make_network(call.ticket, call.ranges)); }

#ifdef HAVE_LIBRARY
Windows solve_by_library(const Call &call, bool commit) {
    std::vector<uint8_t> out(record_limit);
    const Commitment &c = call.commitment;
    const uint32_t number =
        commit ? beyunlak_commit(call.bytes.data(), call.bytes.size(),
                                 static_cast<uint32_t>(call.ticket.owners[static_cast<size_t>(c.event) - 1]), c.event,
                                 static_cast<uint32_t>(c.open), static_cast<uint32_t>(c.close), out.data(), out.size())
               : beyunlak_plan(call.bytes.data(), call.bytes.size(), out.data(), out.size());
    return number == 0 ? record_windows(call.ticket, out) : Windows{};
}
#endif

std::vector<Solver> solvers() {
    std::vector<Solver> list;
#ifdef HAVE_LIBRARY
    list.push_back({"library", solve_by_library});
#endif
    std::vector<Peer> peers = {{"ssp", solve_ssp}};
#ifdef HAVE_LEMON
    peers.push_back({"lemon", solve_lemon});
#endif
#ifdef HAVE_CLP
    peers.push_back({"clp", solve_clp});
#endif
#ifdef HAVE_GLPK
    peers.push_back({"glpk", solve_glpk});
#endif
    for (const Peer &peer : peers) {
        list.push_back({peer.name, [peer](const Call &call, bool) { return solve_by_peer(peer, call); }});
    }
    return list;
}

// Plans of some tickets of a structure.
std::vector<Call> planning_calls(const std::string &structure, int events, int rules) {
    std::vector<Call> calls;
    for (int seed = 1; seed <= tickets_each; seed++) {
        Call call;
        call.ticket = make_ticket(structure, events, rules, seed);
        call.bytes = ticket_bytes(call.ticket);
        call.ranges = any_windows(call.ticket);
        call.commitment = {0, 0, 0};
        call.answer = solve_ssp(make_network(call.ticket, call.ranges));
        calls.push_back(call);
    }
    return calls;
}

// From each plan a run in which every event in turn commits to the middle third of its window.
std::vector<Call> commitment_calls(const std::vector<Call> &plans) {
    std::vector<Call> calls;
    for (const Call &plan : plans) {
        Windows windows = plan.answer;
        std::vector<bool> committed(windows.size(), false);
        for (size_t k = 0; k < windows.size(); k++) {
            const int64_t third = (windows[k].close - windows[k].open) / 3;
            Call call;
            call.ticket = plan.ticket;
            call.bytes = record_bytes(plan.ticket, windows, committed);
            call.commitment = {static_cast<int>(k) + 1, windows[k].open + third, windows[k].close - third};
            call.ranges = ranges_after(plan.ticket, windows, committed, call.commitment);
            call.answer = solve_ssp(make_network(call.ticket, call.ranges));
            windows = call.answer;
            committed[k] = true;
            calls.push_back(call);
        }
    }
    return calls;
}

void check(const Solver &solver, const std::vector<Call> &calls, bool commit, const std::string &where) {
    for (const Call &call : calls) {
        if (!(solver.solve(call, commit) == call.answer)) {
            wrong_answers++;
            std::printf("OTHER WINDOWS: %s, %s\n", solver.name.c_str(), where.c_str());
            return;
        }
    }
}

// Mean time of a call, in nanoseconds.
double measure(const Solver &solver, const std::vector<Call> &calls, bool commit) {
    return mean_nanoseconds(calls.size(), least_seconds, [&] {
        for (const Call &call : calls) solver.solve(call, commit);
    });
}

// One line of the table: the least of some means, taken in turn; for the peers how often the first solver's time.
std::vector<double> row(const std::vector<Solver> &list, const std::string &name, int events, size_t rules,
                        const std::vector<Call> &calls, bool commit) {
    std::vector<double> times(list.size(), 1e18);
    const std::string where = name + " n " + std::to_string(events) + (commit ? " commitment" : " plan");
    for (const Solver &solver : list) check(solver, calls, commit, where);
    for (int repeat = 0; repeat < repeats; repeat++) {
        for (size_t k = 0; k < list.size(); k++) times[k] = std::min(times[k], measure(list[k], calls, commit));
    }
    std::printf("| %-10s | %2d | %3zu |", name.c_str(), events, rules);
    for (size_t k = 0; k < times.size(); k++) {
        if (k == 0) std::printf(" %9.0f |", times[k]);
        else std::printf(" %9.0f (%.2f) |", times[k], times[k] / times[0]);
    }
    std::printf("\n");
    std::fflush(stdout);
    return times;
}

void head(const std::vector<Solver> &list, const std::string &what) {
    std::printf("\n%s: nanoseconds; in brackets, how often the time of the %s\n\n| structure  |  n |   m |", what.c_str(),
                list[0].name.c_str());
    for (const Solver &solver : list) std::printf(" %s |", solver.name.c_str());
    std::printf("\n|---|---|---|");
    for (size_t k = 0; k < list.size(); k++) std::printf("---|");
    std::printf("\n");
}

// Geometric means over the rows of each size.
struct Means {
    std::map<int, std::vector<std::vector<double>>> rows;

    double mean(int size, size_t solver) const {
        double sum = 0;
        for (const auto &times : rows.at(size)) sum += std::log(times[solver]);
        return std::exp(sum / static_cast<double>(rows.at(size).size()));
    }

    Panel panel(const std::string &title, const std::string &axis, const std::vector<Solver> &list) const {
        Panel panel{title, axis, {}, {}};
        for (const auto &entry : rows) panel.sizes.push_back(entry.first);
        for (size_t k = 0; k < list.size(); k++) {
            Line line{list[k].name, {}};
            for (int size : panel.sizes) line.nanoseconds.push_back(mean(size, k));
            panel.lines.push_back(line);
        }
        return panel;
    }

    void print(const std::vector<Solver> &list, const char *axis) const {
        for (const auto &entry : rows) {
            std::printf("geometric mean, %s %d:", axis, entry.first);
            for (size_t k = 0; k < list.size(); k++) {
                std::printf("  %s %.0f", list[k].name.c_str(), mean(entry.first, k));
                if (k > 0) std::printf(" (%.2f)", mean(entry.first, k) / mean(entry.first, 0));
            }
            std::printf("\n");
        }
    }
};

Means by_structure(const std::vector<Solver> &list, bool commit) {
    Means means;
    head(list, commit ? "A commitment" : "A plan");
    for (const std::string &structure : structures) {
        for (int n : sizes) {
            const auto plans = planning_calls(structure, n, usual_rules(structure, n));
            const auto calls = commit ? commitment_calls(plans) : plans;
            means.rows[n].push_back(row(list, structure, n, plans[0].ticket.rules.size(), calls, commit));
        }
    }
    means.print(list, "n");
    return means;
}

Means by_rules(const std::vector<Solver> &list) {
    Means means;
    head(list, "A plan of 40 events by number of rules");
    for (int rules : {16, 32, 64, 128, 256}) {
        const auto calls = planning_calls("dense", 40, rules);
        means.rows[rules].push_back(row(list, "dense", 40, calls[0].ticket.rules.size(), calls, false));
    }
    return means;
}

}  // namespace

int main(int count, char **words) {
    std::string plot;
    for (int k = 1; k < count; k++) {
        if (!std::strcmp(words[k], "--short")) repeats = 1, least_seconds = 0.001;
        if (!std::strcmp(words[k], "--plot") && k + 1 < count) plot = words[++k];
    }
    const auto list = solvers();
    const Means plans = by_structure(list, false);
    const Means commitments = by_structure(list, true);
    const Means rules = by_rules(list);
    if (!plot.empty()) {
        const bool written = write_plot(plot, {plans.panel("a plan", "events", list),
                                               commitments.panel("a commitment", "events", list),
                                               rules.panel("a plan, 40 events", "rules", list)});
        std::printf("%s %s\n", written ? "picture in" : "cannot write", plot.c_str());
    }
    std::printf("\nevery solver gave the same windows: %s\n", wrong_answers == 0 ? "yes" : "NO");
    return wrong_answers == 0 ? 0 : 1;
}
