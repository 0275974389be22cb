// Successive shortest paths: from each open to closes as much flow as its event weighs, along paths found by Dijkstra's
// method on slacks; potentials are ticks. Starts with the test for a schedule, by Bellman's and Ford's.
#include <algorithm>

#include "peers.h"

namespace {

constexpr int64_t far = int64_t{1} << 60;

// Arcs at each node, in one array; the arcs of node v stand at first[v] to first[v + 1] - 1.
struct Star {
    std::vector<int> first, arc;

    Star(int nodes, const std::vector<Arc> &arcs, int Arc::*end) : first(nodes + 1, 0), arc(arcs.size()) {
        for (const Arc &a : arcs) first[a.*end + 1]++;
        for (int node = 0; node < nodes; node++) first[node + 1] += first[node];
        std::vector<int> next(first.begin(), first.end() - 1);
        for (size_t k = 0; k < arcs.size(); k++) arc[next[arcs[k].*end]++] = static_cast<int>(k);
    }
};

std::vector<Arc> with_boxes(const Network &network) {
    std::vector<Arc> arcs = network.arcs;
    arcs.reserve(arcs.size() + 2 * network.nodes());
    for (int node = 1; node < network.nodes(); node++) {
        arcs.push_back({0, node, network.high[node]});
        arcs.push_back({node, 0, -network.low[node]});
    }
    return arcs;
}

struct Flow {
    int nodes;
    std::vector<Arc> arcs;
    Star leaving, arriving;
    std::vector<int64_t> flow, tick, distance;
    std::vector<int> by;     // arc k as 2 k, walked backwards as 2 k + 1
    std::vector<int> ready;  // nodes at the present distance
    std::vector<char> done;

    explicit Flow(const Network &network)
        : nodes(network.nodes()),
          arcs(with_boxes(network)),
          leaving(nodes, arcs, &Arc::tail),
          arriving(nodes, arcs, &Arc::head),
          flow(arcs.size(), 0),
          tick(nodes, far),
          distance(nodes),
          by(nodes),
          done(nodes) {}

    // Ticks that meet every demand; false if there are none.
    bool start() {
        tick[0] = 0;
        bool changed = true;
        for (int round = 0; changed && round <= nodes; round++) {
            changed = false;
            for (const Arc &arc : arcs) {
                if (tick[arc.tail] < far && tick[arc.tail] + arc.cost < tick[arc.head]) {
                    tick[arc.head] = tick[arc.tail] + arc.cost;
                    changed = true;
                }
            }
        }
        return !changed;
    }

    void reach(int node, int64_t now, int64_t slack, int arc) {
        if (now + slack < distance[node]) {
            distance[node] = now + slack;
            by[node] = arc;
            if (slack == 0) ready.push_back(node);
        }
    }

    // A node at the least distance that is not done; -1 if no other is reached.
    int nearest() {
        while (!ready.empty()) {
            const int node = ready.back();
            ready.pop_back();
            if (!done[node]) return node;
        }
        int best = -1;
        for (int node = 0; node < nodes; node++) {
            if (!done[node] && distance[node] < (best < 0 ? far : distance[best])) best = node;
        }
        return best;
    }

    // Shortest slacks from `source` (or to it, where `backwards`), up to a node that `is_goal`; -1 if none is.
    template <bool backwards, class Goal>
    int search(int source, Goal is_goal) {
        std::fill(distance.begin(), distance.end(), far);
        std::fill(done.begin(), done.end(), 0);
        ready.clear();
        distance[source] = 0;
        const Star &with = backwards ? arriving : leaving, &against = backwards ? leaving : arriving;
        for (int node = source; node >= 0; node = nearest()) {
            if (is_goal(node)) return node;
            done[node] = 1;
            const int64_t now = distance[node];
            for (int at = with.first[node]; at < with.first[node + 1]; at++) {
                const Arc &arc = arcs[with.arc[at]];
                const int64_t slack = tick[arc.tail] + arc.cost - tick[arc.head];
                reach(backwards ? arc.tail : arc.head, now, slack, 2 * with.arc[at]);
            }
            for (int at = against.first[node]; at < against.first[node + 1]; at++) {
                const int k = against.arc[at];
                if (flow[k] > 0) reach(backwards ? arcs[k].head : arcs[k].tail, now, 0, 2 * k + 1);
            }
        }
        return -1;
    }

    // Along the path found to `sink`, at most `most` units; how many.
    int64_t send(int source, int sink, int64_t most) {
        const int64_t end = distance[sink];
        for (int node = 0; node < nodes; node++) tick[node] += std::min(distance[node], end);
        const auto before = [&](int node) { return by[node] % 2 ? arcs[by[node] / 2].head : arcs[by[node] / 2].tail; };
        int64_t sent = most;
        for (int node = sink; node != source; node = before(node)) {
            if (by[node] % 2) sent = std::min(sent, flow[by[node] / 2]);
        }
        for (int node = sink; node != source; node = before(node)) flow[by[node] / 2] += by[node] % 2 ? -sent : sent;
        return sent;
    }
};

}  // namespace

Windows solve_ssp(const Network &network) {
    Flow flow(network);
    if (!flow.start()) return {};
    const int n = network.events;
    std::vector<int64_t> wanted(network.nodes(), 0);
    std::copy(network.weight.begin() + 1, network.weight.end(), wanted.begin() + n + 1);
    for (int source = 1; source <= n; source++) {
        for (int64_t units = network.weight[source]; units > 0;) {
            const int sink = flow.search<false>(source, [&](int node) { return wanted[node] != 0; });
            const int64_t sent = flow.send(source, sink, std::min(units, wanted[sink]));
            units -= sent;
            wanted[sink] -= sent;
        }
    }
    flow.search<true>(0, [](int) { return false; });
    for (int node = 0; node < flow.nodes; node++) flow.tick[node] -= flow.distance[node];
    return network.windows(flow.tick);
}
