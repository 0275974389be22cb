// LEMON's network simplex. Supplies are what a tick more is worth, so its potentials are the windows.
#include <lemon/network_simplex.h>
#include <lemon/smart_graph.h>

#include <memory>
#include <optional>

#include "peers.h"

namespace {

using Graph = lemon::SmartDigraph;

// The graph of a network with its costs and supplies.
struct Simplex {
    Graph graph;
    std::vector<Graph::Node> nodes;
    Graph::ArcMap<int64_t> cost;
    Graph::NodeMap<int64_t> supply;
    std::optional<lemon::NetworkSimplex<Graph, int64_t, int64_t>> simplex;

    explicit Simplex(const Network &network) : cost(graph), supply(graph) {
        graph.reserveNode(network.nodes());
        for (int k = 0; k < network.nodes(); k++) nodes.push_back(graph.addNode());
        const auto add = [&](int tail, int head, int64_t most) { cost[graph.addArc(nodes[tail], nodes[head])] = most; };
        for (const Arc &arc : network.arcs) add(arc.tail, arc.head, arc.cost);
        int64_t rest = 0;
        for (int node = 1; node < network.nodes(); node++) {
            add(0, node, network.high[node]);
            add(node, 0, -network.low[node]);
            supply[nodes[node]] = -worth(network, node);
            rest += worth(network, node);
        }
        supply[nodes[0]] = rest;
        simplex.emplace(graph);
        simplex->costMap(cost).supplyMap(supply);
    }

    Windows windows(const Network &network) {
        if (simplex->run() != simplex->OPTIMAL) return {};
        std::vector<int64_t> tick;
        for (const Graph::Node &node : nodes) tick.push_back(simplex->potential(node));
        return network.windows(tick);
    }
};

}  // namespace

Windows solve_lemon(const Network &network) { return Simplex(network).windows(network); }

std::function<Windows()> lemon_on(const Network &network) {
    const auto simplex = std::make_shared<Simplex>(network);
    return [=] { return simplex->windows(network); };
}
