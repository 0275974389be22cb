// The peers: each takes a network that has a solution and finds the widest windows and of these the earliest.
#pragma once
#include <functional>

#include "ticket.h"

struct Peer {
    std::string name;
    Windows (*solve)(const Network &network);
};

Windows solve_ssp(const Network &network);
Windows solve_lemon(const Network &network);
Windows solve_glpk(const Network &network);
Windows solve_clp(const Network &network);

// LEMON with graph, costs and supplies made once: each call runs the simplex and reads the windows.
std::function<Windows()> lemon_on(const Network &network);

// What 1 of the total counts against a tick of time. A shift of a set of nodes that raises the total at all raises it by at
// least 1 for each tick it moves, and moves at most 2 n nodes; so with more than 2 n the widest windows come
// first, and the earliest of them second.
inline int64_t total_weight(const Network &network) { return 2 * network.events + 1; }

// What a tick more at this node is worth.
inline int64_t worth(const Network &network, int node) {
    const bool is_close = node > network.events;
    const int64_t width = network.weight[is_close ? node - network.events : node] * total_weight(network);
    return (is_close ? width : -width) - 1;
}
