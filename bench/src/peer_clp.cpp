// CLP's dual simplex method on the linear program: a column for each open and close, a row for each rule.
#include <ClpSimplex.hpp>
#include <CoinPackedMatrix.hpp>
#include <cmath>

#include "peers.h"

Windows solve_clp(const Network &network) {
    const int columns = network.nodes() - 1, rows = static_cast<int>(network.arcs.size());
    std::vector<int> row, column;
    std::vector<double> value, row_low(rows, -COIN_DBL_MAX), row_high(rows);
    for (int k = 0; k < rows; k++) {
        const Arc &arc = network.arcs[k];
        row_high[k] = static_cast<double>(arc.cost);
        const auto add = [&](int node, double coefficient) {
            if (node != 0) row.push_back(k), column.push_back(node - 1), value.push_back(coefficient);
        };
        add(arc.head, 1);
        add(arc.tail, -1);
    }
    std::vector<double> low(columns), high(columns), objective(columns);
    for (int node = 1; node <= columns; node++) {
        low[node - 1] = static_cast<double>(network.low[node]);
        high[node - 1] = static_cast<double>(network.high[node]);
        objective[node - 1] = static_cast<double>(worth(network, node));
    }
    CoinPackedMatrix matrix(true, row.data(), column.data(), value.data(), static_cast<CoinBigIndex>(value.size()));
    matrix.setDimensions(rows, columns);
    ClpSimplex simplex;
    simplex.setLogLevel(0);
    simplex.loadProblem(matrix, low.data(), high.data(), objective.data(), row_low.data(), row_high.data());
    simplex.setOptimizationDirection(-1);
    simplex.dual();
    std::vector<int64_t> tick(network.nodes(), 0);
    for (int node = 1; node <= columns; node++) tick[node] = std::llround(simplex.primalColumnSolution()[node - 1]);
    return network.windows(tick);
}
