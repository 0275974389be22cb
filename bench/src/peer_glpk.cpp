// GLPK's simplex method on the linear program: a column for each open and close, a row for each rule.
#include <glpk.h>

#include <cmath>

#include "peers.h"

Windows solve_glpk(const Network &network) {
    glp_prob *lp = glp_create_prob();
    glp_set_obj_dir(lp, GLP_MAX);
    glp_add_cols(lp, network.nodes() - 1);
    for (int node = 1; node < network.nodes(); node++) {
        const bool fixed = network.low[node] == network.high[node];
        glp_set_col_bnds(lp, node, fixed ? GLP_FX : GLP_DB, network.low[node], network.high[node]);
        glp_set_obj_coef(lp, node, worth(network, node));
    }
    glp_add_rows(lp, static_cast<int>(network.arcs.size()));
    for (size_t k = 0; k < network.arcs.size(); k++) {
        const Arc &arc = network.arcs[k];
        int columns[3], count = 0;
        double values[3];
        if (arc.head != 0) columns[++count] = arc.head, values[count] = 1;
        if (arc.tail != 0) columns[++count] = arc.tail, values[count] = -1;
        glp_set_mat_row(lp, static_cast<int>(k) + 1, count, columns, values);
        glp_set_row_bnds(lp, static_cast<int>(k) + 1, GLP_UP, 0, arc.cost);
    }
    glp_smcp settings;
    glp_init_smcp(&settings);
    settings.msg_lev = GLP_MSG_OFF;
    glp_simplex(lp, &settings);
    std::vector<int64_t> tick(network.nodes(), 0);
    for (int node = 1; node < network.nodes(); node++) tick[node] = std::llround(glp_get_col_prim(lp, node));
    glp_delete_prob(lp);
    return network.windows(tick);
}
