// The step count by LEMON's network simplex: a matching of greatest weight as a flow of least cost.
//
// Given here, and so not in LEMON's time: reading the frame, the questions, ranks and rows (plain_accept).
// In LEMON's time: building the network and solving it. It gives the step count alone: no lowest costs, no answer frame.
#include "lemon.h"

#include <lemon/network_simplex.h>
#include <lemon/static_graph.h>

#include <utility>
#include <vector>

using lemon::StaticDigraph;
typedef lemon::NetworkSimplex<StaticDigraph, int, int> Simplex;

namespace {

// Nodes are the tree ranks, the spare ranks and the sink. One unit leaves each tree rank: it goes to the sink by a spare
// that covers the tree edge and costs less, or for nothing.
struct Network {
    std::vector<std::pair<int, int>> arcs; // rising by the node that they leave, as StaticDigraph asks
    std::vector<int> costs;
    int trees, spares, sink;

    explicit Network(const plain_job *job)
        : trees(static_cast<int>(job->trees)), spares(static_cast<int>(job->spares)), sink(trees + spares)
    {
        for (int t = 0; t < trees; t++)
            add_tree(job, t);
        for (int s = 0; s < spares; s++)
            add_arc(trees + s, sink, 0);
    }

    void add_arc(int from, int to, int cost)
    {
        arcs.push_back({from, to});
        costs.push_back(cost);
    }

    void add_tree(const plain_job *job, int t)
    {
        int tree_cost = static_cast<int>(plain_cost(job, job->tree[t]));
        add_arc(t, sink, 0);
        for (int s = 0; s < spares; s++) {
            int weight = tree_cost - static_cast<int>(plain_cost(job, job->spare[s]));
            if (weight <= 0)
                break; // the spares after it cost as much or more
            if (job->row[t][s / 64] >> (s % 64) & 1)
                add_arc(t, trees + s, -weight);
        }
    }
};

unsigned solve(const Network &network)
{
    StaticDigraph graph;
    graph.build(network.sink + 1, network.arcs.begin(), network.arcs.end());
    StaticDigraph::ArcMap<int> cost(graph), upper(graph, 1);
    StaticDigraph::NodeMap<int> supply(graph, 0);
    for (int a = 0; a < graph.arcNum(); a++)
        cost[graph.arc(a)] = network.costs[a];
    for (int t = 0; t < network.trees; t++)
        supply[graph.node(t)] = 1;
    supply[graph.node(network.sink)] = -network.trees;
    Simplex simplex(graph);
    simplex.upperMap(upper).costMap(cost).supplyMap(supply).run();
    return static_cast<unsigned>(-simplex.totalCost<int>());
}

} // namespace

unsigned lemon_steps(const plain_job *job)
{
    return solve(Network(job));
}
