// Reads a network from standard input, lets LEMON's network simplex find a best circulation, and prints its worth.
// Input: the number of parts of the kind, of nodes and of arcs, then for each arc from, to, capacity, price and weeks.
#include <cstdio>
#include <lemon/network_simplex.h>
#include <lemon/smart_graph.h>
#include <vector>

using lemon::SmartDigraph;
typedef lemon::NetworkSimplex<SmartDigraph, long long, long long> Simplex;

int main() {
    int parts, nodes, count;
    if (std::scanf("%d %d %d", &parts, &nodes, &count) != 3) return 1;
    SmartDigraph graph;
    std::vector<SmartDigraph::Node> node;
    for (int i = 0; i < nodes; ++i) node.push_back(graph.addNode());
    SmartDigraph::ArcMap<long long> capacity(graph), cost(graph), price(graph), weeks(graph);
    // no flow carries as many weeks as a cent weighs
    const long long cent = parts == 2 ? 1LL << 20 : 1;
    for (int i = 0; i < count; ++i) {
        int from, to;
        long long most, cents, counted;
        if (std::scanf("%d %d %lld %lld %lld", &from, &to, &most, &cents, &counted) != 5) return 1;
        SmartDigraph::Arc arc = graph.addArc(node[from], node[to]);
        capacity[arc] = most;
        price[arc] = cents;
        weeks[arc] = counted;
        cost[arc] = -(cents * cent + (parts == 2 ? counted : 0));
    }
    Simplex simplex(graph);
    simplex.upperMap(capacity).costMap(cost);
    if (simplex.run() != Simplex::OPTIMAL) return 1;
    long long money = 0, got = 0;
    for (SmartDigraph::ArcIt arc(graph); arc != lemon::INVALID; ++arc) {
        money += simplex.flow(arc) * price[arc];
        got += simplex.flow(arc) * weeks[arc];
    }
    std::printf("money %lld\n", money);
    if (parts == 2) std::printf("weeks %lld\n", got);
}
