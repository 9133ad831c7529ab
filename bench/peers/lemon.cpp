// LEMON's Dijkstra (a binary heap with decrease-key) on a static graph: GR SS DEPART OUT. Weights are plain.
#include "texts.hpp"
#include <algorithm>
#include <lemon/dijkstra.h>
#include <lemon/static_graph.h>
#include <numeric>

using lemon::StaticDigraph;

int main(int count, char **words) {
    StaticDigraph network;
    StaticDigraph::ArcMap<uint64_t> weights(network);
    return run(count, words, [&](Graph &graph) {
        std::stable_sort(graph.arcs.begin(), graph.arcs.end(), [](const Row &a, const Row &b) { return a.tail < b.tail; });
        std::vector<std::pair<int, int>> ends;
        ends.reserve(graph.arcs.size());
        for (const Row &arc : graph.arcs) ends.push_back({arc.tail - 1, arc.head - 1});
        network.build(graph.nodes, ends.begin(), ends.end());
        for (size_t i = 0; i < graph.arcs.size(); i++) weights[network.arc(i)] = graph.arcs[i].weight;
        return [&](uint32_t source, uint64_t departure) {
            lemon::Dijkstra<StaticDigraph, StaticDigraph::ArcMap<uint64_t>> search(network, weights);
            search.run(network.node(source - 1));
            std::vector<uint64_t> arrivals(graph.nodes, NEVER);
            for (uint32_t node = 0; node < graph.nodes; node++)
                if (search.reached(network.node(node))) arrivals[node] = departure + search.dist(network.node(node));
            return arrivals;
        };
    });
}
