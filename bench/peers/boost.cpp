// Boost's Dijkstra (a heap of degree four with decrease-key) on a graph in compressed rows: GR SS DEPART OUT. Weights are plain.
#include "texts.hpp"
#include <boost/graph/compressed_sparse_row_graph.hpp>
#include <boost/graph/dijkstra_shortest_paths.hpp>
#include <boost/property_map/function_property_map.hpp>
#include <memory>

struct Weight {
    uint64_t weight;
};
using Network = boost::compressed_sparse_row_graph<boost::directedS, boost::no_property, Weight>;

int main(int count, char **words) {
    std::unique_ptr<Network> network;
    return run(count, words, [&](Graph &graph) {
        std::vector<std::pair<uint32_t, uint32_t>> ends;
        std::vector<Weight> weights;
        ends.reserve(graph.arcs.size());
        weights.reserve(graph.arcs.size());
        for (const Row &arc : graph.arcs) {
            ends.push_back({arc.tail - 1, arc.head - 1});
            weights.push_back({arc.weight});
        }
        network = std::make_unique<Network>(boost::edges_are_unsorted_multi_pass, ends.begin(), ends.end(), weights.begin(), graph.nodes);
        return [&](uint32_t source, uint64_t departure) {
            std::vector<uint64_t> arrivals(graph.nodes, NEVER);
            auto index = get(boost::vertex_index, *network);
            boost::dijkstra_shortest_paths(*network, source - 1,
                boost::weight_map(get(&Weight::weight, *network))
                    .distance_map(boost::make_iterator_property_map(arrivals.begin(), index))
                    .predecessor_map(boost::dummy_property_map()).distance_inf(NEVER));
            for (uint64_t &time : arrivals)
                if (time != NEVER) time += departure;
            return arrivals;
        };
    });
}
