// Boost Graph's bellman_ford_shortest_paths. Node l is the source: an arc to each synchronizer with its launch. Shortest paths of negated
// weights are longest ones.
#include <boost/graph/adjacency_list.hpp>
#include <boost/graph/bellman_ford_shortest_paths.hpp>
#include <limits>
#include <utility>
#include <vector>

#include "contenders.hpp"
#include "reading.hpp"

uint32_t run_boost(const uint8_t *image, size_t, int64_t *out, size_t, uint32_t *, size_t) {
    using Graph = boost::adjacency_list<boost::vecS, boost::vecS, boost::directedS, boost::no_property, boost::property<boost::edge_weight_t, int64_t>>;
    View v(image);
    std::vector<std::pair<uint32_t, uint32_t>> ends;
    std::vector<int64_t> weights;
    ends.reserve(v.l + v.m);
    weights.reserve(v.l + v.m);
    for (uint32_t i = 0; i < v.l; i++) {
        ends.emplace_back(v.l, i);
        weights.push_back(-v.launch(i));
    }
    for (uint32_t a = 0; a < v.m; a++) {
        // A flip-flop departs at the cycle, whatever arrives.
        if (v.flop(v.to(a))) continue;
        ends.emplace_back(v.from(a), v.to(a));
        weights.push_back(-v.weight(a));
    }
    Graph g(ends.begin(), ends.end(), weights.begin(), v.l + 1);
    std::vector<int64_t> distance(v.l + 1, std::numeric_limits<int64_t>::max());
    distance[v.l] = 0;
    bool settled = boost::bellman_ford_shortest_paths(g, static_cast<int>(v.l + 1), boost::distance_map(distance.data()));
    if (!settled) return GROWING;
    for (uint32_t i = 0; i < v.l; i++) out[i] = -distance[i];
    return TIMED;
}
