// LEMON's BellmanFord. Node l is the source: an arc to each synchronizer with its launch. Shortest paths of negated weights are longest ones.
#include <lemon/bellman_ford.h>
#include <lemon/smart_graph.h>

#include "contenders.hpp"
#include "reading.hpp"

uint32_t run_lemon(const uint8_t *image, size_t, int64_t *out, size_t, uint32_t *, size_t) {
    using Graph = lemon::SmartDigraph;
    View v(image);
    Graph g;
    g.reserveNode(static_cast<int>(v.l + 1));
    g.reserveArc(static_cast<int>(v.l + v.m));
    for (uint32_t i = 0; i <= v.l; i++) g.addNode();
    Graph::ArcMap<int64_t> length(g);
    Graph::Node source = g.nodeFromId(static_cast<int>(v.l));
    for (uint32_t i = 0; i < v.l; i++) length[g.addArc(source, g.nodeFromId(static_cast<int>(i)))] = -v.launch(i);
    for (uint32_t a = 0; a < v.m; a++) {
        // A flip-flop departs at the cycle, whatever arrives.
        if (v.flop(v.to(a))) continue;
        length[g.addArc(g.nodeFromId(static_cast<int>(v.from(a))), g.nodeFromId(static_cast<int>(v.to(a))))] = -v.weight(a);
    }
    lemon::BellmanFord<Graph, Graph::ArcMap<int64_t>> search(g, length);
    search.init();
    search.addSource(source);
    if (!search.checkedStart()) return GROWING;
    for (uint32_t i = 0; i < v.l; i++) out[i] = -search.dist(g.nodeFromId(static_cast<int>(i)));
    return TIMED;
}
