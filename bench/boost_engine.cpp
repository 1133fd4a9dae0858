// The graph of Boost's engine, and one flow over it.
#include "boost_engine.hpp"

#include "arcs.hpp"

BoostEngine::BoostEngine(const Book &book)
    : source_(book.buses()), sink_(book.buses() + 1), distance_(book.buses() + 2), before_(book.buses() + 2),
      colour_(book.buses() + 2) {
    // Every arc is followed by its reverse, which Boost asks for; a branch is a reverse of its own other way.
    std::vector<Arc> arcs;
    auto join = [&](int from, int to) { arcs.insert(arcs.end(), {{from, to}, {to, from}}); };
    for (int bus = 0; bus < book.buses(); ++bus) join(source_, bus);
    for (int bus = 0; bus < book.buses(); ++bus) join(bus, sink_);
    for (const Branch &b : book.branches) join(b.first, b.second);
    Ordered ordered = by_start(arcs);
    graph_ = Graph(boost::edges_are_sorted, ordered.arcs.begin(), ordered.arcs.end(), book.buses() + 2);
    std::vector<Edge> edges(boost::edges(graph_).first, boost::edges(graph_).second);
    reverse_.resize(arcs.size());
    for (size_t i = 0; i < arcs.size(); ++i) reverse_[ordered.place[i]] = edges[ordered.place[i ^ 1]];
    auto next = ordered.place.begin();
    for (int bus = 0; bus < book.buses(); ++bus, next += 2) supply_.push_back(*next);
    for (int bus = 0; bus < book.buses(); ++bus, next += 2) demand_.push_back(*next);
    for (int k = 0; k < book.count(); ++k, next += 2) {
        ahead_.push_back(next[0]);
        back_.push_back(next[1]);
    }
    capacity_.assign(arcs.size(), 0);
    residual_.assign(arcs.size(), 0);
}

int BoostEngine::solve() {
    auto numbers = get(boost::edge_index, graph_);
    auto buses = get(boost::vertex_index, graph_);
    return boost::boykov_kolmogorov_max_flow(
        graph_, boost::make_iterator_property_map(capacity_.begin(), numbers),
        boost::make_iterator_property_map(residual_.begin(), numbers),
        boost::make_iterator_property_map(reverse_.begin(), numbers),
        boost::make_iterator_property_map(before_.begin(), buses),
        boost::make_iterator_property_map(colour_.begin(), buses),
        boost::make_iterator_property_map(distance_.begin(), buses), buses, source_, sink_);
}

Group BoostEngine::group() const {
    Group group{};
    for (int bus = 0; bus < source_; ++bus) {
        if (colour_[bus] == boost::black_color) add_bus(group, bus);
    }
    return group;
}

std::vector<int> BoostEngine::flows() const {
    std::vector<int> all;
    for (int edge : ahead_) all.push_back(capacity_[edge] - residual_[edge]);
    return all;
}
