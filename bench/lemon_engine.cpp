// The graph of LEMON's engine, and the flow that it found.
#include "lemon_engine.hpp"

#include "arcs.hpp"

LemonEngine::LemonEngine(const Book &book) : buses_(book.buses()) {
    int source = book.buses();
    int sink = book.buses() + 1;
    std::vector<Arc> arcs;
    for (int bus = 0; bus < book.buses(); ++bus) {
        arcs.push_back({bus, source});
        arcs.push_back({sink, bus});
    }
    for (const Branch &b : book.branches) {
        arcs.push_back({b.second, b.first});
        arcs.push_back({b.first, b.second});
    }
    Ordered ordered = by_start(arcs);
    graph_.build(book.buses() + 2, ordered.arcs.begin(), ordered.arcs.end());
    auto next = ordered.place.begin();
    for (int bus = 0; bus < book.buses(); ++bus) {
        supply_.push_back(*next++);
        demand_.push_back(*next++);
    }
    for (int k = 0; k < book.count(); ++k) {
        ahead_.push_back(*next++);
        back_.push_back(*next++);
    }
    capacity_ = std::make_unique<Graph::ArcMap<int>>(graph_, 0);
    preflow_ = std::make_unique<lemon::Preflow<Graph>>(graph_, *capacity_, graph_.node(sink), graph_.node(source));
}

Group LemonEngine::group() const {
    std::vector<bool> seen(buses_ + 2, false);
    std::vector<int> queue{buses_};
    auto meet = [&](Graph::Node node) {
        int number = graph_.id(node);
        if (!seen[number]) queue.push_back(number);
        seen[number] = true;
    };
    for (size_t at = 0; at < queue.size(); ++at) {
        Graph::Node node = graph_.node(queue[at]);
        for (Graph::InArcIt arc(graph_, node); arc != lemon::INVALID; ++arc) {
            if (preflow_->flow(arc) < (*capacity_)[arc]) meet(graph_.source(arc));
        }
        for (Graph::OutArcIt arc(graph_, node); arc != lemon::INVALID; ++arc) {
            if (preflow_->flow(arc) > 0) meet(graph_.target(arc));
        }
    }
    Group group{};
    for (int bus = 0; bus < buses_; ++bus) {
        if (seen[bus]) add_bus(group, bus);
    }
    return group;
}

std::vector<int> LemonEngine::flows() {
    preflow_->startSecondPhase();
    std::vector<int> all;
    for (size_t k = 0; k < ahead_.size(); ++k) {
        all.push_back(preflow_->flow(graph_.arc(ahead_[k])) - preflow_->flow(graph_.arc(back_[k])));
    }
    return all;
}
