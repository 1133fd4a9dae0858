// LEMON's Preflow as an Engine. The flow runs backward, from the demands to the supplies: the smallest group is then
// known after the first phase, and the second is needed for the base flow alone.
#pragma once
#include "book.hpp"
#include "verdict.hpp"

#include <lemon/preflow.h>
#include <lemon/static_graph.h>

#include <memory>

class LemonEngine {
  public:
    explicit LemonEngine(const Book &book);
    void set_supply(int bus, int kw) { set(supply_[bus], kw); }
    void set_demand(int bus, int kw) { set(demand_[bus], kw); }
    void set_branch(int k, int ahead, int back) {
        set(ahead_[k], ahead);
        set(back_[k], back);
    }
    int solve() {
        preflow_->runMinCut();
        return preflow_->flowValue();
    }
    // The buses that can still reach the supplies. Preflow's own cut is a smallest one in kW, but where several are,
    // not always the one with the smallest group.
    Group group() const;
    std::vector<int> flows();

  private:
    using Graph = lemon::StaticDigraph;
    void set(int arc, int kw) { (*capacity_)[graph_.arc(arc)] = kw; }

    int buses_;
    Graph graph_;
    std::vector<int> supply_, demand_, ahead_, back_;
    // Made once the graph is: LEMON's maps take its size as it stands.
    std::unique_ptr<Graph::ArcMap<int>> capacity_;
    std::unique_ptr<lemon::Preflow<Graph>> preflow_;
};
