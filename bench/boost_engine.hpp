// Boost's Boykov-Kolmogorov as an Engine.
#pragma once
#include "book.hpp"
#include "verdict.hpp"

#include <boost/graph/boykov_kolmogorov_max_flow.hpp>
#include <boost/graph/compressed_sparse_row_graph.hpp>

class BoostEngine {
  public:
    explicit BoostEngine(const Book &book);
    void set_supply(int bus, int kw) { capacity_[supply_[bus]] = kw; }
    void set_demand(int bus, int kw) { capacity_[demand_[bus]] = kw; }
    void set_branch(int k, int ahead, int back) {
        capacity_[ahead_[k]] = ahead;
        capacity_[back_[k]] = back;
    }
    int solve();
    // The buses that the source's tree holds at the end.
    Group group() const;
    std::vector<int> flows() const;

  private:
    using Graph = boost::compressed_sparse_row_graph<boost::directedS>;
    using Edge = Graph::edge_descriptor;

    Graph graph_;
    int source_, sink_;
    std::vector<int> capacity_, residual_, distance_, supply_, demand_, ahead_, back_;
    std::vector<Edge> reverse_, before_;
    std::vector<boost::default_color_type> colour_;
};
