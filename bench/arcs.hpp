// Arcs in the order that compact graphs want: by where they start.
#pragma once
#include <algorithm>
#include <numeric>
#include <utility>
#include <vector>

using Arc = std::pair<int, int>;

struct Ordered {
    std::vector<Arc> arcs;
    // Where each arc of the list as it was given now stands.
    std::vector<int> place;
};

inline Ordered by_start(const std::vector<Arc> &given) {
    std::vector<int> order(given.size());
    std::iota(order.begin(), order.end(), 0);
    std::stable_sort(order.begin(), order.end(), [&](int a, int b) { return given[a].first < given[b].first; });
    Ordered result;
    result.place.resize(given.size());
    for (int number : order) {
        result.place[number] = static_cast<int>(result.arcs.size());
        result.arcs.push_back(given[number]);
    }
    return result;
}
