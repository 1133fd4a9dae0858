// Each book is made round a flow picked at random, so that its base always fits: the injections are what
// that flow leaves at each bus, and a rating is the flow on its branch and some slack.
#include "make.hpp"

#include <cstdlib>
#include <random>

namespace {

constexpr int power_factor = 950;

class Maker {
  public:
    Maker(std::string name, int buses, Ratings ratings) : random_(2024), ratings_(ratings) {
        book_.name = std::move(name);
        book_.power_factor = power_factor;
        book_.injections.assign(buses, 0);
    }

    int pick(int low, int high) { return low + static_cast<int>(random_() % (high - low + 1)); }

    void join(int first, int second, int flow) {
        int slack = ratings_ == Ratings::tight ? pick(0, 100) : 20000;
        int kw = std::abs(flow) + slack;
        int kva = (kw * 1000 + power_factor - 1) / power_factor;
        book_.injections[first] += flow;
        book_.injections[second] -= flow;
        book_.branches.push_back({first, second, kva, true});
    }

    void join(int first, int second) { join(first, second, pick(-1000, 1000)); }

    const Book &book() const { return book_; }

  private:
    std::mt19937 random_;
    Ratings ratings_;
    Book book_;
};

std::string titled(const char *shape, Ratings ratings) {
    return std::string(shape) + (ratings == Ratings::tight ? ", tight" : ", loose");
}

} // namespace

Book mesh(int rows, int columns, Ratings ratings) {
    Maker maker(titled("mesh", ratings), rows * columns, ratings);
    for (int r = 0; r < rows; ++r) {
        for (int c = 0; c < columns; ++c) {
            maker.join(r * columns + c, r * columns + (c + 1) % columns);
            maker.join(r * columns + c, (r + 1) % rows * columns + c);
        }
    }
    return maker.book();
}

Book tangle(int buses, Ratings ratings) {
    Maker maker(titled("tangle", ratings), buses, ratings);
    for (int bus = 1; bus < buses; ++bus) maker.join(maker.pick(0, bus - 1), bus);
    while (maker.book().count() < 2 * buses) {
        int first = maker.pick(0, buses - 1);
        int second = maker.pick(0, buses - 1);
        if (first != second) maker.join(first, second);
    }
    return maker.book();
}

Book ring(int buses, int parallel, Ratings ratings) {
    Maker maker(titled(parallel == 1 ? "ring" : "double ring", ratings), buses, ratings);
    for (int bus = 0; bus < buses; ++bus) {
        for (int i = 0; i < parallel; ++i) maker.join(bus, (bus + 1) % buses);
    }
    return maker.book();
}

Book tree(int buses) {
    // From the leaves to the root, so that what a bus passes on is known when its own branch is made.
    Maker maker("tree, one supply", buses, Ratings::loose);
    std::vector<int> below(buses, 0), parent(buses, 0);
    for (int bus = 1; bus < buses; ++bus) parent[bus] = maker.pick(0, bus - 1);
    for (int bus = buses - 1; bus > 0; --bus) {
        below[bus] += maker.pick(1, 1000);
        below[parent[bus]] += below[bus];
        maker.join(parent[bus], bus, below[bus]);
    }
    return maker.book();
}
