// Five measurements in one run, printed as tables: whole screens beside the peers, outage calls, returns and moves of load
// beside fresh screens, and growth with the number of buses. Everything is run once in each round, so that a busy machine slows
// all alike, and the least time of all rounds counts.
#include "calls.hpp"
#include "compare.hpp"
#include "make.hpp"

#include <cstdio>
#include <cstdlib>

namespace {

std::vector<Book> largest() {
    return {mesh(8, 16, Ratings::loose),  mesh(8, 16, Ratings::tight),  tangle(128, Ratings::loose),
            tangle(128, Ratings::tight),  ring(128, 1, Ratings::loose), ring(128, 1, Ratings::tight),
            ring(128, 2, Ratings::tight), tree(128)};
}

std::vector<Book> growing(Ratings ratings) {
    return {mesh(4, 4, ratings), mesh(4, 8, ratings), mesh(8, 8, ratings), mesh(8, 16, ratings)};
}

void print_screens(const std::vector<Comparison> &all) {
    std::printf("## Whole screens\n\nEach peer's time over the proved screen's: above 1 the proved screen is faster.\n\n");
    std::printf("| Book | Buses | Branches | Short | Proved, microseconds |");
    for (const Peer &peer : Comparison::peers()) std::printf(" %s |", peer.name);
    std::printf(" Fastest peer |\n|---|---|---|---|---|---|---|---|---|---|\n");
    for (const Comparison &c : all) {
        const Book &book = c.book();
        std::printf("| %s | %d | %d | %d | %.0f |", book.name.c_str(), book.buses(), book.count(), c.shorts(), c.proved());
        for (size_t i = 0; i < Comparison::peers().size(); ++i) std::printf(" %.2f |", c.ratio(i));
        std::printf(" %.2f |\n", c.ratio(c.fastest()));
    }
}

void print_calls(const char *title, const std::vector<Calls> &books) {
    std::printf("\n## %s Time: the call's over a fresh screen's of the book that it leaves. Share: of the records "
                "that it writes among all records.\n\n",
                title);
    std::printf("| Book | Calls | Mean share | Mean time | Worst time less share | Its share | Its time |\n"
                "|---|---|---|---|---|---|---|\n");
    for (const Calls &book : books) {
        if (book.all().empty()) continue;
        double count = book.all().size(), share = 0, time = 0;
        const Call *worst = &book.all().front();
        for (const Call &one : book.all()) {
            share += one.share / count;
            time += one.time() / count;
            if (one.above() > worst->above()) worst = &one;
        }
        std::printf("| %s | %.0f | %.3f | %.3f | %+.3f | %.3f | %.3f |\n", book.book().name.c_str(), count, share, time,
                    worst->above(), worst->share, worst->time());
    }
}

void print_growth(const char *title, const std::vector<Comparison> &all) {
    std::printf("\n## Growth of the %s\n\n", title);
    std::printf("| Buses | Branches | Proved, microseconds | Over the row before | Fastest peer over proved | Fastest peer |\n"
                "|---|---|---|---|---|---|\n");
    double before = 0;
    for (const Comparison &c : all) {
        std::printf("| %d | %d | %.1f |", c.book().buses(), c.book().count(), c.proved());
        before > 0 ? std::printf(" %.2f |", c.proved() / before) : std::printf(" |");
        std::printf(" %.2f | %s |\n", c.ratio(c.fastest()), Comparison::peers()[c.fastest()].name);
        before = c.proved();
    }
}

template <class Each> std::vector<Each> each(const std::vector<Book> &books) { return {books.begin(), books.end()}; }

template <class Each> void round(std::vector<Each> &all) {
    for (Each &one : all) one.round();
}

} // namespace

int main(int count, char **words) {
    int rounds = count > 1 ? std::atoi(words[1]) : 40;
    auto screens = each<Comparison>(largest());
    auto loose = each<Comparison>(growing(Ratings::loose));
    auto tight = each<Comparison>(growing(Ratings::tight));
    std::vector<Calls> outages, returns, moves;
    for (const Book &book : largest()) {
        outages.push_back(Calls::outages(book));
        returns.push_back(Calls::returns(book));
        moves.push_back(Calls::moves(book));
    }
    for (int i = 0; i < rounds; ++i) {
        round(screens);
        round(loose);
        round(tight);
        // Many calls a book, so that few rounds of them take as long.
        if (i % 4 == 0) round(outages);
        if (i % 4 == 1) round(moves);
        if (i % 4 == 2) round(returns);
    }
    print_screens(screens);
    print_calls("Outage calls\n\nEach branch that can be taken out is, from the same screen.", outages);
    print_calls("Returns\n\nEach of these branches is brought back, from what its outage left.", returns);
    print_calls("Moves of load\n\nA pump of each bus that takes power, of its load or 50 kW, is moved to the bus that stands "
                "half the numbers away, from the same screen.",
                moves);
    print_growth("loose mesh", loose);
    print_growth("tight mesh", tight);
}
