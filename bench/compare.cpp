// One round of the proved screen and of every peer, and what each took.
#include "compare.hpp"

#include "boost_engine.hpp"
#include "lemon_engine.hpp"
#include "peer.hpp"

#include <cstdio>

const std::vector<Peer> &Comparison::peers() {
    static const std::vector<Peer> all = {
        {"LEMON, each loss afresh", screen_afresh<LemonEngine>},
        {"LEMON, from the base flow", screen_from_base<LemonEngine>},
        {"Boost, each loss afresh", screen_afresh<BoostEngine>},
        {"Boost, from the base flow", screen_from_base<BoostEngine>},
    };
    return all;
}

Comparison::Comparison(const Book &book)
    : book_(book), lent_(packed(book), book.count()), ours_(shown(proved_screen(lent_), lent_)), peers_(peers().size()) {
    check_islands();
}

void Comparison::round() {
    proved_.add(microseconds([&] { proved_screen(lent_); }));
    for (size_t i = 0; i < peers_.size(); ++i) {
        Screened theirs;
        peers_[i].add(microseconds([&] { theirs = peers()[i].screen(book_); }));
        check_same(peers()[i], theirs);
    }
}

int Comparison::shorts() const {
    int count = 0;
    for (const Verdict &verdict : ours_.losses) count += misses(verdict);
    return count;
}

size_t Comparison::fastest() const {
    size_t best = 0;
    for (size_t i = 1; i < peers_.size(); ++i) {
        if (peers_[i].time() < peers_[best].time()) best = i;
    }
    return best;
}

void Comparison::check_same(const Peer &peer, const Screened &theirs) const {
    bool same = ours_.base == theirs.base;
    for (int k = 0; k < book_.count(); ++k) {
        // A maximum flow doesn't tell which loss would island.
        Verdict ours = ours_.losses[k];
        if (ours.kind == Kind::islands) ours.kind = Kind::is_short;
        if (ours == theirs.losses[k]) continue;
        std::fprintf(stderr, "branch %d: %d kW proved, %d kW by the peer, or another group\n", k,
                     ours_.losses[k].shortage, theirs.losses[k].shortage);
        same = false;
    }
    if (same) return;
    std::fprintf(stderr, "%s: the proved screen and the peer differ (%s)\n", book_.name.c_str(), peer.name);
    std::exit(1);
}

void Comparison::check_islands() const {
    for (int k = 0; k < book_.count(); ++k) {
        if (!misses(ours_.losses[k]) || (ours_.losses[k].kind == Kind::islands) == !book_.joined(k)) continue;
        std::fprintf(stderr, "%s: branch %d is shown as islanding and is joined, or the other way round\n",
                     book_.name.c_str(), k);
        std::exit(1);
    }
}
