// Which records each call writes, by its definition, and what the call took.
#include "calls.hpp"

#include <algorithm>
#include <cstdio>
#include <cstdlib>

namespace {

constexpr int none = -1;

// Of an outage: out of service, byte 0 not 1, touched, or a reroute that names a touched branch. A move of load takes no branch out.
double shortlist(const Book &book, const Lent &before, const Lent &after, int branch) {
    auto touched = [&](int k) { return k == branch || before.flow[k] != after.flow[k]; };
    int listed = 0;
    for (int k = 0; k < book.count(); ++k) {
        bool named = false;
        for (int j = 0; j < book.count(); ++j) named = named || (touched(j) && before.names(k, j));
        listed += !book.branches[k].served || before.table[52 * k] != 1 || touched(k) || named;
    }
    return static_cast<double>(listed) / book.count();
}

// Of a return: the branch itself, and byte 0 not 1.
double anew(const Book &book, const Lent &before, int branch) {
    int listed = 0;
    for (int k = 0; k < book.count(); ++k) listed += k == branch || before.table[52 * k] != 1;
    return static_cast<double>(listed) / book.count();
}

Lent screened(const Book &book) {
    Lent whole(packed(book), book.count());
    proved_screen(whole);
    return whole;
}

} // namespace

Calls Calls::outages(const Book &book) {
    Calls calls(book);
    Lent whole = screened(book);
    for (int branch = 0; branch < book.count(); ++branch) {
        Made out = [branch](Lent &lent) { return proved_take_out(lent, branch); };
        Lent after = whole;
        if (out(after).number == 0) calls.add(out, whole, after, shortlist(book, whole, after, branch));
    }
    return calls;
}

Calls Calls::returns(const Book &book) {
    Calls calls(book);
    Lent whole = screened(book);
    for (int branch = 0; branch < book.count(); ++branch) {
        Made back = [branch](Lent &lent) { return proved_bring_back(lent, branch); };
        Lent before = whole;
        if (proved_take_out(before, branch).number != 0) continue;
        Lent after = before;
        back(after);
        calls.add(back, before, after, anew(book, before, branch));
    }
    return calls;
}

Calls Calls::moves(const Book &book) {
    Calls calls(book);
    Lent whole = screened(book);
    for (int up = 0; up < book.buses(); ++up) {
        int down = (up + book.buses() / 2) % book.buses();
        int kw = std::min(50, -book.injections[up]);
        if (kw <= 0) continue;
        Made move = [up, down, kw](Lent &lent) { return proved_move_load(lent, up, down, kw); };
        Lent after = whole;
        if (move(after).number == 0) calls.add(move, whole, after, shortlist(book, whole, after, none));
    }
    return calls;
}

void Calls::add(const Made &made, const Lent &before, const Lent &after, double share) {
    Lent fresh(after.book, book_.count());
    Answer accepted = proved_screen(fresh);
    Screened called = shown(accepted, after);
    Screened screened = shown(accepted, fresh);
    for (int k = 0; k < book_.count(); ++k) {
        if (accepted.number == 0 && called.losses[k] == screened.losses[k]) continue;
        std::fprintf(stderr, "%s: after call %zu of its kind, record %d differs from a fresh screen's\n",
                     book_.name.c_str(), all_.size(), k);
        std::exit(1);
    }
    all_.push_back({made, share, before, fresh, {}, {}});
}

void Calls::round() {
    for (Call &one : all_) {
        Lent again = one.before;
        one.call.add(microseconds([&] { one.made(again); }));
        one.screen.add(microseconds([&] { proved_screen(one.fresh); }));
    }
}
