// A screen by somebody else's maximum flow. An Engine holds a graph with a source that feeds every bus and a sink
// that every bus feeds; capacities change between flows and the graph stays.
#pragma once
#include "book.hpp"
#include "verdict.hpp"

#include <algorithm>
#include <cstdlib>

template <class Engine> Verdict judge(Engine &engine, int surplus) {
    int shortage = surplus - engine.solve();
    if (shortage == 0) return {Kind::carries, 0, {}};
    return {Kind::is_short, shortage, engine.group()};
}

template <class Engine> int load(Engine &engine, const Book &book) {
    int surplus = 0;
    for (int bus = 0; bus < book.buses(); ++bus) {
        engine.set_supply(bus, std::max(book.injections[bus], 0));
        engine.set_demand(bus, std::max(-book.injections[bus], 0));
        surplus += std::max(book.injections[bus], 0);
    }
    for (int k = 0; k < book.count(); ++k) engine.set_branch(k, book.limit(k), book.limit(k));
    return surplus;
}

// What the engine says of the loaded base; every loss is still to be judged.
template <class Engine> Screened judged_base(Engine &engine, const Book &book, int surplus) {
    Screened all;
    all.base = judge(engine, surplus);
    all.losses.resize(book.count());
    return all;
}

// Every loss by a flow of the whole network without that branch.
template <class Engine> Screened screen_afresh(const Book &book) {
    Engine engine(book);
    int surplus = load(engine, book);
    Screened all = judged_base(engine, book, surplus);
    if (all.base.shortage > 0) return all;
    for (int k = 0; k < book.count(); ++k) {
        if (!book.branches[k].served) continue;
        engine.set_branch(k, 0, 0);
        all.losses[k] = judge(engine, surplus);
        engine.set_branch(k, book.limit(k), book.limit(k));
    }
    return all;
}

// Every loss by a flow between the ends of that branch alone, over what the base flow leaves of the other branches.
template <class Engine> Screened screen_from_base(const Book &book) {
    Engine engine(book);
    int surplus = load(engine, book);
    Screened all = judged_base(engine, book, surplus);
    if (all.base.shortage > 0) return all;
    std::vector<int> flow = engine.flows();
    for (int bus = 0; bus < book.buses(); ++bus) {
        engine.set_supply(bus, 0);
        engine.set_demand(bus, 0);
    }
    for (int k = 0; k < book.count(); ++k) engine.set_branch(k, book.limit(k) - flow[k], book.limit(k) + flow[k]);
    for (int k = 0; k < book.count(); ++k) {
        const Branch &b = book.branches[k];
        if (!b.served) continue;
        all.losses[k].kind = Kind::carries;
        if (flow[k] == 0) continue;
        int from = flow[k] > 0 ? b.first : b.second;
        int to = flow[k] > 0 ? b.second : b.first;
        engine.set_branch(k, 0, 0);
        engine.set_supply(from, std::abs(flow[k]));
        engine.set_demand(to, std::abs(flow[k]));
        all.losses[k] = judge(engine, std::abs(flow[k]));
        engine.set_supply(from, 0);
        engine.set_demand(to, 0);
        engine.set_branch(k, book.limit(k) - flow[k], book.limit(k) + flow[k]);
    }
    return all;
}
