// The proved screen, outage call, return and move of load, as this program calls them.
#pragma once
#include "verdict.hpp"

#include <cstddef>
#include <vector>

// What the calls are lent: a packed book, a flow and a table.
struct Lent {
    explicit Lent(std::vector<uint8_t> packed_book, int branches)
        : book(std::move(packed_book)), flow(branches), table(52 * branches) {}
    std::vector<uint8_t> book;
    std::vector<int32_t> flow;
    std::vector<uint8_t> table;

    int branches() const { return static_cast<int>(flow.size()); }
    // The record's reroute names branch j.
    bool names(int record, int j) const { return table[52 * record + 20 + j / 8] >> (7 - j % 8) & 1; }
};

// The number of the answer: 0 is accepted, 12 comes with a shortage and a group, 4 and 5 with the item and the field that are wrong.
struct Answer {
    int number;
    uint32_t shortage;
    Group group;
    size_t item;
    uint8_t field;
};

Answer proved_screen(Lent &lent);
Answer proved_take_out(Lent &lent, int branch);
Answer proved_bring_back(Lent &lent, int branch);
Answer proved_move_load(Lent &lent, int up, int down, int kw);

// The answer and the records, as verdicts.
Screened shown(const Answer &answer, const Lent &lent);
