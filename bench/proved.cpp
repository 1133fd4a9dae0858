// The four exported functions that are measured: a slice is a pointer and a length, and a place its item and field.
#include "proved.hpp"

#include <algorithm>

extern "C" {
uint8_t callable_screen(uint32_t percent, const uint8_t *book, size_t bytes, int32_t *flow, size_t flows,
                        uint8_t *table, size_t length, uint32_t *shortage, uint8_t *group, size_t *item,
                        uint8_t *field);
uint8_t callable_take_out(uint32_t percent, uint8_t *book, size_t bytes, int32_t *flow, size_t flows, uint8_t *table,
                          size_t length, size_t branch, uint32_t *shortage, uint8_t *group, size_t *item,
                          uint8_t *field);
uint8_t callable_bring_back(uint32_t percent, uint8_t *book, size_t bytes, const int32_t *flow, size_t flows,
                            uint8_t *table, size_t length, size_t branch, uint32_t *shortage, uint8_t *group,
                            size_t *item, uint8_t *field);
uint8_t callable_move_load(uint32_t percent, uint8_t *book, size_t bytes, int32_t *flow, size_t flows, uint8_t *table,
                           size_t length, size_t up, size_t down, uint32_t kw, uint32_t *shortage, uint8_t *group,
                           size_t *item, uint8_t *field);
}

namespace {
// The peers know no percentage.
constexpr uint32_t nameplate = 100;
}

Answer proved_screen(Lent &lent) {
    Answer answer;
    answer.number = callable_screen(nameplate, lent.book.data(), lent.book.size(), lent.flow.data(), lent.flow.size(),
                                    lent.table.data(), lent.table.size(), &answer.shortage, answer.group.data(),
                                    &answer.item, &answer.field);
    return answer;
}

Answer proved_take_out(Lent &lent, int branch) {
    Answer answer;
    answer.number = callable_take_out(nameplate, lent.book.data(), lent.book.size(), lent.flow.data(),
                                      lent.flow.size(), lent.table.data(), lent.table.size(), branch,
                                      &answer.shortage, answer.group.data(), &answer.item, &answer.field);
    return answer;
}

Answer proved_bring_back(Lent &lent, int branch) {
    Answer answer;
    answer.number = callable_bring_back(nameplate, lent.book.data(), lent.book.size(), lent.flow.data(),
                                        lent.flow.size(), lent.table.data(), lent.table.size(), branch,
                                        &answer.shortage, answer.group.data(), &answer.item, &answer.field);
    return answer;
}

Answer proved_move_load(Lent &lent, int up, int down, int kw) {
    Answer answer;
    answer.number = callable_move_load(nameplate, lent.book.data(), lent.book.size(), lent.flow.data(),
                                       lent.flow.size(), lent.table.data(), lent.table.size(), up, down, kw,
                                       &answer.shortage, answer.group.data(), &answer.item, &answer.field);
    return answer;
}

Screened shown(const Answer &answer, const Lent &lent) {
    Screened all;
    all.base.kind = answer.number == 12 ? Kind::is_short : Kind::carries;
    all.base.shortage = answer.shortage;
    all.base.group = answer.group;
    all.losses.resize(lent.branches());
    if (answer.number != 0) return all;
    for (int k = 0; k < lent.branches(); ++k) {
        const uint8_t *record = lent.table.data() + 52 * k;
        Verdict &verdict = all.losses[k];
        verdict.kind = static_cast<Kind>(record[0]);
        verdict.shortage = record[1] << 16 | record[2] << 8 | record[3];
        std::copy(record + 4, record + 20, verdict.group.begin());
    }
    return all;
}
