// What a screen answers: the base of a book, and the loss of each of its branches.
#pragma once
#include <array>
#include <cstdint>
#include <vector>

// Bus k is bit 7 - k mod 8 of byte k / 8.
using Group = std::array<uint8_t, 16>;

inline void add_bus(Group &group, int bus) { group[bus / 8] |= 0x80 >> bus % 8; }

enum class Kind : uint8_t { out, carries, is_short, islands };

struct Verdict {
    Kind kind = Kind::out;
    int shortage = 0;
    Group group{};
};

inline bool misses(const Verdict &verdict) { return verdict.kind == Kind::is_short || verdict.kind == Kind::islands; }

struct Screened {
    Verdict base;
    std::vector<Verdict> losses;
};

inline bool operator==(const Verdict &a, const Verdict &b) {
    return a.kind == b.kind && a.shortage == b.shortage && a.group == b.group;
}
