// A book as plain numbers, and its packed form.
#pragma once
#include <cstdint>
#include <string>
#include <vector>

struct Branch {
    int first;
    int second;
    int kva;
    bool served;
};

struct Book {
    std::string name;
    int power_factor;
    std::vector<int> injections;
    std::vector<Branch> branches;

    int buses() const { return static_cast<int>(injections.size()); }
    int count() const { return static_cast<int>(branches.size()); }
    // In kW; a branch out of service has none.
    int limit(int k) const;
    // Whether other branches in service join the ends of branch k, whatever their limits.
    bool joined(int k) const;
};

std::vector<uint8_t> packed(const Book &book);
