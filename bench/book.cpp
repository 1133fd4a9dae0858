// The packed form of a book: fields with the most significant bit first.
#include "book.hpp"

#include <cstdlib>

int Book::limit(int k) const {
    const Branch &b = branches[k];
    return b.served ? static_cast<int>(static_cast<int64_t>(b.kva) * power_factor / 1000) : 0;
}

bool Book::joined(int k) const {
    std::vector<bool> reached(injections.size());
    reached[branches[k].first] = true;
    for (bool grown = true; grown;) {
        grown = false;
        for (int j = 0; j < count(); ++j) {
            const Branch &b = branches[j];
            if (j == k || !b.served || reached[b.first] == reached[b.second]) continue;
            reached[b.first] = reached[b.second] = grown = true;
        }
    }
    return reached[branches[k].second];
}

namespace {

class Packer {
  public:
    void put(int width, uint32_t value) {
        for (int bit = width - 1; bit >= 0; --bit) {
            if (used_ % 8 == 0) bytes_.push_back(0);
            if (value >> bit & 1) bytes_.back() |= 0x80 >> used_ % 8;
            ++used_;
        }
    }
    std::vector<uint8_t> bytes() const { return bytes_; }

  private:
    std::vector<uint8_t> bytes_;
    int used_ = 0;
};

} // namespace

std::vector<uint8_t> packed(const Book &book) {
    Packer p;
    p.put(8, book.buses());
    p.put(9, book.count());
    p.put(10, book.power_factor);
    p.put(5, 0);
    for (int kw : book.injections) {
        p.put(1, kw < 0);
        p.put(20, std::abs(kw));
    }
    for (const Branch &b : book.branches) {
        p.put(7, b.first);
        p.put(7, b.second);
        p.put(20, b.kva);
        p.put(1, b.served);
    }
    return p.bytes();
}
