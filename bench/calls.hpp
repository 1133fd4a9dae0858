// Outage calls, returns and moves of load beside fresh screens of the book that they leave, for one book.
#pragma once
#include "book.hpp"
#include "proved.hpp"
#include "timing.hpp"

#include <functional>

using Made = std::function<Answer(Lent &)>;

// One call. The share is that of the records which it writes among all records.
struct Call {
    Made made;
    double share;
    Lent before;
    Lent fresh;
    Least call;
    Least screen;

    // The call's time over the fresh screen's.
    double time() const { return call.time() / screen.time(); }
    double above() const { return time() - share; }
};

// All calls of one kind on a book. The program ends where a call and a fresh screen differ.
class Calls {
  public:
    // Every branch that can be taken out, each from the same screen of the whole book.
    static Calls outages(const Book &book);
    // Each of these branches brought back, from what its outage left.
    static Calls returns(const Book &book);
    // A pump of every bus that takes power, of its load or 50 kW, moved to the bus that stands half the numbers away, where that can be; each from
    // the same screen of the whole book.
    static Calls moves(const Book &book);
    // Makes every call once.
    void round();

    const Book &book() const { return book_; }
    const std::vector<Call> &all() const { return all_; }

  private:
    explicit Calls(const Book &book) : book_(book) {}
    void add(const Made &made, const Lent &before, const Lent &after, double share);

    Book book_;
    std::vector<Call> all_;
};
