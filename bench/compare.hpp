// The proved screen beside the peers on one book: all must agree, and each is timed.
#pragma once
#include "book.hpp"
#include "proved.hpp"
#include "timing.hpp"

struct Peer {
    const char *name;
    Screened (*screen)(const Book &);
};

// The program ends where a peer answers otherwise than the proved screen.
class Comparison {
  public:
    explicit Comparison(const Book &book);
    // Runs everybody once.
    void round();

    const Book &book() const { return book_; }
    int shorts() const;
    double proved() const { return proved_.time(); }
    static const std::vector<Peer> &peers();
    // Of the peer with that number, over the proved screen's.
    double ratio(size_t peer) const { return peers_[peer].time() / proved_.time(); }
    size_t fastest() const;

  private:
    void check_same(const Peer &peer, const Screened &theirs) const;
    void check_islands() const;

    Book book_;
    Lent lent_;
    Screened ours_;
    Least proved_;
    std::vector<Least> peers_;
};
