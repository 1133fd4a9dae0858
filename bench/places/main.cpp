// The least time of a whole screen of each book, in microseconds, of so many rounds.
#include "../make.hpp"
#include "../proved.hpp"
#include "../timing.hpp"

#include <cstdio>
#include <cstdlib>

int main(int, char **arguments) {
    const int rounds = std::atoi(arguments[1]);
    const std::vector<Book> books = {mesh(8, 16, Ratings::loose),  mesh(8, 16, Ratings::tight), tangle(128, Ratings::loose),
                                     tangle(128, Ratings::tight),  ring(128, 1, Ratings::loose), ring(128, 1, Ratings::tight),
                                     ring(128, 2, Ratings::tight), tree(128)};
    for (const Book &book : books) {
        Lent lent(packed(book), book.count());
        Least least;
        for (int i = 0; i < rounds; ++i) least.add(microseconds([&] { proved_screen(lent); }));
        std::printf("%.0f ", least.time());
    }
    std::printf("\n");
}
