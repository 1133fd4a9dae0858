// Books of several shapes, made from fixed seeds: the same in every run.
#pragma once
#include "book.hpp"

enum class Ratings { tight, loose };

// Rows and columns that close on themselves: two branches a bus.
Book mesh(int rows, int columns, Ratings ratings);
// As many branches as the mesh of that many buses, between buses picked at random, all joined.
Book tangle(int buses, Ratings ratings);
// Every bus joined to the next by `parallel` branches.
Book ring(int buses, int parallel, Ratings ratings);
// Every bus fed over one branch from a bus before it, and the first one supplies all.
Book tree(int buses);
