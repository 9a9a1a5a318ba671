// A*, which guesses what is left of a path, over a grid. `astar queue|mutex WORKERS SIDE` makes the run that paths.hpp describes.
#include "paths.hpp"

template <class Nodes> bool searches(std::uint32_t workers, std::uint64_t side, std::uint64_t &took) {
    return finds_paths<Nodes>(workers, side, true, took);
}

int main(int, char **argv) {
    return run_program("astar", argv + 1, searches<open_nodes>, searches<locked_nodes>);
}
