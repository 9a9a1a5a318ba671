// Dijkstra's search over a grid. `dijkstra queue|mutex WORKERS SIDE` makes the run that paths.hpp describes.
#include "paths.hpp"

template <class Nodes> bool searches(std::uint32_t workers, std::uint64_t side, std::uint64_t &took) {
    return finds_paths<Nodes>(workers, side, false, took);
}

int main(int, char **argv) {
    return run_program("dijkstra", argv + 1, searches<open_nodes>, searches<locked_nodes>);
}
