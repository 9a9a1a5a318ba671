// Shortest paths by Dijkstra's search in two threads, in two ways. By lazy deletion a node that is reached for less is pushed once more, and its
// older items are skipped. By decrease-key its item is moved. With the argument `times` the program also prints what each way took.
#include "flatpq.hpp"

#include <atomic>
#include <chrono>
#include <cstdint>
#include <cstring>
#include <iostream>
#include <random>
#include <thread>
#include <vector>

struct edge {
    std::uint32_t to, cost;
};
using graph = std::vector<std::vector<edge>>;

static graph any_graph(std::uint32_t nodes, std::uint32_t edges) {
    graph made(nodes);
    std::mt19937 any;
    for (auto &from : made) {
        for (std::uint32_t i = 0; i < edges; i++) {
            const auto to = static_cast<std::uint32_t>(any() % nodes);
            from.push_back({to, static_cast<std::uint32_t>(1 + any() % 100000)});
        }
    }
    return made;
}

class search {
public:
    search(const graph &of, bool moves) : graph_(of), moves_(moves), open_(flatpq::options().with_tickets(moves)), nodes_(of.size()) {
        reach(0, 0);
    }

    void run() {
        std::thread other([this] { work(); });
        work();
        other.join();
    }
    // The sum of all distances.
    [[nodiscard]] std::uint64_t sum() const {
        std::uint64_t all = 0;
        for (const auto &it : nodes_) {
            all += it.far == not_reached ? 0 : it.far.load();
        }
        return all;
    }
    [[nodiscard]] std::uint64_t pushes() const { return pushes_; }

private:
    static constexpr std::uint64_t not_reached = UINT64_MAX;
    struct node {
        std::atomic<std::uint64_t> far{not_reached}, ticket{0};
    };

    // An item is an open node, by how far it is. The thread that is done with the last one ends the search.
    void work() {
        while (const auto nearest = open_.take()) {
            if (nearest->priority == nodes_[nearest->value].far) {
                for (const auto &it : graph_[nearest->value]) {
                    reach(it.to, nearest->priority + it.cost);
                }
            }
            if (--pending_ == 0) {
                open_.shut();
            }
        }
    }

    void reach(std::uint32_t number, std::uint64_t far) {
        auto &it = nodes_[number];
        auto was = it.far.load();
        while (far < was && !it.far.compare_exchange_weak(was, far)) {
        }
        if (far < was && !(moves_ && was != not_reached && decreases(it, far))) {
            ++pending_;
            ++pushes_;
            it.ticket = open_.push(far, number).value();
        }
    }

    // Where the item was taken, or the other thread moves it at this moment, the node is pushed once more. Where that one has reached the node for
    // less, and has moved the item already, this has moved it back: then it is moved there again.
    bool decreases(node &it, std::uint64_t &far) {
        while (const auto moved = open_.reschedule(it.ticket, far)) {
            it.ticket = *moved;
            const auto now = it.far.load();
            if (now == far) {
                return true;
            }
            far = now;
        }
        return false;
    }

    const graph &graph_;
    bool moves_;
    flatpq::queue<> open_;
    std::vector<node> nodes_;
    std::atomic<std::uint64_t> pending_{0}, pushes_{0};
};

int main(int count, char **words) {
    const bool prints_times = count > 1 && std::strcmp(words[1], "times") == 0;
    const auto any = any_graph(20000, 20);
    for (const bool moves : {false, true}) {
        search it(any, moves);
        const auto began = std::chrono::steady_clock::now();
        it.run();
        const std::chrono::duration<double, std::milli> took = std::chrono::steady_clock::now() - began;
        std::cout << (moves ? "decrease-key" : "lazy deletion") << ": the distances sum up to " << it.sum() << '\n';
        if (prints_times) {
            std::cout << it.pushes() << " pushes, " << took.count() << " ms\n";
        }
    }
}
