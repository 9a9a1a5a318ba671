// Light load in Rust, by light_rust.rs: the queue by its crate, and, not verified, a Mutex around BinaryHeap and a ring of lines.
// `light_rust KIND THREADS THINK MILLISECONDS` makes the run that light.hpp describes, where KIND is rust-crate, rust-own, rust-mutex or
// rust-parking-lot. The threads of `rust-crate` have joined, and those of `rust-own` call the queue itself. Which of the two mutexes there
// is was chosen when light_rust.rs was built.
#include "light.hpp"

#include <cstdint>
#include <string>
#include <vector>

struct shared;
struct worker;

extern "C" {
shared *shared_open(bool is_crate);
worker *shared_join(const shared *of, std::uint32_t place, bool is_own);
void worker_push(worker *by, item pushed);
bool worker_pop(worker *by, item *first);
void worker_leave(worker *gone);
std::uint64_t shared_close(shared *closed);
}

class rust_queue {
public:
    rust_queue(bool is_crate, bool is_own, std::uint32_t workers) : shared_(shared_open(is_crate)) {
        for (std::uint32_t place = 0; place < workers; ++place) {
            workers_.push_back(shared_join(shared_, place, is_own));
        }
    }

    void push(std::uint32_t by, item pushed) { worker_push(workers_[by], pushed); }

    bool pop(std::uint32_t by, item &first) { return worker_pop(workers_[by], &first); }

    // Closes the queue: how many lines there have been.
    std::uint64_t lines() {
        for (worker *it : workers_) {
            worker_leave(it);
        }
        return shared_close(shared_);
    }

private:
    shared *shared_;
    std::vector<worker *> workers_;
};

int main(int argc, char **argv) {
    light_load of = {};
    const std::string kind = argc < 2 ? "" : argv[1];
    const bool is_own = kind == "rust-own";
    const bool is_crate = kind == "rust-crate" || is_own;
    const bool is_known = is_crate || kind == "rust-mutex" || kind == "rust-parking-lot";
    if (argc != 5 || !is_known || !read_light_load(argv + 2, of)) {
        std::fputs("usage: light_rust rust-crate|rust-own|rust-mutex|rust-parking-lot THREADS THINK MILLISECONDS\n", stderr);
        return 2;
    }
    rust_queue shared(is_crate, is_own, static_cast<std::uint32_t>(of.threads));
    return run_light(argv[1], of, shared);
}
