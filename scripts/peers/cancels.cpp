// Timers most of which are cancelled: 4 threads set so many in all over so many milliseconds, and cancel nine of ten after a twentieth of that;
// each is due after a quarter, and 2 threads run those. `cancels KIND COUNT MILLISECONDS` prints `cancels,KIND,COUNT,PROCESSOR,KIB,HALF,MOST,audit
// ok`: the nanoseconds of processors, by how much the memory grew, and how late half of the timers ran at most, and 99 of 100. Kinds: removed, the
// queue, from which a cancelled timer is removed by its ticket; marked, the queue without tickets, where it is marked and comes out in its time; and
// tree, a std::mutex around a std::set, from which it is erased, with a condition.
#include "c_queues.hpp"
#include "load.hpp"
#include "numbers.hpp"

#include <algorithm>
#include <atomic>
#include <chrono>
#include <condition_variable>
#include <cstdint>
#include <fstream>
#include <mutex>
#include <set>
#include <string>
#include <sys/resource.h>
#include <utility>
#include <vector>

constexpr std::uint32_t setters = 4, runners = 2;

// A timer: when it is due, and which it is. A cancelled one never runs.
using timer = std::pair<std::uint64_t, std::uint64_t>;

// The queue, as it is opened.
class timers {
public:
    explicit timers(bool has_tickets) {
        pq_options options = {};
        options.tickets = has_tickets;
        need(pq_open(&options, &queue_) == PQ_OK, "no queue was opened");
    }
    timers(const timers &) = delete;
    timers &operator=(const timers &) = delete;
    ~timers() { pq_free(queue_, nullptr, nullptr); }

    // Sets a timer: its ticket.
    std::uint64_t set(const timer &it) {
        std::uint64_t ticket = 0;
        need(pq_push(pq_own(queue_), {it.first, it.second}, PQ_FOREVER, &ticket) == PQ_OK, "a push was refused");
        return ticket;
    }
    // Waits for the next one that is due: whether there is any until the end.
    bool next(timer &it) {
        pq_item item = {0, 0};
        const pq_code code = pq_take_due(pq_own(queue_), &item, PQ_FOREVER, nullptr);
        need(code == PQ_OK || code == PQ_SHUT, "a take was refused");
        it = {item.priority, item.value};
        return code == PQ_OK;
    }
    void end() { pq_shut(queue_); }

protected:
    pq_queue *queue_ = nullptr;
};

struct removed : timers {
    explicit removed(std::uint64_t) : timers(true) {}
    bool cancel(const timer &, std::uint64_t ticket) {
        pq_item item;
        const pq_code code = pq_remove(pq_own(queue_), ticket, &item, PQ_FOREVER, nullptr);
        need(code == PQ_OK || code == PQ_GONE, "a removal was refused");
        return code == PQ_OK;
    }
};

class marked : public timers {
public:
    explicit marked(std::uint64_t count) : timers(false), is_over_(count) {}
    bool cancel(const timer &it, std::uint64_t) { return !is_over_[it.second].exchange(true); }
    bool next(timer &it) {
        bool is_there = timers::next(it);
        while (is_there && is_over_[it.second].exchange(true)) {
            is_there = timers::next(it);
        }
        return is_there;
    }

private:
    std::vector<std::atomic<bool>> is_over_;
};

class tree {
public:
    explicit tree(std::uint64_t) {}
    std::uint64_t set(const timer &it) {
        std::unique_lock<std::mutex> held(lock_);
        const bool is_first = timers_.insert(it).first == timers_.begin();
        held.unlock();
        if (is_first) {
            changed_.notify_one();
        }
        return 0;
    }
    bool cancel(const timer &it, std::uint64_t) {
        const std::lock_guard<std::mutex> held(lock_);
        return timers_.erase(it) == 1;
    }
    bool next(timer &it) {
        std::unique_lock<std::mutex> held(lock_);
        while (timers_.empty() ? !is_over_ : timers_.begin()->first > nanoseconds_now()) {
            if (timers_.empty()) {
                changed_.wait(held);
            } else {
                const std::chrono::nanoseconds due(timers_.begin()->first);
                changed_.wait_until(held, std::chrono::steady_clock::time_point(due));
            }
        }
        const bool is_there = !timers_.empty();
        if (is_there) {
            it = *timers_.begin();
            timers_.erase(timers_.begin());
        }
        return is_there;
    }
    void end() {
        const std::lock_guard<std::mutex> held(lock_);
        is_over_ = true;
        changed_.notify_all();
    }

private:
    std::mutex lock_;
    std::condition_variable changed_;
    std::set<timer> timers_;
    bool is_over_ = false;
};

struct run {
    std::uint64_t count, span, start;
    std::vector<std::uint64_t> tickets, lateness; // of each timer; the program's own
    std::atomic<std::uint64_t> cancelled{0}, ran{0}, setting{setters};

    run(std::uint64_t timers, std::uint64_t milliseconds)
        : count(timers), span(milliseconds * 1000000), start(0), tickets(timers, 1), lateness(timers, UINT64_MAX) {}

    std::uint64_t set_at(std::uint64_t number) const { return start + span * number / count; }
    timer of(std::uint64_t number) const { return {set_at(number) + span / 4, number}; }

    // Sets each fourth timer in its time, and cancels nine of ten of them in theirs.
    template <class Timers> void set(Timers &all, std::uint64_t first) {
        std::uint64_t next = first, old = first;
        while (old < count) {
            const std::uint64_t now = nanoseconds_now();
            for (; next < count && set_at(next) <= now; next += setters) {
                tickets[next] = all.set(of(next));
            }
            for (; old < next && set_at(old) + span / 20 <= now; old += setters) {
                cancelled += old / setters % 10 != 0 && all.cancel(of(old), tickets[old]);
            }
            std::this_thread::sleep_until(std::chrono::steady_clock::time_point(std::chrono::nanoseconds(now + 1000000)));
        }
        if (--setting == 0) {
            all.end();
        }
    }

    template <class Timers> void work(Timers &all) {
        timer it;
        while (all.next(it)) {
            lateness[it.second] = nanoseconds_now() - it.first;
            ++ran;
        }
    }
};

static std::uint64_t nanoseconds_of(const rusage &it) {
    const auto of = [](const timeval &time) { return static_cast<std::uint64_t>(time.tv_sec) * 1000000 + static_cast<std::uint64_t>(time.tv_usec); };
    return 1000 * (of(it.ru_utime) + of(it.ru_stime));
}

// The most memory that this program has had, in KiB: that of getrusage counts what the process that started it had.
static std::uint64_t memory_now() {
    std::ifstream status("/proc/self/status");
    std::uint64_t kib = 0;
    for (std::string word; status >> word;) {
        if (word == "VmHWM:") {
            status >> kib;
        }
    }
    return kib;
}

template <class Timers> static int runs(const char *kind, std::uint64_t count, std::uint64_t milliseconds) {
    run it(count, milliseconds);
    rusage before = {}, after = {};
    std::uint64_t memory = memory_now();
    getrusage(RUSAGE_SELF, &before);
    {
        Timers all(count);
        it.start = nanoseconds_now();
        need(run_at_once(setters + runners, [&](std::uint32_t i) {
            return [&, i] { i < setters ? it.set(all, i) : it.work(all); };
        }), "no barrier was made");
        getrusage(RUSAGE_SELF, &after);
        memory = memory_now() - memory;
    }
    std::sort(it.lateness.begin(), it.lateness.end());
    const std::uint64_t half = it.lateness[it.ran / 2], most = it.lateness[it.ran * 99 / 100];
    const std::uint64_t figures[] = {count, nanoseconds_of(after) - nanoseconds_of(before), memory, half, most};
    return print_figures("cancels", kind, figures, it.ran > 0 && it.ran + it.cancelled == count);
}

int main(int argc, char **argv) {
    static const struct {
        const char *kind;
        int (*run)(const char *kind, std::uint64_t count, std::uint64_t milliseconds);
    } kinds[] = {{"removed", runs<removed>}, {"marked", runs<marked>}, {"tree", runs<tree>}};
    std::uint64_t count = 0, milliseconds = 0;
    for (const auto &it : kinds) {
        const bool is_it = argc == 4 && std::string(argv[1]) == it.kind;
        if (is_it && read_number(argv[2], 100, 10000000, count) && read_number(argv[3], 1, 100000, milliseconds)) {
            return it.run(it.kind, count, milliseconds);
        }
    }
    std::fputs("usage: cancels removed|marked|tree COUNT MILLISECONDS\n", stderr);
    return 2;
}
