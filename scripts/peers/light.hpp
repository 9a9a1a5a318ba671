// What threads do that think between their calls, and what is printed of it, for the programs in C++: each pushes and pops in
// turn for so long, over some 1,000 items, and computes for a while before each call.
//
// A program's words are `THREADS THINK MILLISECONDS`: the think time is the mean of an exponential distribution, in
// nanoseconds. It prints `light,KIND,THREADS,THINK,CALLS,MEAN,HALF,MOST,NEARLY_ALL,WALL,PROCESSOR,SLOWEST,audit ok`, or
// `audit failed` as the last field: of the nanoseconds that a call took the mean, and what 50 of 100 calls took at most, 99, and
// 999 of 1000; nanoseconds of a thread for each call, by the wall and of a processor, think time included; and how many calls
// the slowest thread made, in thousandths of the mean thread's.
#ifndef LIGHT_HPP
#define LIGHT_HPP

#include "heaps.hpp"
#include "load.hpp"
#include "numbers.hpp"

#include <algorithm>
#include <array>
#include <cmath>
#include <cstddef>
#include <cstdint>
#include <vector>

struct light_load {
    std::uint64_t threads, think, milliseconds;
};

// Reads THREADS THINK MILLISECONDS: whether that is such a load.
inline bool read_light_load(char **words, light_load &load) {
    return read_number(words[0], 1, 64, load.threads) && read_number(words[1], 0, 1000000000, load.think) &&
           read_number(words[2], 1, 60000, load.milliseconds) && words[3] == nullptr;
}

// How long calls took: each is counted beside those that took as long but for a 64th at most.
class spread {
public:
    void add(std::uint64_t took) {
        ++counts_[index_of(std::min(took, longest))];
        ++calls_;
        sum_ += took;
    }

    void add(const spread &other) {
        for (std::size_t at = 0; at < counts_.size(); ++at) {
            counts_[at] += other.counts_[at];
        }
        calls_ += other.calls_;
        sum_ += other.sum_;
    }

    std::uint64_t calls() const { return calls_; }
    std::uint64_t mean() const { return sum_ / calls_; }

    // What so many of a thousand calls took at most.
    std::uint64_t at_most(std::uint64_t share) const {
        std::uint64_t left = calls_ * share / 1000;
        std::size_t at = 0;
        while (at + 1 < counts_.size() && counts_[at] <= left) {
            left -= counts_[at++];
        }
        return greatest_of(at);
    }

private:
    static constexpr std::uint64_t longest = (UINT64_C(1) << 40) - 1;

    static std::size_t index_of(std::uint64_t took) {
        const int bits = took < 128 ? 0 : 57 - __builtin_clzll(took);
        return (static_cast<std::size_t>(bits) << 6) + static_cast<std::size_t>(took >> bits);
    }

    static std::uint64_t greatest_of(std::size_t index) {
        const std::size_t bits = index < 128 ? 0 : (index >> 6) - 1;
        return ((index - (bits << 6) + 1) << bits) - 1;
    }

    std::array<std::uint64_t, 64 * 36> counts_ = {};
    std::uint64_t calls_ = 0;
    std::uint64_t sum_ = 0;
};

// What a thread did: how long its calls took, and itself, by the wall and of a processor; the sums of the priorities that it put
// in and took out; how many of its calls were pushes, and whether each pop found an item.
struct lived {
    spread times;
    std::uint64_t wall = 0;
    std::uint64_t processor = 0;
    std::uint64_t in = 0;
    std::uint64_t out = 0;
    std::uint64_t pushes = 0;
    bool found_all = true;
};

inline std::uint64_t processor_nanoseconds_now() {
    timespec now = {};
    clock_gettime(CLOCK_THREAD_CPUTIME_ID, &now);
    return static_cast<std::uint64_t>(now.tv_sec) * 1000000000 + static_cast<std::uint64_t>(now.tv_nsec);
}

// Computes until then: what time it is then.
inline std::uint64_t thought_until(std::uint64_t then) {
    for (;;) {
        const std::uint64_t now = nanoseconds_now();
        if (now >= then) {
            return now;
        }
        __builtin_ia32_pause();
    }
}

inline std::uint64_t exponential(numbers &from, std::uint64_t mean) {
    return static_cast<std::uint64_t>(-std::log(from.fraction()) * static_cast<double>(mean));
}

// Has a thread push and pop by its queue. A call's time begins with the last reading of the clock before it, and ends with the
// next one, which is in it.
template <class Queue> void live(const light_load &of, std::uint32_t worker, Queue &shared, lived &result) {
    lived did;
    numbers any(worker + 1);
    std::uint64_t latest = 0;
    const std::uint64_t processor = processor_nanoseconds_now();
    const std::uint64_t began = nanoseconds_now();
    const std::uint64_t end = began + of.milliseconds * 1000000;
    std::uint64_t now = began;
    for (bool pushes = worker % 2 == 0; now < end; pushes = !pushes) {
        now = of.think > 0 ? thought_until(now + exponential(any, of.think)) : now;
        item it = {latest + any.below(UINT64_C(1) << 24), worker};
        if (pushes) {
            shared.push(worker, it);
            did.in += it.priority;
            ++did.pushes;
        } else {
            did.found_all = shared.pop(worker, it) && did.found_all;
            did.out += it.priority;
            latest = it.priority;
        }
        const std::uint64_t after = nanoseconds_now();
        did.times.add(after - now);
        now = after;
    }
    did.wall = now - began;
    did.processor = processor_nanoseconds_now() - processor;
    result = did;
}

// Whether what threads did left as many items and lines as it should, of the priorities that were pushed. Takes all items out.
template <class Queue> bool is_sound(Queue &shared, const lived &all, bool has_lines, std::uint64_t first) {
    std::uint64_t left = 0;
    std::uint64_t count = 0;
    for (item it; shared.pop(0, it); ++count) {
        left += it.priority;
    }
    const std::uint64_t put = first + all.pushes;
    const std::uint64_t taken = all.times.calls() - all.pushes;
    // (the last of these pops, which found no item, has a line too)
    const std::uint64_t lines = first + all.times.calls() + count + 1;
    return all.found_all && all.in == all.out + left && count == put - taken && (!has_lines || shared.lines() == lines);
}

// Makes a run over a queue, and prints it: 0 where it was sound.
template <class Queue> int run_light(const char *kind, const light_load &of, Queue &shared, bool has_lines = true) {
    const std::uint64_t first = 1000;
    const auto threads = static_cast<std::uint32_t>(of.threads);
    std::vector<lived> did(threads);
    lived all;
    numbers any(0);
    for (std::uint64_t i = 0; i < first; ++i) {
        const item it = {any.below(UINT64_C(1) << 24), i};
        shared.push(0, it);
        all.in += it.priority;
    }
    const auto life_of = [&](std::uint32_t worker) { return [&, worker] { live(of, worker, shared, did[worker]); }; };
    if (!run_at_once(threads, life_of)) {
        return 1;
    }
    std::uint64_t fewest = did[0].times.calls();
    for (const lived &it : did) {
        fewest = std::min(fewest, it.times.calls());
        all.times.add(it.times);
        all.wall += it.wall;
        all.processor += it.processor;
        all.in += it.in;
        all.out += it.out;
        all.pushes += it.pushes;
        all.found_all = all.found_all && it.found_all;
    }
    const std::uint64_t calls = all.times.calls();
    const std::uint64_t figures[] = {of.threads, of.think, calls, all.times.mean(),
                                     all.times.at_most(500), all.times.at_most(990), all.times.at_most(999),
                                     all.wall / calls, all.processor / calls, fewest * 1000 * of.threads / calls};
    return print_figures("light", kind, figures, is_sound(shared, all, has_lines, first));
}

#endif
