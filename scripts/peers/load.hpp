// How the workers of a run work, for the programs in C++.
#ifndef LOAD_HPP
#define LOAD_HPP

#include "load.h"

#include <cstdint>
#include <thread>
#include <utility>
#include <vector>

// Has a worker make its calls: each adds to what it did.
template <class Call> void work(const load &of, worked &result, Call &call) {
    worked did = {};
    did.began = nanoseconds_now();
    for (std::uint32_t number = 0; number < of.pushes + of.pops; ++number) {
        call(number, did);
    }
    did.ended = nanoseconds_now();
    result = did;
}

// Has so many threads run at once, each by the function that is made for it: whether there was a barrier.
template <class FunctionOf> bool run_at_once(std::uint32_t count, FunctionOf function_of) {
    pthread_barrier_t start;
    if (pthread_barrier_init(&start, nullptr, count) != 0) {
        return false;
    }
    std::vector<std::thread> threads;
    for (std::uint32_t i = 0; i < count; ++i) {
        threads.emplace_back([&start, function = function_of(i)]() mutable {
            pthread_barrier_wait(&start);
            function();
        });
    }
    for (std::thread &it : threads) {
        it.join();
    }
    return true;
}

// Has each worker work in a thread of its own, by the call that is made for it: whether there was a barrier.
template <class CallOf> bool run_in_threads(const load &of, worked *results, CallOf call_of) {
    return run_at_once(of.workers, [&of, results, &call_of](std::uint32_t i) {
        return [&of, &result = results[i], call = call_of(i)]() mutable { work(of, result, call); };
    });
}

#endif
