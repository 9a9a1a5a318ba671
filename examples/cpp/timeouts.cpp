// Timeouts of requests. A request that is sent sets a timeout, each part of its answer sets that anew, and the last part removes it. So a request
// is either answered or times out, and never both. One thread receives answers, and another waits for timeouts.
#include "flatpq_tasks.hpp"

#include <chrono>
#include <iostream>
#include <map>
#include <string>
#include <thread>

using namespace std::chrono_literals;
using std::chrono::steady_clock;

class requests {
public:
    void send(const std::string &name, steady_clock::duration patience) {
        const auto ticket = timeouts_.push(steady_clock::now() + patience, name).value();
        sent_[name] = {ticket, patience};
    }

    // These return whether the request has not timed out.
    bool receive_part(const std::string &name) {
        auto &it = sent_.at(name);
        const auto moved = timeouts_.reschedule(it.ticket, steady_clock::now() + it.patience);
        it.ticket = moved ? *moved : it.ticket;
        return moved.has_value();
    }
    bool receive_last(const std::string &name) { return timeouts_.remove(sent_.at(name).ticket).has_value(); }

    // Waits for timeouts until the service ends, and no request is left.
    void watch() {
        while (const auto late = timeouts_.take_due()) {
            std::cout << late->payload << ": timed out\n";
        }
    }
    void end() { timeouts_.shut(); }

private:
    struct timeout {
        std::uint64_t ticket;
        steady_clock::duration patience;
    };

    flatpq::task_queue<std::string, steady_clock::time_point> timeouts_{flatpq::options().with_tickets()};
    std::map<std::string, timeout> sent_;
};

int main() {
    requests all;
    all.send("search", 20ms);
    all.send("login", 10s);
    all.send("download", 10s);
    std::thread watcher([&all] { all.watch(); });
    const bool has_logged_in = all.receive_last("login");
    int parts = 0;
    while (parts < 3 && all.receive_part("download")) {
        parts++;
    }
    const bool has_all = all.receive_last("download");
    all.end();
    watcher.join();
    std::cout << "login: " << (has_logged_in ? "answered" : "too late") << '\n';
    std::cout << "download: " << parts << " parts, " << (has_all ? "answered" : "too late") << '\n';
    std::cout << "search: " << (all.receive_last("search") ? "answered" : "too late") << '\n';
}
