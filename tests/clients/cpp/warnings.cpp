// All parts of the headers, for warnings that no other client is compiled with.
#include "flatpq_tbb.hpp"

#include <chrono>
#include <iostream>
#include <string>

using values = flatpq::detail::values<std::chrono::steady_clock::time_point>;
template class flatpq::detail::calls<values>;
template class flatpq::basic_queue<values>;
template class flatpq::basic_listener<values>;
template class flatpq::basic_due_listener<values>;
template class flatpq::basic_journal<values>;
template class flatpq::detail::payloads<std::string, double>;
template class flatpq::concurrent_priority_queue<double, std::greater<>>;
template class flatpq::concurrent_priority_queue<std::pair<float, std::string>, flatpq::by<&std::pair<float, std::string>::first>>;

int main() {
    flatpq::task_queue<std::string, double> queue(flatpq::options().with_members(8));
    const auto notify = [] {};
    flatpq::task<std::string, double> batch[] = {{1, "a"}, {2, "b"}};
    const auto pushed = queue.push_many(batch).count + queue.push(3, "c").value();
    for (const auto &it : queue.drain(1)) {
        std::cout << it.priority << pushed;
    }
    const auto found = queue.take_or_listen(2, notify).has_value() && queue.pop_due_many(3, 9).has_value();
    auto journal = queue.close().value();
    for (const auto entry : journal) {
        std::cout << entry.number << found;
    }
    for (const auto &it : journal.left()) {
        std::cout << it.payload;
    }
    return 0;
}
