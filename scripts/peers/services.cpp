// What services do beside pushes and pops. `services KIND COUNT` prints `services,KIND,COUNT,NANOSECONDS,audit ok`. Kinds: size, so many
// calls of pq_size by one thread, over 1,000 items; read, a journal of so many lines that is read back; durable, so many pushes by 16
// threads, each of which waits until its entry is on disk, with an archiver that syncs for all that have come; and fsync, so many lines, each
// written and synced for itself. Files are in the folder in which the program runs, and are removed.
#include "c_queues.hpp"
#include "load.hpp"
#include "numbers.hpp"

#include <atomic>
#include <cstdint>
#include <fcntl.h>
#include <string>
#include <thread>
#include <unistd.h>

// A file without a name, once it is open.
class file {
public:
    file() : number_(open("services.journal", O_RDWR | O_CREAT | O_TRUNC, 0600)) {
        need(number_ >= 0 && unlink("services.journal") == 0, "no file was made");
    }
    file(const file &) = delete;
    file &operator=(const file &) = delete;
    ~file() { close(number_); }

    int number() const { return number_; }
    void write_all(const std::string &text) {
        need(write(number_, text.data(), text.size()) == static_cast<ssize_t>(text.size()), "a write failed");
    }
    void sync() { need(fsync(number_) == 0, "a sync failed"); }

private:
    int number_;
};

static std::string text_of(std::uint64_t number) {
    const std::uint64_t pushed = (number + 1) / 2;
    const pq_entry entry = {number, number, 0, number % 2 == 1 ? PQ_PUSH : PQ_POP, PQ_OK, 0, {pushed, pushed}, 0, 0};
    char text[PQ_TEXT_ROOM];
    return {text, pq_text(&entry, text)};
}

static bool size(std::uint64_t count, std::uint64_t &took) {
    pq_queue *queue = nullptr;
    std::uint64_t sum = 0;
    need(pq_open(nullptr, &queue) == PQ_OK, "no queue was opened");
    for (std::uint64_t i = 0; i < 1000; ++i) {
        need(pq_push(pq_own(queue), {i, i}, PQ_FOREVER, nullptr) == PQ_OK, "a push was refused");
    }
    const std::uint64_t began = nanoseconds_now();
    for (std::uint64_t i = 0; i < count; ++i) {
        std::uint64_t items = 0;
        need(pq_size(pq_own(queue), PQ_FOREVER, &items, nullptr) == PQ_OK, "a look was refused");
        sum += items;
    }
    took = nanoseconds_now() - began;
    pq_free(queue, nullptr, nullptr);
    return sum == 1000 * count;
}

static bool read_back(std::uint64_t count, std::uint64_t &took) {
    file journal;
    std::string text;
    for (std::uint64_t number = 1; number <= count; ++number) {
        text += text_of(number);
    }
    journal.write_all(text);
    need(lseek(journal.number(), 0, SEEK_SET) == 0, "no seek");
    pq_journal *read = nullptr;
    std::uint64_t lines = 0;
    const std::uint64_t began = nanoseconds_now();
    const pq_code code = pq_journal_read(journal.number(), &read, &lines, nullptr);
    took = nanoseconds_now() - began;
    pq_journal_free(read);
    return code == PQ_OK && lines == count;
}

static void archive_to(file &to, pq_queue *queue, const std::atomic<bool> &is_over) {
    std::uint64_t archived = 0;
    while (!is_over) {
        pq_journal *journal = nullptr;
        need(pq_archive(pq_own(queue), archived, PQ_FOREVER, &journal) == PQ_OK, "no archive");
        const std::size_t more = pq_count(journal, nullptr);
        if (more > 0) {
            need(pq_write(journal, to.number()) == PQ_OK, "a write failed");
            to.sync();
            archived += more;
        }
        pq_journal_free(journal);
    }
}

static bool durable(std::uint64_t count, std::uint64_t &took) {
    file journal;
    pq_queue *queue = nullptr;
    std::atomic<bool> is_over{false};
    std::atomic<std::uint64_t> next{0};
    need(pq_open(nullptr, &queue) == PQ_OK, "no queue was opened");
    std::thread archiver([&] { archive_to(journal, queue, is_over); });
    const std::uint64_t began = nanoseconds_now();
    run_at_once(16, [&](std::uint32_t) {
        return [&] {
            for (std::uint64_t i = next++; i < count; i = next++) {
                std::uint64_t number = 0;
                need(pq_push(pq_own(queue), {i, i}, PQ_FOREVER, &number) == PQ_OK, "a push was refused");
                need(pq_wait_archived(queue, number, PQ_FOREVER) == PQ_OK, "an entry was not archived");
            }
        };
    });
    took = nanoseconds_now() - began;
    is_over = true;
    archiver.join();
    std::uint64_t items = 0;
    const bool is_sound = pq_size(pq_own(queue), PQ_FOREVER, &items, nullptr) == PQ_OK && items == count;
    pq_free(queue, nullptr, nullptr);
    return is_sound;
}

static bool sync_each(std::uint64_t count, std::uint64_t &took) {
    file journal;
    const std::uint64_t began = nanoseconds_now();
    for (std::uint64_t number = 1; number <= count; ++number) {
        journal.write_all(text_of(number));
        journal.sync();
    }
    took = nanoseconds_now() - began;
    return true;
}

int main(int argc, char **argv) {
    static const struct {
        const char *kind;
        bool (*run)(std::uint64_t count, std::uint64_t &took);
    } kinds[] = {{"size", size}, {"read", read_back}, {"durable", durable}, {"fsync", sync_each}};
    std::uint64_t count = 0;
    std::uint64_t took = 0;
    for (const auto &it : kinds) {
        if (argc == 3 && std::string(argv[1]) == it.kind && read_number(argv[2], 1, 100000000, count)) {
            const bool is_sound = it.run(count, took);
            const std::uint64_t figures[] = {count, took};
            return print_figures("services", argv[1], figures, is_sound);
        }
    }
    std::fputs("usage: services size|read|durable|fsync COUNT\n", stderr);
    return 2;
}
