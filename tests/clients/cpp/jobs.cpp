// Jobs with records of their own survive, as the guide says: a program that pushes and does them is killed at random moments, and started
// again. No job that was acknowledged is lost, and none runs again once it was reported as done.
//
// jobs [FOLDER LIFE JOBS]: without words it is the one that kills.
#include "../check.h"
#include "flatpq.hpp"

#include <algorithm>
#include <atomic>
#include <fcntl.h>
#include <filesystem>
#include <fstream>
#include <iterator>
#include <map>
#include <random>
#include <set>
#include <signal.h>
#include <string>
#include <thread>
#include <vector>

using flatpq::code;
using queue = flatpq::queue<>;
namespace files = std::filesystem;

constexpr std::uint64_t a_life = 1000000;

static int opened(const std::string &name, int how) {
    const int file = open(name.c_str(), how | O_CREAT | O_CLOEXEC, 0600);
    CHECK(file >= 0);
    return file;
}

static void synced(const std::string &folder) {
    const int file = open(folder.c_str(), O_RDONLY | O_CLOEXEC);
    CHECK(file >= 0 && fsync(file) == 0 && close(file) == 0);
}

static void renamed(const std::string &from, const std::string &to) {
    files::rename(from, to);
    synced(files::path(to).parent_path());
}

// What the program that kills reads: each job's pushed (P), run (R) and done (D).
static int log_file;

static void says(char what, std::uint64_t job) {
    const auto line = what + std::to_string(job) + '\n';
    CHECK(write(log_file, line.data(), line.size()) == static_cast<ssize_t>(line.size()));
}

// A kill may come between any two steps.
static void steps() {
    sleep_ms(1);
}

// The records of jobs, each of its text.
struct records {
    std::string folder;

    std::string name(std::uint64_t job) const { return folder + '/' + std::to_string(job); }

    void make(std::uint64_t job) const {
        const std::string text = std::to_string(job), beside = folder + "/new-" + text;
        const int file = opened(beside, O_WRONLY | O_TRUNC);
        CHECK(write(file, text.data(), text.size()) == static_cast<ssize_t>(text.size()) && fsync(file) == 0 && close(file) == 0);
        steps();
        renamed(beside, name(job));
        steps();
    }

    // After a cut a job may come out whose record is gone: it is done.
    void run(std::uint64_t job) const {
        std::string text;
        if (std::getline(std::ifstream(name(job)), text)) {
            CHECK(text == std::to_string(job));
            says('R', job);
        }
        steps();
    }

    void end(std::uint64_t job) const {
        files::remove(name(job));
        synced(folder);
        steps();
        says('D', job);
    }
};

// A call that the queue refuses while too many entries wait for the archiver.
template <class Call> static auto retried(Call call) {
    auto result = call();
    for (; result.error() == code::unarchived; result = call()) {
        sleep_ms(1);
    }
    return result;
}

static void archives(queue &all, int file, const std::atomic<bool> &is_over) {
    std::uint64_t archived = 0;
    for (bool is_last = false; !is_last;) {
        is_last = is_over;
        auto journal = all.archive(archived).value();
        if (journal.size() > 0) {
            CHECK(journal.write(file) == code::ok && fsync(file) == 0);
            archived += journal.size();
        } else {
            sleep_ms(1);
        }
    }
    CHECK(all.archive(archived));
}

// Pushes the jobs that the journal of this name leaves, and puts the new journal in its place: these jobs.
static std::set<std::uint64_t> pushed_again(queue &all, const std::string &name, const std::string &beside) {
    std::set<std::uint64_t> left;
    std::uint64_t last = 0;
    const int old = opened(name, O_RDWR);
    auto back = queue::journal::read_from(old);
    CHECK(back && close(old) == 0);
    for (const auto &it : back->left()) {
        left.insert(it.value);
        last = retried([&] { return all.push(it.priority, it.value); }).value();
    }
    CHECK(last == 0 || all.wait_archived(last) == code::ok);
    renamed(beside, name);
    return left;
}

// Runs the jobs whose records no item stands for, and drops records that were not made to the end.
static void runs_others(const records &jobs, const std::set<std::uint64_t> &left) {
    std::vector<std::string> names;
    std::transform(files::directory_iterator(jobs.folder), files::directory_iterator(), std::back_inserter(names),
                   [](const auto &it) { return it.path().filename().string(); });
    for (const auto &name : names) {
        if (name[0] == 'n') {
            files::remove(jobs.folder + '/' + name);
        } else if (left.count(std::stoull(name)) == 0) {
            jobs.run(std::stoull(name));
            jobs.end(std::stoull(name));
        }
    }
}

static void pushes(queue &all, const records &jobs, std::atomic<std::uint64_t> &next, std::uint64_t end) {
    for (std::uint64_t job; (job = next++) < end;) {
        jobs.make(job);
        const auto number = retried([&] { return all.push(job % 7, job); }).value();
        CHECK(all.wait_archived(number) == code::ok);
        says('P', job);
    }
}

static void works(queue &all, const records &jobs) {
    while (const auto taken = retried([&] { return all.take(); })) {
        jobs.run(taken->value);
        CHECK(all.wait_archived(taken.number()) == code::ok);
        jobs.end(taken->value);
    }
}

static int lives(const std::string &folder, std::uint64_t life, std::uint64_t count) {
    const records jobs{folder + "/jobs"};
    const std::string name = folder + "/journal", beside = name + ".new";
    files::create_directory(jobs.folder);
    log_file = opened(folder + "/log", O_WRONLY | O_APPEND);
    queue all(flatpq::options().with_keeping(flatpq::keeping::refuses));
    std::atomic<bool> is_over{false};
    std::atomic<std::uint64_t> next{life * a_life};
    std::thread archiver([&, file = opened(beside, O_WRONLY | O_TRUNC)] { archives(all, file, is_over); });
    runs_others(jobs, pushed_again(all, name, beside));
    std::vector<std::thread> pushers, workers;
    for (int i = 0; i < 3; i++) {
        pushers.emplace_back([&] { pushes(all, jobs, next, life * a_life + count); });
        workers.emplace_back([&] { works(all, jobs); });
    }
    std::for_each(pushers.begin(), pushers.end(), [](auto &it) { it.join(); });
    CHECK(all.shut() == code::ok);
    std::for_each(workers.begin(), workers.end(), [](auto &it) { it.join(); });
    is_over = true;
    archiver.join();
    return 0;
}

// Runs the program once, and kills it after a while; of the last life it waits for the end.
static void lived(const char *program, const std::string &folder, unsigned life, int milliseconds) {
    const std::string number = std::to_string(life), count = milliseconds > 0 ? "100000" : "20";
    const pid_t child = fork();
    int status = 0;
    CHECK(child >= 0);
    if (child == 0) {
        execl(program, program, folder.c_str(), number.c_str(), count.c_str(), nullptr);
        _exit(1);
    }
    if (milliseconds > 0) {
        sleep_ms(milliseconds);
        CHECK(kill(child, SIGKILL) == 0);
    }
    CHECK(waitpid(child, &status, 0) == child && (milliseconds > 0 ? WIFSIGNALED(status) : status == 0));
}

int main(int count, char **words) {
    if (count == 4) {
        return lives(words[1], std::stoull(words[2]), std::stoull(words[3]));
    }
    std::string folder = std::filesystem::temp_directory_path() / "flatpq-jobs-XXXXXX";
    CHECK(mkdtemp(folder.data()) != nullptr);
    std::mt19937 random(std::random_device{}());
    const unsigned kills = requests(30);
    for (unsigned life = 1; life <= kills; life++) {
        lived("/proc/self/exe", folder, life, std::uniform_int_distribution<int>(20, 200)(random));
    }
    lived("/proc/self/exe", folder, kills + 1, 0);
    std::map<std::string, std::string> said;
    std::ifstream log(folder + "/log");
    for (std::string line; std::getline(log, line);) {
        said[line.substr(1)] += line[0];
    }
    for (const auto &[job, what] : said) {
        const auto done = what.find('D');
        CHECK(what.find('R') != what.npos && (done == what.npos || what.find('R', done) == what.npos));
    }
    CHECK(said.size() >= 20 && files::is_empty(folder + "/jobs"));
    files::remove_all(folder);
    return 0;
}
