// Numbers: at random, on the command line, and in what is printed, for the programs in C++.
#ifndef NUMBERS_HPP
#define NUMBERS_HPP

#include <cstddef>
#include <cstdint>
#include <cstdio>
#include <cstdlib>

// Numbers at random, each by a few multiplications, the same of the same seed.
class numbers {
public:
    explicit numbers(std::uint64_t seed) : state_(seed * 0xD1342543DE82EF95) {}

    std::uint64_t any() {
        state_ += 0x9E3779B97F4A7C15;
        std::uint64_t it = state_;
        it = (it ^ it >> 30) * 0xBF58476D1CE4E5B9;
        it = (it ^ it >> 27) * 0x94D049BB133111EB;
        return it ^ it >> 31;
    }

    // A number below this one, which is less than 2^32.
    std::uint64_t below(std::uint64_t bound) { return (any() >> 32) * bound >> 32; }

    // A fraction above 0 and below 1.
    double fraction() { return (static_cast<double>(any() >> 11) + 0.5) / 9007199254740992.0; }

private:
    std::uint64_t state_;
};

// Reads a word: whether it is a number from this one to that one.
inline bool read_number(const char *word, std::uint64_t from, std::uint64_t to, std::uint64_t &number) {
    char *end = nullptr;
    number = word == nullptr ? 0 : std::strtoull(word, &end, 10);
    return word != nullptr && end != word && *end == '\0' && *word != '-' && number >= from && number <= to;
}

// Prints a run of a table: the words, the figures and whether it was sound; and gives 0 where it was.
template <std::size_t Count>
int print_figures(const char *table, const char *kind, const std::uint64_t (&figures)[Count], bool is_sound) {
    std::printf("%s,%s,", table, kind);
    for (const std::uint64_t it : figures) {
        std::printf("%llu,", static_cast<unsigned long long>(it));
    }
    std::printf("audit %s\n", is_sound ? "ok" : "failed");
    return is_sound ? 0 : 1;
}

#endif
