// flatpq: keys in C++17 and later, and the 64-bit numbers by which a queue orders them. flatpq.hpp includes this file.
#ifndef FLATPQ_KEYS_HPP
#define FLATPQ_KEYS_HPP

#include <chrono>
#include <cstdint>
#include <cstring>
#include <ratio>
#include <type_traits>

namespace flatpq {

/// The order of keys of a type: `number` turns a key into its number, and `key` a number into its key. The item with the smallest number
/// comes out first. A program may specialise it for a type of its own, where neither function throws. It is there for
/// - integers of at most 64 bits, and enumerations, in their order;
/// - double and float, in their order. -0.0 counts as 0.0, and comes out as that. All NaNs count as one, which is greater than infinity,
///   and comes out as a quiet one;
/// - durations and time points of std::chrono, by their counts.
///
/// An order whose keys are times, for take_due, also has two constants, as pq_options has them. time_zero is the number of the key that
/// stands for the zero of std::chrono::steady_clock. time_unit is how many nanoseconds a key is later than the one before it.
template <class Key, class = void> struct key_order;

template <class Key> struct key_order<Key, std::enable_if_t<std::is_integral_v<Key> && sizeof(Key) <= sizeof(std::uint64_t)>> {
    static constexpr std::uint64_t number(Key key) noexcept {
        return std::is_signed_v<Key> ? static_cast<std::uint64_t>(key) ^ top : static_cast<std::uint64_t>(key);
    }
    static constexpr Key key(std::uint64_t number) noexcept {
        return static_cast<Key>(std::is_signed_v<Key> ? number ^ top : number);
    }

private:
    // With this bit turned, negative numbers come first.
    static constexpr std::uint64_t top = std::uint64_t{1} << 63;
};

template <class Key> struct key_order<Key, std::enable_if_t<std::is_enum_v<Key>>> {
    using order = key_order<std::underlying_type_t<Key>>;
    static constexpr std::uint64_t number(Key key) noexcept { return order::number(static_cast<std::underlying_type_t<Key>>(key)); }
    static constexpr Key key(std::uint64_t number) noexcept { return static_cast<Key>(order::key(number)); }
};

template <> struct key_order<double> {
    static std::uint64_t number(double key) noexcept {
        std::uint64_t bits = 0;
        std::memcpy(&bits, &key, sizeof bits);
        if ((bits & ~top) > infinity) {
            bits = quiet;
        } else if (bits == top) {
            bits = 0;
        }
        return (bits & top) != 0 ? ~bits : bits | top;
    }
    static double key(std::uint64_t number) noexcept {
        const std::uint64_t bits = (number & top) != 0 ? number ^ top : ~number;
        double key = 0;
        std::memcpy(&key, &bits, sizeof key);
        return key;
    }

private:
    static constexpr std::uint64_t top = std::uint64_t{1} << 63, infinity = std::uint64_t{0x7FF} << 52, quiet = std::uint64_t{0xFFF} << 51;
};

template <> struct key_order<float> {
    static std::uint64_t number(float key) noexcept { return key_order<double>::number(static_cast<double>(key)); }
    static float key(std::uint64_t number) noexcept { return static_cast<float>(key_order<double>::key(number)); }
};

template <class Rep, class Period> struct key_order<std::chrono::duration<Rep, Period>> {
    using duration = std::chrono::duration<Rep, Period>;
    static constexpr std::uint64_t number(duration key) noexcept { return key_order<Rep>::number(key.count()); }
    static constexpr duration key(std::uint64_t number) noexcept { return duration(key_order<Rep>::key(number)); }
};

namespace detail {

/// What take_due needs of time points: of those of steady_clock in whole nanoseconds, and of no others.
template <class Clock, class Duration, class = void> struct times {};
template <class Rep, class Period>
struct times<std::chrono::steady_clock, std::chrono::duration<Rep, Period>,
             std::enable_if_t<std::is_integral_v<Rep> && std::ratio_divide<Period, std::nano>::den == 1>> {
    static constexpr std::uint64_t time_zero = key_order<Rep>::number(0), time_unit = std::ratio_divide<Period, std::nano>::num;
};

/// Whether the keys of a type have an order.
template <class Key, class = void> inline constexpr bool are_ordered = false;
template <class Key> inline constexpr bool are_ordered<Key, std::void_t<decltype(sizeof(key_order<Key>))>> = true;

/// Whether the keys of a type are times.
template <class Key, class = void> inline constexpr bool are_times = false;
template <class Key>
inline constexpr bool are_times<Key, std::void_t<decltype(key_order<Key>::time_zero), decltype(key_order<Key>::time_unit)>> = true;

/// Whether an argument is a signed number and the keys are unsigned: a negative one would come out last.
template <class Number, bool = std::is_enum_v<Number> && std::is_convertible_v<Number, long long>>
inline constexpr bool is_signed_number = std::is_arithmetic_v<Number> && std::is_signed_v<Number>;
template <class Number> inline constexpr bool is_signed_number<Number, true> = std::is_signed_v<std::underlying_type_t<Number>>;
template <class Key, class Number> inline constexpr bool is_signed_for = std::is_unsigned_v<Key> && is_signed_number<Number>;
template <class Key, class Number> using if_signed_for = std::enable_if_t<is_signed_for<Key, Number>, int>;

} // namespace detail

template <class Clock, class Duration> struct key_order<std::chrono::time_point<Clock, Duration>> : detail::times<Clock, Duration> {
    using time_point = std::chrono::time_point<Clock, Duration>;
    static constexpr std::uint64_t number(time_point key) noexcept { return key_order<Duration>::number(key.time_since_epoch()); }
    static constexpr time_point key(std::uint64_t number) noexcept { return time_point(key_order<Duration>::key(number)); }
};

} // namespace flatpq

#endif
