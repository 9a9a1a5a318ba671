// A source file without exceptions in a program that has them, results.cpp: here value() ends the program.
#include "flatpq.hpp"

void takes_value_without_exceptions();

void takes_value_without_exceptions() {
    using of = flatpq::result<flatpq::item<>>;
    flatpq::item<> &(of::*volatile value)() & = &of::value;
    of none(flatpq::code::gone);
    (none.*value)();
}
