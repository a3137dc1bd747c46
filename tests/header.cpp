// The header in C++: the structs are laid out as in C, all calls link, and refuse a slice of no elements.
#include <type_traits>

#include "yepidlaw.h"

// The functions have the same names.
using Nearest = struct yepidlaw_nearest;
using Even = struct yepidlaw_even;
using Check = struct yepidlaw_check;

static_assert(sizeof(Nearest) == 24 && offsetof(Nearest, error) == 20, "six numbers of 32 bits");
static_assert(sizeof(Even) == 16 && offsetof(Even, worst_step) == 8, "one of 32 bits and one of 64");
static_assert(std::is_same<decltype(Even::worst_step), uint64_t>::value, "the worst step has 64 bits");
static_assert(sizeof(Check) == 8 && offsetof(Check, verdict) == 4, "two numbers of 32 bits");

int main() {
    const uint32_t nearest = yepidlaw_nearest(nullptr, 0, nullptr, 0).refusal;
    const uint32_t even = yepidlaw_even(nullptr, 0, nullptr, 0, nullptr, 0).refusal;
    const uint32_t check = yepidlaw_check(nullptr, 0, nullptr, 0).refusal;
    return nearest == 1 && even == 1 && check == 1 ? 0 : 1;
}
