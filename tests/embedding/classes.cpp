// Roads of vectors by include/earliest.hpp: the example four-nodes, with timetables and without, and refusals. Exits with 1 if a test fails.
#include <cstdio>

#include "earliest.hpp"

static int failed = 0;

static void test(bool holds, int line) {
    if (!holds) std::fprintf(stderr, "line %d\n", line), failed = 1;
}
#define TEST(holds) test((holds), __LINE__)

int main() {
    const std::vector<std::uint32_t> tails = {1, 1, 3, 2, 3}, heads = {2, 3, 2, 4, 4}, weights = {7, 2, 3, 1, 9}, classes = {0, 0, 0, 1, 0};
    earliest::road plain = earliest::road::of_arcs(4, tails, heads, weights);
    TEST(plain.nodes() == 4 && plain.arcs() == 5);
    earliest::search search(plain);
    TEST(search.from({{1, 0}}).arrivals() == (std::vector<std::uint64_t>{0, 5, 2, 6}));
    TEST(search.walk(4) == (std::vector<std::uint32_t>{2, 3, 4}));
    earliest::latest latest(plain);
    TEST(latest.until({{4, 6}}).departures() == (std::vector<std::uint64_t>{0, 5, 2, 6}));
    TEST(latest.walk(1) == (std::vector<std::uint32_t>{2, 3, 4}) && latest.departure(2) == std::optional<std::uint64_t>(5));
    TEST(latest.from(1, {4, 5}) == std::nullopt && latest.from(1, {4, 7}) == std::optional<std::uint64_t>(1));
    TEST(earliest::latest(plain, false).from(3, {4, 6}) == std::optional<std::uint64_t>(2));
    earliest::road led = plain.prepared();
    TEST(led.nodes() == 4 && led.arcs() == 5 && led.prepared().arcs() == 5);
    earliest::search far(led);
    TEST(far.to({1, 0}, 4) == search.to({1, 0}, 4) && far.walk(4) == search.walk(4) && far.to({4, 0}, 1) == std::nullopt);
    TEST(far.from({{1, 0}}).arrivals() == (std::vector<std::uint64_t>{0, 5, 2, 6}));
    TEST(earliest::latest(led).from(1, {4, 7}) == std::optional<std::uint64_t>(1));
    std::vector<std::uint32_t> order = {3, 1, 4, 2}, twice = {3, 1, 3, 2};
    TEST(earliest::search(plain.prepared(order)).to({1, 0}, 4) == search.to({1, 0}, 4) && led.prepared(order).nodes() == 4);
    try {
        plain.prepared(twice);
        TEST(false);
    } catch (const earliest::failure &refused) {
        TEST(refused.number() == EARLIEST_NO_ORDER);
    }
    TEST(earliest::search(plain.prepared(led)).to({1, 0}, 4) == search.to({1, 0}, 4) && led.prepared(led).nodes() == 4);
    try {
        led.prepared(plain);
        TEST(false);
    } catch (const earliest::failure &refused) {
        TEST(refused.number() == EARLIEST_NO_ORDER);
    }
    std::vector<std::uint32_t> from, to, lengths;
    for (std::uint32_t node = 0; node < 70001; node++)
        for (std::uint32_t step : {1u, 40503u}) from.push_back(node + 1), to.push_back((node * std::uint64_t{40503} + step) % 70001 + 1), lengths.push_back(node % 9 + step % 4);
    earliest::road scattered = earliest::road::of_arcs(70001, from, to, lengths);
    TEST(earliest::search(scattered.laid_out(), false).from({{5, 3}}).arrivals() == earliest::search(scattered, false).from({{5, 3}}).arrivals());
    earliest::road moved = std::move(led);
    TEST(earliest::search(moved, false).to({1, 3}, 4) == std::optional<std::uint64_t>(9));
    try {
        led.prepared();
        TEST(false);
    } catch (const earliest::failure &refused) {
        TEST(refused.number() == EARLIEST_NO_ROAD);
    }
    earliest::road timed = earliest::road::of_arcs(4, tails, heads, weights, classes, "p tp 1 0\nk 1 every 10 0\n");
    earliest::search other(timed);
    // The arc from 2 to 4 is left at 10, so the one from 3 to 4, which takes 9, is as early.
    TEST(other.to({1, 0}, 4) == std::optional<std::uint64_t>(11));
    TEST(earliest::road::of_arcs(1, {}, {}, {}).arcs() == 0);
    try {
        earliest::road::of_arcs(3, tails, heads, weights);
        TEST(false);
    } catch (const earliest::input_failure &fault) {
        TEST(fault.number() == EARLIEST_OUT_OF_RANGE && fault.line() == 5 && fault.text() == 1);
    }
    try {
        earliest::road::of_arcs(4, tails, heads, {1});
        TEST(false);
    } catch (const earliest::failure &refused) {
        TEST(refused.number() == EARLIEST_LENGTHS_DIFFER);
    }
    return failed;
}
