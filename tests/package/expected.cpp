// The classes of include/earliest.hpp without exceptions: each call returns a value or an error. Exits with 1 if a test fails.
#define EARLIEST_EXPECTED
#include <cstdio>

#include "earliest.hpp"

static int failed = 0;

static void test(bool holds, int line) {
    if (!holds) std::fprintf(stderr, "line %d\n", line), failed = 1;
}
#define TEST(holds) test((holds), __LINE__)

int main() {
    auto road = earliest::road::read("p sp 4 5\na 1 2 7\na 1 3 2\na 3 2 3\na 2 4 1\na 3 4 9\n");
    TEST(road.has_value());
    TEST(*road->nodes() == 4 && *road->arcs() == 5);
    auto search = earliest::search::on(*road);
    TEST(search && search->from({{1, 0}}).has_value());
    TEST(*search->arrivals() == (std::vector<std::uint64_t>{0, 5, 2, 6}));
    TEST(**search->walk(4) == (std::vector<std::uint32_t>{2, 3, 4}));
    TEST(*search->to({1, 0}, 4) == std::optional<std::uint64_t>(6) && *search->to({4, 0}, 1) == std::nullopt);
    TEST(road->check({1}, {0, 0, 0}, "s 1 0\nd 1 0\nd 2 5\nd 3 2\nd 4 6\n").has_value());
    std::vector<std::uint64_t> out(8);
    TEST(search->rows_into({1, 3}, {0}, out).has_value() && out[3] == 6 && out[7] == 4);

    auto prepared = road->prepared();
    TEST(prepared && *prepared->arcs() == 5);
    auto led = earliest::search::on(*prepared);
    TEST(led && *led->to({1, 0}, 4) == std::optional<std::uint64_t>(6) && **led->walk(4) == (std::vector<std::uint32_t>{2, 3, 4}));

    TEST(road->laid_out().error().number == EARLIEST_NOT_WORTH);

    auto ill = earliest::road::read("p sp 2 1\na 1 3 1\n");
    TEST(!ill && ill.error() == (earliest::error{EARLIEST_OUT_OF_RANGE, 2, 1}) && ill.error().message() == "gr 2: a number is out of its range (6 OutOfRange)");
    TEST(earliest::road::of_arcs(2, {1}, {2, 2}, {1}).error().number == EARLIEST_LENGTHS_DIFFER);
    auto wrong = road->check({1}, {0, 0, 0}, "s 1 0\nd 1 1\n");
    TEST(!wrong && wrong.error().text == 3 && wrong.error().number == EARLIEST_BAD_LINE && wrong.error().line == 0);
    TEST(search->from({{9, 0}}).error().number == EARLIEST_NO_SUCH_NODE && search->to({1, earliest::horizon + 1}, 1).error().number == EARLIEST_BEYOND_HORIZON);
    TEST(search->arrivals_into(out).error().number == EARLIEST_ROOM_TOO_SMALL);

    auto moved = std::move(*road);
    TEST(*moved.nodes() == 4 && road->nodes().error().number == EARLIEST_NO_ROAD && earliest::search::on(*road).error().number == EARLIEST_NO_ROAD);
    TEST(road->prepared().error().number == EARLIEST_NO_ROAD && road->laid_out().error().number == EARLIEST_NO_ROAD);
    auto other = std::move(*search);
    TEST(other.from({{1, 0}}) && search->arrivals().error().number == EARLIEST_NO_SEARCH && search->walk(1).error().number == EARLIEST_NO_SEARCH);
    return failed;
}
