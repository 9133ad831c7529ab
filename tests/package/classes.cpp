// The classes of include/earliest.hpp with exceptions: happy paths, refusals, what moves leave behind, long walks, rows by threads, one search in
// two threads. Exits with 1 if a test fails, after its line.
#include <array>
#include <atomic>
#include <cstdio>
#include <functional>
#include <numeric>
#include <string>
#include <thread>
#include <utility>

#include "earliest.h"

// What is done once before a call of earliest.h that reads an answer, so after the call that made it.
static std::function<void()> between;
template <class Read, class... Arguments> static std::uint32_t after_between(Read read, Arguments... arguments) {
    if (auto now = std::exchange(between, nullptr)) now();
    return read(arguments...);
}
#undef earliest_search_arrival
#define earliest_search_arrival(...) after_between(earliest_search_arrival_alone, __VA_ARGS__)
#undef earliest_search_arrivals
#define earliest_search_arrivals(...) after_between(earliest_search_arrivals_alone, __VA_ARGS__)
#undef earliest_search_answers
#define earliest_search_answers(...) after_between(earliest_search_answers_alone, __VA_ARGS__)
#undef earliest_search_departure
#define earliest_search_departure(...) after_between(earliest_search_departure_alone, __VA_ARGS__)

#include "earliest.hpp"

static int failed = 0;

static void test(bool holds, int line) {
    if (!holds) std::fprintf(stderr, "line %d\n", line), failed = 1;
}
#define TEST(holds) test((holds), __LINE__)

template <class Call> static void refused(Call call, std::uint32_t number, const std::string &words, int line) {
    try {
        call();
        test(false, line);
    } catch (const earliest::failure &refused) {
        if (refused.number() != number || refused.what() != words) std::fprintf(stderr, "%s\n", refused.what());
        test(refused.number() == number && refused.what() == words, line);
    }
}
#define REFUSED(call, number, words) refused([&] { call; }, number, words, __LINE__)

// Roads and searches are moved and never copied.
template <class T> constexpr bool only_moves = !std::is_copy_constructible_v<T> && !std::is_copy_assignable_v<T> && !std::is_constructible_v<T, T &> && !std::is_assignable_v<T &, T &> &&
                                               std::is_nothrow_move_constructible_v<T> && std::is_nothrow_move_assignable_v<T>;
static_assert(only_moves<earliest::road> && only_moves<earliest::search> && only_moves<earliest::latest>);
static_assert(!std::is_default_constructible_v<earliest::road> && !std::is_default_constructible_v<earliest::search> && !std::is_default_constructible_v<earliest::latest>);

static const std::string FOUR = "p sp 4 5\na 1 2 7\na 1 3 2\na 3 2 3\na 2 4 1\na 3 4 9\n";
static const std::vector<std::uint64_t> FROM_1 = {0, 5, 2, 6};
static const char *NO_ROAD = "the handle holds no road (16 NoRoad)", *NO_SEARCH = "the handle holds no search (17 NoSearch)";

static void moves() {
    earliest::road one(FOUR), two("p sp 2 1\na 1 2 9\n");
    earliest::search of_one(one), of_two(two);
    of_one.from({{1, 0}}), of_two.from({{1, 0}});
    // What is assigned to holds the other's road, and the other holds none, that of the first neither.
    one = std::move(two);
    TEST(one.nodes() == 2 && one.arcs() == 1);
    REFUSED(two.nodes(), EARLIEST_NO_ROAD, NO_ROAD);
    REFUSED(two.arcs(), EARLIEST_NO_ROAD, NO_ROAD);
    REFUSED(two.check({}, {0, 0, 0}, ""), EARLIEST_NO_ROAD, NO_ROAD);
    REFUSED(earliest::search(two, true), EARLIEST_NO_ROAD, NO_ROAD);
    earliest::road three(std::move(one));
    TEST(three.nodes() == 2);
    REFUSED(one.nodes(), EARLIEST_NO_ROAD, NO_ROAD);
    one = earliest::road(FOUR);
    TEST(one.nodes() == 4 && earliest::search(one).from({{1, 0}}).arrivals() == FROM_1);
    earliest::road &same = one;
    one = std::move(same);
    TEST(one.nodes() == 4);

    // A search works without its road, and moves with its last answer.
    of_two = std::move(of_one);
    TEST(of_two.arrivals() == FROM_1 && of_two.walk(4) == (std::vector<std::uint32_t>{2, 3, 4}));
    std::uint64_t out[4];
    REFUSED(of_one.arrivals(), EARLIEST_NO_SEARCH, NO_SEARCH);
    REFUSED(of_one.arrivals_into(earliest::room<std::uint64_t>(out, 4)), EARLIEST_NO_SEARCH, NO_SEARCH);
    REFUSED(of_one.rows_into({}, {}, earliest::room<std::uint64_t>(out, 0)), EARLIEST_NO_SEARCH, NO_SEARCH);
    REFUSED(of_one.from({{1, 0}}), EARLIEST_NO_SEARCH, NO_SEARCH);
    REFUSED(of_one.to({1, 0}, 1), EARLIEST_NO_SEARCH, NO_SEARCH);
    REFUSED(of_one.arrival(1), EARLIEST_NO_SEARCH, NO_SEARCH);
    REFUSED(of_one.walk(1), EARLIEST_NO_SEARCH, NO_SEARCH);
    earliest::search other(std::move(of_two));
    TEST(other.arrivals() == FROM_1);
    REFUSED(of_two.arrivals(), EARLIEST_NO_SEARCH, NO_SEARCH);
    earliest::search &itself = other;
    other = std::move(itself);
    TEST(other.arrivals() == FROM_1);

    // A search for latest departures, too.
    earliest::latest back(one), until_2(one);
    back.until({{4, 6}}), until_2.until({{2, 9}});
    until_2 = std::move(back);
    TEST(until_2.departures() == FROM_1 && until_2.walk(1) == (std::vector<std::uint32_t>{2, 3, 4}));
    REFUSED(back.departures(), EARLIEST_NO_SEARCH, NO_SEARCH);
    REFUSED(back.departure(1), EARLIEST_NO_SEARCH, NO_SEARCH);
    REFUSED(back.until({{4, 6}}), EARLIEST_NO_SEARCH, NO_SEARCH);
    REFUSED(back.from(1, {4, 6}), EARLIEST_NO_SEARCH, NO_SEARCH);
    REFUSED(back.walk(1), EARLIEST_NO_SEARCH, NO_SEARCH);
    earliest::latest kept(std::move(until_2));
    TEST(kept.departures() == FROM_1);
    REFUSED(until_2.departures(), EARLIEST_NO_SEARCH, NO_SEARCH);
    earliest::latest &as_it_is = kept;
    kept = std::move(as_it_is);
    TEST(kept.departures() == FROM_1);
    REFUSED(earliest::latest(one, false).until({{4, 6}}).walk(1), EARLIEST_NO_WALKS, "the last query found no walks (21 NoWalks)");
    std::vector<earliest::search> searches;
    for (int i = 0; i < 20; i++) searches.emplace_back(one, false);
    TEST(searches[0].from({{1, 0}}).arrivals() == FROM_1);
}

static void searches() {
    const earliest::road road(FOUR);
    earliest::search search(road);
    TEST(search.from({{1, 3}, {3, 1}}).arrivals() == (std::vector<std::uint64_t>{3, 4, 1, 5}));
    TEST(search.from(std::vector<earliest::start>{{3, 0}}).arrival(1) == std::nullopt && search.arrival(4) == std::optional<std::uint64_t>(4));
    TEST(search.walk(1) == std::nullopt && search.walk(3)->empty());
    TEST(search.to({1, 0}, 4) == std::optional<std::uint64_t>(6) && search.to({4, 0}, 1) == std::nullopt);
    TEST(search.from({}).arrivals() == std::vector<std::uint64_t>(4, earliest::never));
    TEST(search.to({1, earliest::horizon - 6}, 4) == std::optional<std::uint64_t>(earliest::horizon) && search.to({1, earliest::horizon - 5}, 4) == std::nullopt);
    const std::array<earliest::start, 1> starts = {{{1, 0}}};
    std::array<std::uint64_t, 4> out = {7, 7, 7, 7};
    search.from(starts).arrivals_into(out);
    TEST(std::vector<std::uint64_t>(out.begin(), out.end()) == FROM_1);
    std::vector<std::uint64_t> small(3);
    REFUSED(search.arrivals_into(small), EARLIEST_ROOM_TOO_SMALL, "the room is not that of the result (24 RoomTooSmall)");
    REFUSED(search.from({{5, 0}}), EARLIEST_NO_SUCH_NODE, "a number is not that of a node (18 NoSuchNode)");
    REFUSED(search.to({1, earliest::horizon + 1}, 1), EARLIEST_BEYOND_HORIZON, "a departure is beyond the horizon (19 BeyondHorizon)");
    TEST(search.arrivals() == FROM_1);
    search.to({1, 0}, 4);
    REFUSED(search.arrivals(), EARLIEST_NOT_ASKED, "the last query asked for another node alone (20 NotAsked)");
#ifdef __cpp_lib_span
    const std::vector<earliest::start> list = starts.size() ? std::vector<earliest::start>{{1, 0}} : std::vector<earliest::start>{};
    search.from(std::span(list)).arrivals_into(std::span(out));
    TEST(std::vector<std::uint64_t>(out.begin(), out.end()) == FROM_1);
#endif

    // A search that was made without walks finds none; one that was made with them does.
    earliest::search without(road, false), with(road, true);
    REFUSED(without.from({{1, 0}}).walk(4), EARLIEST_NO_WALKS, "the last query found no walks (21 NoWalks)");
    TEST(without.arrivals() == FROM_1 && with.from({{1, 0}}).walk(4).has_value());
}

static void reports() {
    const earliest::road road(FOUR);
    const std::string right = "s 1 0\nd 1 0\nd 2 5\nd 3 2\nd 4 6\n";
    road.check({1}, {0, 0, 0}, right);
    road.check(std::vector<std::uint32_t>{1}, {0, 9, 1}, right);
    road.check({}, {0, 0, 0}, "");
    auto wrong = right;
    wrong.replace(wrong.find("d 2 5"), 5, "d 2 4");
    REFUSED(road.check({1}, {0, 0, 0}, wrong), EARLIEST_NOT_ATTAINED, "report 3: a line is not attained (32 NotAttained)");
    REFUSED(road.check({2}, {0, 0, 0}, right), EARLIEST_BAD_LINE, "report 1: a line is not what its place asks (31 BadLine)");
    REFUSED(road.check({1}, {1, 0, 0}, right), EARLIEST_BAD_LINE, "report 1: a line is not what its place asks (31 BadLine)");
    // Two sources as one problem, the second one later by the gap; apart they would be two.
    const std::string both = "s 1 0\ns 3 1\nd 1 0\nd 2 4\nd 3 1\nd 4 5\n";
    road.check({1, 3}, {0, 1, 1}, both);
    REFUSED(road.check({1, 3}, {0, 1, 0}, both), EARLIEST_BAD_LINE, "report 2: a line is not what its place asks (31 BadLine)");
    REFUSED(road.check({1, 3}, {0, 2, 1}, both), EARLIEST_BAD_LINE, "report 2: a line is not what its place asks (31 BadLine)");
    REFUSED(road.check({5}, {0, 0, 0}, ""), EARLIEST_NO_SUCH_NODE, "a number is not that of a node (18 NoSuchNode)");
}

static void texts() {
    try {
        earliest::road(FOUR, "p tp 1 0\nk 1 every 0 0\n");
        TEST(false);
    } catch (const earliest::input_failure &fault) {
        TEST(fault.number() == EARLIEST_OUT_OF_RANGE && fault.line() == 2 && fault.text() == 2 && std::string(fault.what()) == "tp 2: a number is out of its range (6 OutOfRange)");
        TEST(fault.why() == (earliest::error{EARLIEST_OUT_OF_RANGE, 2, 2}) && fault.why() != (earliest::error{EARLIEST_OUT_OF_RANGE, 2, 1}));
    }
    REFUSED(earliest::road(""), EARLIEST_NO_PROBLEM_LINE, "gr 0: the problem line `p ..` is missing (1 NoProblemLine)");
    REFUSED(earliest::road::of_arcs(2, {1, 2}, {2}, {1, 1}), EARLIEST_LENGTHS_DIFFER, "lists that belong together have different lengths (23 LengthsDiffer)");
    REFUSED(earliest::road::of_arcs(2, {3}, {2}, {1}), EARLIEST_OUT_OF_RANGE, "gr 2: a number is out of its range (6 OutOfRange)");
    // A NUL byte is a byte as others are.
    earliest::road road(std::string_view("p sp 2 1\nc \0\na 1 2 3\n", 21));
    TEST(road.arcs() == 1);
    // Timetables: the arc is left at 4 of each 10.
    earliest::search search(earliest::road("p sp 2 1\na 1 2 3\n", "p tp 1 1\nk 1 every 10 4\nt 1 1\n"));
    TEST(search.to({1, 5}, 2) == std::optional<std::uint64_t>(17));
}

static void long_walks() {
    for (std::uint32_t count : {255u, 256u, 257u, 513u, 100000u}) {
        std::vector<std::uint32_t> tails(count), heads(count), weights(count, 1), walk(count);
        std::iota(tails.begin(), tails.end(), 1u), std::iota(heads.begin(), heads.end(), 2u), std::iota(walk.begin(), walk.end(), 1u);
        earliest::search search(earliest::road::of_arcs(count + 1, tails, heads, weights));
        TEST(search.from({{1, 0}}).walk(count + 1) == walk);
        TEST(search.to({1, 0}, count + 1) == std::optional<std::uint64_t>(count) && search.walk(count + 1) == walk);
    }
}

static void rows() {
    const earliest::road road(FOUR);
    const std::vector<std::uint32_t> sources = {1, 3, 4, 1, 2};
    const std::vector<std::uint64_t> departures = {0, 5, 0, 1, 2};
    std::vector<std::uint64_t> out(20, 7), want;
    earliest::search search(road, false);
    for (std::size_t i = 0; i < 5; i++) {
        auto row = search.from({{sources[i], departures[i]}}).arrivals();
        want.insert(want.end(), row.begin(), row.end());
    }
    search.rows_into(sources, departures, out);
    TEST(out == want);
    // Four threads on one road, with a search and some rows each, which they make themselves.
    std::vector<std::uint64_t> again(20 * 400);
    std::vector<std::thread> threads;
    for (std::size_t part = 0; part < 4; part++)
        threads.emplace_back([&, part] {
            for (std::size_t at = part; at < 400; at += 4) earliest::search(road, false).rows_into(sources, departures, earliest::room<std::uint64_t>(again.data() + 20 * at, 20));
        });
    for (auto &thread : threads) thread.join();
    for (std::size_t at = 0; at < 400; at++) TEST(std::vector<std::uint64_t>(again.begin() + 20 * at, again.begin() + 20 * at + 20) == want);
    std::vector<std::uint64_t> one(8);
    search.rows_into({1, 1}, {9}, one);
    TEST(one == (std::vector<std::uint64_t>{9, 14, 11, 15, 9, 14, 11, 15}));
    REFUSED(search.rows_into({1, 1}, {9}, out), EARLIEST_ROOM_TOO_SMALL, "the room is not that of the result (24 RoomTooSmall)");
    REFUSED(search.rows_into({1, 1}, {9, 9, 9}, one), EARLIEST_LENGTHS_DIFFER, "lists that belong together have different lengths (23 LengthsDiffer)");
    REFUSED(search.rows_into({1, 5}, {9}, one), EARLIEST_NO_SUCH_NODE, "a number is not that of a node (18 NoSuchNode)");
}

static void asked() {
    const earliest::road road(FOUR);
    earliest::search search(road);
    search.from({{4, 0}});
    TEST(search.arrivals_at({{1, 0}}, {4, 2, 4}) == (std::vector<std::uint64_t>{6, 5, 6}));
    TEST(search.arrivals_at({{1, 0}, {4, 1}}, {4, 2}) == (std::vector<std::uint64_t>{1, 5}) && search.arrivals_at({{1, 0}}, {}).empty());
    TEST(search.arrivals_at({{4, 9}}, {1, 4}) == (std::vector<std::uint64_t>{earliest::never, 9}));
    TEST(!search.arrival(1) && search.walk(4) == std::vector<std::uint32_t>());
    std::uint64_t out[2] = {7, 7};
    search.arrivals_at_into({{1, 0}}, {3, 1}, earliest::room<std::uint64_t>(out, 2));
    TEST(out[0] == 2 && out[1] == 0);
    REFUSED(search.arrivals_at_into({{1, 0}}, {3}, earliest::room<std::uint64_t>(out, 2)), EARLIEST_ROOM_TOO_SMALL, "the room is not that of the result (24 RoomTooSmall)");
    REFUSED(search.arrivals_at({{1, 0}}, {5}), EARLIEST_NO_SUCH_NODE, "a number is not that of a node (18 NoSuchNode)");
    REFUSED(search.arrivals_at({{0, 0}}, {1}), EARLIEST_NO_SUCH_NODE, "a number is not that of a node (18 NoSuchNode)");
    earliest::search moved(std::move(search));
    REFUSED(search.arrivals_at({{1, 0}}, {1}), EARLIEST_NO_SEARCH, NO_SEARCH);
    TEST(moved.arrivals_at({{1, 0}}, {4}) == std::vector<std::uint64_t>{6});
}

// Two threads call on one search, from node 1 and from node 3: each gets the answer to what it asked, or is refused.
template <class Call> static void shared(Call call, int line) {
    std::atomic<int> right{0}, wrong{0};
    std::vector<std::thread> threads;
    for (std::uint32_t source : {1u, 3u})
        threads.emplace_back([&, source] {
            for (int round = 0; round < 20000; round++) {
                try {
                    ++(call(source) ? right : wrong);
                } catch (const earliest::failure &refused) {
                    if (refused.number() != EARLIEST_BUSY) ++wrong;
                    std::this_thread::yield();
                }
            }
        });
    for (auto &thread : threads) thread.join();
    if (wrong) std::fprintf(stderr, "%d right, %d wrong\n", right.load(), wrong.load());
    test(right > 0 && wrong == 0, line);
}

// A call is right, and another thread's call on the same search, between the two calls of earliest.h that the first one makes, is refused.
template <class Call, class Other> static void apart(Call call, Other other, int line) {
    bool is_refused = false;
    between = [&] {
        std::thread([&] {
            try {
                other();
            } catch (const earliest::failure &refused) {
                is_refused = refused.number() == EARLIEST_BUSY;
            }
        }).join();
    };
    const bool is_right = call();
    test(is_right && is_refused && !between, line);
}

static void one_search() {
    const earliest::road road(FOUR);
    earliest::search search(road, false);
    earliest::latest latest(road, false);
    shared([&](std::uint32_t source) { return search.to({source, 0}, 4) == (source == 1 ? 6u : 4u); }, __LINE__);
    const auto from_3 = [&] { search.from({{3, 0}}); };
    apart([&] { return search.to({1, 0}, 4) == FROM_1[3]; }, from_3, __LINE__);
    std::vector<std::uint64_t> out(4);
    apart([&] { return search.rows_into({1}, {0}, out), out == FROM_1; }, from_3, __LINE__);
    const auto asking_3 = [&] { search.arrivals_at({{3, 0}}, {4, 3, 2, 1}); };
    apart([&] { return search.arrivals_at({{1, 0}}, {1, 2, 3, 4}) == FROM_1; }, asking_3, __LINE__);
    apart([&] { return search.arrivals_at_into({{1, 0}}, {1, 2, 3, 4}, out), out == FROM_1; }, asking_3, __LINE__);
    apart([&] { return latest.from(1, {4, 7}) == std::optional<std::uint64_t>(1); }, [&] { latest.from(3, {4, 7}); }, __LINE__);
}

int main() {
    moves();
    searches();
    reports();
    texts();
    long_walks();
    rows();
    asked();
    one_search();
    return failed;
}
