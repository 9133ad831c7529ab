// The engine of `earliest` in a C++ program: classes over the calls of earliest.h, which says what a caller owes. C++17 is enough; with C++20
// calls also take std::span.
//
// A road never changes, and any number of threads may ask it and make searches on it at the same time. A search is for one thread at a time: a
// call on it beside another one is refused (EARLIEST_BUSY). Searches on one road run on different threads. Both are moved, by one thread alone, and
// never copied. What was moved from holds nothing: a call on it is refused (EARLIEST_NO_ROAD, EARLIEST_NO_SEARCH).
//
// A call that is refused throws `failure`, or `input_failure` if a text has a fault. If EARLIEST_EXPECTED is defined before this file is
// included, nothing is thrown: calls return `expected<T>` with a value or an `error`, and the factories road::read, road::of_arcs and search::on
// stand in for constructors. It is std::expected with C++23.
#ifndef EARLIEST_HPP
#define EARLIEST_HPP

#include <atomic>
#include <cstddef>
#include <cstdint>
#include <initializer_list>
#include <memory>
#include <mutex>
#include <optional>
#include <string>
#include <string_view>
#include <type_traits>
#include <utility>
#include <vector>

#if __has_include(<version>)
#include <version>
#endif
#ifdef __cpp_lib_span
#include <span>
#endif
#ifdef EARLIEST_EXPECTED
#ifdef __cpp_lib_expected
#include <expected>
#else
#include <variant>
#endif
#else
#include <stdexcept>
#endif

#include "earliest.h"

namespace earliest {
#ifdef EARLIEST_EXPECTED
inline namespace returning {
#else
inline namespace throwing {
#endif

/// The arrival at a node that no walk reaches within the horizon.
inline constexpr std::uint64_t never = EARLIEST_NEVER;
/// The greatest time.
inline constexpr std::uint64_t horizon = EARLIEST_HORIZON;

/// Why a call was refused.
struct error {
    std::uint32_t number = 0;
    /// Of a text's fault: its line from 1, 0 for the whole text; and which text, 1 the network, 2 the timetables, 3 the report, 0 none.
    std::uint64_t line = 0;
    std::uint32_t text = 0;
    /// As "gr 2: a number is out of its range (6 OutOfRange)".
    std::string message() const {
        if (!text) return earliest_message(number);
        return (text == 1 ? "gr " : text == 2 ? "tp " : "report ") + std::to_string(line) + ": " + earliest_message(number);
    }
    friend bool operator==(const error &a, const error &b) { return a.number == b.number && a.line == b.line && a.text == b.text; }
    friend bool operator!=(const error &a, const error &b) { return !(a == b); }
};

#ifdef EARLIEST_EXPECTED
#ifdef __cpp_lib_expected
template <class T> using expected = std::expected<T, error>;
#else
/// A value, or why there is none: a part of std::expected.
template <class T> class [[nodiscard]] expected {
    using held = std::conditional_t<std::is_void_v<T>, std::monostate, T>;

public:
    using value_type = T;
    using error_type = earliest::error;
    template <class U = held, std::enable_if_t<std::is_default_constructible_v<U>, int> = 0> expected() : it_(std::in_place_index<0>) {}
    expected(held value) : it_(std::in_place_index<0>, std::move(value)) {}
    expected(error_type why) : it_(std::in_place_index<1>, why) {}
    bool has_value() const noexcept { return it_.index() == 0; }
    explicit operator bool() const noexcept { return has_value(); }
    /// The value; undefined if there is none.
    held &operator*() & noexcept { return *std::get_if<0>(&it_); }
    const held &operator*() const & noexcept { return *std::get_if<0>(&it_); }
    held &&operator*() && noexcept { return std::move(*std::get_if<0>(&it_)); }
    held *operator->() noexcept { return std::get_if<0>(&it_); }
    const held *operator->() const noexcept { return std::get_if<0>(&it_); }
    const error_type &error() const noexcept { return *std::get_if<1>(&it_); }

private:
    std::variant<held, error_type> it_;
};
#endif
namespace detail {
template <class T> using returned = expected<T>;
inline auto refusal(std::uint32_t number, const earliest_fault &fault) {
    error why = fault.text ? error{fault.number, fault.line, fault.text} : error{number, 0, 0};
#ifdef __cpp_lib_expected
    return std::unexpected(why);
#else
    return why;
#endif
}
}  // namespace detail
#define EARLIEST_TEST_(call, fault) \
    if (std::uint32_t number_ = (call)) return detail::refusal(number_, fault)
#define EARLIEST_DONE_ return {}
#else
/// A call was refused.
class failure : public std::runtime_error {
public:
    explicit failure(const error &why) : std::runtime_error(why.message()), why_(why) {}
    explicit failure(std::uint32_t number) : failure(error{number, 0, 0}) {}
    std::uint32_t number() const noexcept { return why_.number; }
    const error &why() const noexcept { return why_; }

protected:
    error why_;
};

/// A text has a fault.
class input_failure : public failure {
public:
    explicit input_failure(const earliest_fault &fault) : failure(error{fault.number, fault.line, fault.text}) {}
    /// From 1; 0 for a fault of the whole text.
    std::uint64_t line() const noexcept { return why_.line; }
    /// 1 the network, 2 the timetables, 3 the report.
    std::uint32_t text() const noexcept { return why_.text; }
};

namespace detail {
template <class T> using returned = T;
[[noreturn]] inline void refuse(std::uint32_t number, const earliest_fault &fault) {
    if (fault.text) throw input_failure(fault);
    throw failure(number);
}
}  // namespace detail
#define EARLIEST_TEST_(call, fault) \
    if (std::uint32_t number_ = (call)) detail::refuse(number_, fault)
#define EARLIEST_DONE_ return
#endif

/// A list that a call reads: a vector, an array, a std::span, or {a, b, ..}. It is good while what it was made of is.
template <class T> class list {
public:
    constexpr list() noexcept = default;
    constexpr list(const T *data, std::size_t size) noexcept : data_(data), size_(size) {}
    constexpr list(std::initializer_list<T> members) noexcept { data_ = members.begin(), size_ = members.size(); }
    template <std::size_t N> constexpr list(const T (&members)[N]) noexcept : data_(members), size_(N) {}
    template <class C, class = std::enable_if_t<!std::is_same_v<C, list> && std::is_convertible_v<decltype(std::declval<const C &>().data()), const T *> &&
                                                std::is_convertible_v<decltype(std::declval<const C &>().size()), std::size_t>>>
    constexpr list(const C &members) noexcept : data_(members.data()), size_(members.size()) {}

    constexpr const T *begin() const noexcept { return data_; }
    constexpr const T *end() const noexcept { return data_ + size_; }
    constexpr std::size_t size() const noexcept { return size_; }
    constexpr const T &operator[](std::size_t at) const noexcept { return data_[at]; }
    /// Where the members lie, which is never null.
    const T *data() const noexcept {
        static const T none{};
        return data_ ? data_ : &none;
    }

private:
    const T *data_ = nullptr;
    std::size_t size_ = 0;
};

#ifdef __cpp_lib_span
/// Memory of the caller that a call fills.
template <class T> using room = std::span<T>;
#else
/// Memory of the caller that a call fills: a vector, an array, or a pointer and how many members it has.
template <class T> class room {
public:
    constexpr room() noexcept = default;
    constexpr room(T *data, std::size_t size) noexcept : data_(data), size_(size) {}
    template <class C, class = std::enable_if_t<!std::is_same_v<C, room> && std::is_convertible_v<decltype(std::declval<C &>().data()), T *>>>
    constexpr room(C &members) noexcept : data_(members.data()), size_(members.size()) {}
    constexpr T *data() const noexcept { return data_; }
    constexpr std::size_t size() const noexcept { return size_; }

private:
    T *data_ = nullptr;
    std::size_t size_ = 0;
};
#endif

/// Where and when a search starts.
struct start {
    std::uint32_t node;
    std::uint64_t departure;
};

/// A node, and the time by which it has to be reached.
struct stop {
    std::uint32_t node;
    std::uint64_t time;
};

class search;
class latest;

/// A road with its timetables.
class road {
public:
#ifndef EARLIEST_EXPECTED
    /// As read.
    explicit road(std::string_view gr, std::string_view tp = {}) : road(read(gr, tp)) {}
#endif
    /// The road of the text of a network and of that of its timetables; an empty text of timetables is none.
    static detail::returned<road> read(std::string_view gr, std::string_view tp = {}) {
        road made(std::make_unique<core>());
        earliest_fault fault = {0, 0, 0};
        EARLIEST_TEST_(earliest_road_read(at(gr), gr.size(), at(tp), tp.size(), &made.core_->handle, &fault), fault);
        return made.counted();
    }
    /// The road of `nodes` nodes and of arcs with these tails, heads, weights and classes; without classes all arcs are plain. The text of
    /// timetables has kinds and assigns no arcs.
    static detail::returned<road> of_arcs(std::uint32_t nodes, list<std::uint32_t> tails, list<std::uint32_t> heads, list<std::uint32_t> weights,
                                          list<std::uint32_t> classes = {}, std::string_view tp = {}) {
        road made(std::make_unique<core>());
        earliest_fault fault = {0, 0, 0};
        EARLIEST_TEST_(earliest_road_of_lists(nodes, tails.data(), tails.size(), heads.data(), heads.size(), weights.data(), weights.size(),
                                              classes.data(), classes.size(), at(tp), tp.size(), &made.core_->handle, &fault),
                       fault);
        return made.counted();
    }
    road(road &&) noexcept = default;
    /// Lets go what this held; the other holds nothing then.
    road &operator=(road &&) noexcept = default;
    road(const road &) = delete;
    road &operator=(const road &) = delete;

    /// How many nodes and how many arcs it has.
    detail::returned<std::uint32_t> nodes() const {
        EARLIEST_TEST_(core_ ? 0u : std::uint32_t{EARLIEST_NO_ROAD}, earliest_fault{});
        return core_->nodes;
    }
    detail::returned<std::uint32_t> arcs() const {
        EARLIEST_TEST_(core_ ? 0u : std::uint32_t{EARLIEST_NO_ROAD}, earliest_fault{});
        return core_->arcs;
    }
    /// The same road with a preparation: `search::to` on it reaches few nodes and finds the same arrivals and walks, on any number of threads.
    /// Takes seconds for 10^6 nodes, in which other threads wait for this road. Refused (EARLIEST_NOT_WORTH) if searches wouldn't gain by it.
    detail::returned<road> prepared() const {
        EARLIEST_TEST_(core_ ? 0u : std::uint32_t{EARLIEST_NO_ROAD}, earliest_fault{});
        road made(std::make_unique<core>());
        std::lock_guard<std::mutex> alone(core_->lock);
        EARLIEST_TEST_(earliest_road_prepared(&core_->handle, &made.core_->handle), earliest_fault{});
        return made.counted();
    }
    /// The same over an order of the nodes, each once, from the first that is passed over to the last: a fraction of the time.
    detail::returned<road> prepared(list<std::uint32_t> order) const {
        EARLIEST_TEST_(core_ ? 0u : std::uint32_t{EARLIEST_NO_ROAD}, earliest_fault{});
        road made(std::make_unique<core>());
        std::lock_guard<std::mutex> alone(core_->lock);
        EARLIEST_TEST_(earliest_road_prepared_by(&core_->handle, order.data(), order.size(), &made.core_->handle), earliest_fault{});
        return made.counted();
    }
    /// The same for other weights or timetables on the arcs of a prepared road, whose order and upward arcs are taken. A road that
    /// isn't prepared is refused (EARLIEST_NO_ORDER).
    detail::returned<road> prepared(const road &like) const {
        EARLIEST_TEST_(core_ && like.core_ ? 0u : std::uint32_t{EARLIEST_NO_ROAD}, earliest_fault{});
        if (core_ == like.core_) return prepared();
        road made(std::make_unique<core>());
        std::scoped_lock<std::mutex, std::mutex> alone(core_->lock, like.core_->lock);
        EARLIEST_TEST_(earliest_road_prepared_like(&core_->handle, &like.core_->handle, &made.core_->handle), earliest_fault{});
        return made.counted();
    }
    /// The same road laid out: `search::from` on it takes a fraction of the time if nodes are numbered out of order, and finds the same. Takes
    /// as long as some searches, in which other threads wait for this road. Refused (EARLIEST_NOT_WORTH) if searches aren't likely to gain.
    detail::returned<road> laid_out() const {
        EARLIEST_TEST_(core_ ? 0u : std::uint32_t{EARLIEST_NO_ROAD}, earliest_fault{});
        road made(std::make_unique<core>());
        std::lock_guard<std::mutex> alone(core_->lock);
        EARLIEST_TEST_(earliest_road_laid_out(&core_->handle, &made.core_->handle), earliest_fault{});
        return made.counted();
    }
    /// Checks a report of searches from these nodes; one that isn't right is refused with the line of its first fault.
    detail::returned<void> check(list<std::uint32_t> nodes, const earliest_starts &starts, std::string_view report) const {
        EARLIEST_TEST_(core_ ? 0u : std::uint32_t{EARLIEST_NO_ROAD}, earliest_fault{});
        earliest_fault fault = {0, 0, 0};
        std::lock_guard<std::mutex> alone(core_->lock);
        EARLIEST_TEST_(earliest_check(&core_->handle, nodes.data(), nodes.size(), &starts, at(report), report.size(), &fault), fault);
        EARLIEST_DONE_;
    }

private:
    friend class search;
    friend class latest;
    /// A handle, that of the road turned round when it is first asked for, the lock under which one thread at a time calls with them, and
    /// what never changes.
    struct core {
        earliest_road handle = EARLIEST_NOTHING, turned = EARLIEST_NOTHING;
        std::mutex lock;
        std::uint32_t nodes = 0, arcs = 0;
        core() = default;
        core(const core &) = delete;
        core &operator=(const core &) = delete;
        ~core() { earliest_road_free(&handle), earliest_road_free(&turned); }
    };
    explicit road(std::unique_ptr<core> it) noexcept : core_(std::move(it)) {}
    road counted() {
        core_->nodes = earliest_road_nodes(&core_->handle), core_->arcs = earliest_road_arcs(&core_->handle);
        return std::move(*this);
    }
    static const char *at(std::string_view text) { return text.data() ? text.data() : ""; }
    std::unique_ptr<core> core_;
};

namespace detail {
/// What a search holds: its handle, how many nodes its road has, and whether a call uses it.
class held {
public:
    earliest_search handle = EARLIEST_NOTHING;
    std::uint32_t nodes = 0;
    std::atomic<bool> used{false};
    held() = default;
    held(held &&other) noexcept : handle(std::exchange(other.handle, earliest_search EARLIEST_NOTHING)), nodes(std::exchange(other.nodes, 0)) {}
    /// Lets go what this held; the other holds nothing then.
    held &operator=(held &&other) noexcept {
        if (this != &other) {
            earliest_search_free(&handle);
            handle = std::exchange(other.handle, earliest_search EARLIEST_NOTHING);
            nodes = std::exchange(other.nodes, 0);
        }
        return *this;
    }
    held(const held &) = delete;
    held &operator=(const held &) = delete;
    ~held() { earliest_search_free(&handle); }
};

/// A call on a search, which may make several calls of earliest.h. Another one on the same search is refused until it ends.
class turn {
public:
    explicit turn(held &by) noexcept : by_(by), is_mine_(!by.used.exchange(true, std::memory_order_acquire)) {}
    turn(const turn &) = delete;
    turn &operator=(const turn &) = delete;
    ~turn() {
        if (is_mine_) by_.used.store(false, std::memory_order_release);
    }
    std::uint32_t number() const noexcept { return is_mine_ ? 0u : std::uint32_t{EARLIEST_BUSY}; }

private:
    held &by_;
    bool is_mine_;
};
}  // namespace detail
#define EARLIEST_TURN_ \
    detail::turn alone(held_); \
    EARLIEST_TEST_(alone.number(), earliest_fault{})

/// A search on a road, with its last answer. It has a share of the road, which may go before it.
class search {
public:
#ifndef EARLIEST_EXPECTED
    /// As on.
    explicit search(const road &where, bool walks = true) : search(on(where, walks)) {}
#endif
    /// A search on a road; with walks each query finds canonical walks, too, which takes about twice as long.
    static detail::returned<search> on(const road &where, bool walks = true) {
        EARLIEST_TEST_(where.core_ ? 0u : std::uint32_t{EARLIEST_NO_ROAD}, earliest_fault{});
        search made;
        std::lock_guard<std::mutex> alone(where.core_->lock);
        EARLIEST_TEST_(earliest_search_new(&where.core_->handle, walks ? 1 : 0, &made.held_.handle), earliest_fault{});
        made.held_.nodes = where.core_->nodes;
        return made;
    }
    search(search &&) noexcept = default;
    /// Lets go what this held; the other holds nothing then.
    search &operator=(search &&) noexcept = default;
    search(const search &) = delete;
    search &operator=(const search &) = delete;

    /// Searches from these starts, as one problem, to all nodes.
#ifdef EARLIEST_EXPECTED
    expected<void> from(list<start> starts) {
#else
    search &from(list<start> starts) {
#endif
        EARLIEST_TURN_;
        std::vector<std::uint32_t> nodes(1 + starts.size());
        std::vector<std::uint64_t> departures(1 + starts.size());
        for (std::size_t i = 0; i < starts.size(); i++) nodes[i] = starts[i].node, departures[i] = starts[i].departure;
        EARLIEST_TEST_(earliest_search_from(&held_.handle, nodes.data(), starts.size(), departures.data(), starts.size()), earliest_fault{});
#ifdef EARLIEST_EXPECTED
        return {};
#else
        return *this;
#endif
    }
    /// Searches from one start to one target: the earliest arrival, none if no walk reaches it within the horizon.
    detail::returned<std::optional<std::uint64_t>> to(start source, std::uint32_t target) {
        EARLIEST_TURN_;
        EARLIEST_TEST_(earliest_search_pair(&held_.handle, source.node, source.departure, target), earliest_fault{});
        return told(target);
    }
    /// The earliest arrival at a node for which the last query asked.
    detail::returned<std::optional<std::uint64_t>> arrival(std::uint32_t node) {
        EARLIEST_TURN_;
        return told(node);
    }
    /// The earliest arrivals at all nodes, the first at node 1; `never` for a node that no walk reaches.
    detail::returned<std::vector<std::uint64_t>> arrivals() {
        EARLIEST_TURN_;
        std::vector<std::uint64_t> out(held_.nodes + std::size_t{1});
        EARLIEST_TEST_(earliest_search_arrivals(&held_.handle, out.data(), held_.nodes), earliest_fault{});
        out.pop_back();
        return out;
    }
    /// The same into the caller's memory, which has a place for each node; another size is refused (EARLIEST_ROOM_TOO_SMALL).
    detail::returned<void> arrivals_into(room<std::uint64_t> out) {
        EARLIEST_TURN_;
        std::uint64_t none = 0;
        EARLIEST_TEST_(earliest_search_arrivals(&held_.handle, out.size() ? out.data() : &none, out.size()), earliest_fault{});
        EARLIEST_DONE_;
    }
    /// A row of arrivals for each source, each a problem of its own: into the caller's memory, which has a place for each source and node. One
    /// departure serves for all sources. Threads that have a search each divide the rows of a matrix. The last answer is that of the last row.
    detail::returned<void> rows_into(list<std::uint32_t> sources, list<std::uint64_t> departures, room<std::uint64_t> out) {
        EARLIEST_TURN_;
        EARLIEST_TEST_(held_.handle.at ? 0u : std::uint32_t{EARLIEST_NO_SEARCH}, earliest_fault{});
        EARLIEST_TEST_(departures.size() == sources.size() || departures.size() == 1 ? 0u : std::uint32_t{EARLIEST_LENGTHS_DIFFER}, earliest_fault{});
        EARLIEST_TEST_(out.size() == sources.size() * held_.nodes ? 0u : std::uint32_t{EARLIEST_ROOM_TOO_SMALL}, earliest_fault{});
        for (std::size_t row = 0; row < sources.size(); row++) {
            const std::uint64_t *departure = departures.data() + (departures.size() == 1 ? 0 : row);
            EARLIEST_TEST_(earliest_search_from(&held_.handle, sources.data() + row, 1, departure, 1), earliest_fault{});
            EARLIEST_TEST_(earliest_search_arrivals(&held_.handle, out.data() + row * held_.nodes, held_.nodes), earliest_fault{});
        }
        EARLIEST_DONE_;
    }
    /// Searches from these starts, as one problem, for some nodes alone, and ends when they are settled. Writes the earliest arrivals at them, in
    /// their order, into the caller's memory, which has a place for each; `never` for a node that no walk reaches. What arrival, arrivals and
    /// walk read stays that of the last other query.
    detail::returned<void> arrivals_at_into(list<start> starts, list<std::uint32_t> asked, room<std::uint64_t> out) {
        EARLIEST_TURN_;
        EARLIEST_TEST_(out.size() == asked.size() ? 0u : std::uint32_t{EARLIEST_ROOM_TOO_SMALL}, earliest_fault{});
        EARLIEST_TEST_(ask(starts, asked, out), earliest_fault{});
        EARLIEST_DONE_;
    }
    /// The same as a list.
    detail::returned<std::vector<std::uint64_t>> arrivals_at(list<start> starts, list<std::uint32_t> asked) {
        EARLIEST_TURN_;
        std::vector<std::uint64_t> out(asked.size());
        EARLIEST_TEST_(ask(starts, asked, room<std::uint64_t>(out)), earliest_fault{});
        return out;
    }
    /// The numbers of the arcs of a node's canonical walk; none if no walk reaches it within the horizon.
    detail::returned<std::optional<std::vector<std::uint32_t>>> walk(std::uint32_t node) {
        EARLIEST_TURN_;
        std::vector<std::uint32_t> out(256);
        std::uint64_t count = 0;
        std::uint32_t number = earliest_search_walk(&held_.handle, node, out.data(), out.size(), &count);
        if (number == EARLIEST_ROOM_TOO_SMALL) {
            out.resize(static_cast<std::size_t>(count));
            number = earliest_search_walk(&held_.handle, node, out.data(), out.size(), &count);
        }
        if (number == EARLIEST_NOT_REACHED) return std::optional<std::vector<std::uint32_t>>();
        EARLIEST_TEST_(number, earliest_fault{});
        out.resize(static_cast<std::size_t>(count));
        return std::optional<std::vector<std::uint32_t>>(std::move(out));
    }

private:
    search() = default;
    detail::returned<std::optional<std::uint64_t>> told(std::uint32_t node) {
        std::uint64_t time = never;
        EARLIEST_TEST_(earliest_search_arrival(&held_.handle, node, &time), earliest_fault{});
        return time == never ? std::optional<std::uint64_t>() : std::optional<std::uint64_t>(time);
    }
    std::uint32_t ask(list<start> starts, list<std::uint32_t> asked, room<std::uint64_t> out) {
        std::vector<std::uint32_t> nodes(1 + starts.size());
        std::vector<std::uint64_t> departures(1 + starts.size());
        for (std::size_t i = 0; i < starts.size(); i++) nodes[i] = starts[i].node, departures[i] = starts[i].departure;
        std::uint32_t number = earliest_search_asking(&held_.handle, nodes.data(), starts.size(), departures.data(), starts.size(), asked.data(), asked.size());
        std::uint64_t none = 0;
        return number ? number : earliest_search_answers(&held_.handle, out.size() ? out.data() : &none, out.size());
    }
    detail::held held_;
};

/// A search for latest departures on a road, with its last answer. It has a share of the road, which may go before it.
class latest {
public:
#ifndef EARLIEST_EXPECTED
    /// As on.
    explicit latest(const road &where, bool walks = true) : latest(on(where, walks)) {}
#endif
    /// A search on a road, which is turned round once for all such searches; with walks each query finds canonical walks, too.
    static detail::returned<latest> on(const road &where, bool walks = true) {
        EARLIEST_TEST_(where.core_ ? 0u : std::uint32_t{EARLIEST_NO_ROAD}, earliest_fault{});
        latest made;
        std::lock_guard<std::mutex> alone(where.core_->lock);
        if (!where.core_->turned.at) EARLIEST_TEST_(earliest_road_turned(&where.core_->handle, &where.core_->turned), earliest_fault{});
        EARLIEST_TEST_(earliest_search_new_until(&where.core_->turned, walks ? 1 : 0, &made.held_.handle), earliest_fault{});
        made.held_.nodes = where.core_->nodes;
        return made;
    }
    latest(latest &&) noexcept = default;
    /// Lets go what this held; the other holds nothing then.
    latest &operator=(latest &&) noexcept = default;
    latest(const latest &) = delete;
    latest &operator=(const latest &) = delete;

    /// Searches for the latest departures of all nodes from which some of these stops is reached by its time.
#ifdef EARLIEST_EXPECTED
    expected<void> until(list<stop> stops) {
#else
    latest &until(list<stop> stops) {
#endif
        EARLIEST_TURN_;
        std::vector<std::uint32_t> nodes(1 + stops.size());
        std::vector<std::uint64_t> times(1 + stops.size());
        for (std::size_t i = 0; i < stops.size(); i++) nodes[i] = stops[i].node, times[i] = stops[i].time;
        EARLIEST_TEST_(earliest_search_until(&held_.handle, nodes.data(), stops.size(), times.data(), stops.size()), earliest_fault{});
#ifdef EARLIEST_EXPECTED
        return {};
#else
        return *this;
#endif
    }
    /// The latest departure from a node by which one stop is reached by its time; none if no departure is in time.
    detail::returned<std::optional<std::uint64_t>> from(std::uint32_t source, stop target) {
        EARLIEST_TURN_;
        EARLIEST_TEST_(earliest_search_pair_until(&held_.handle, source, target.node, target.time), earliest_fault{});
        return told(source);
    }
    /// The latest departure of a node for which the last query asked.
    detail::returned<std::optional<std::uint64_t>> departure(std::uint32_t node) {
        EARLIEST_TURN_;
        return told(node);
    }
    /// The latest departures of all nodes, the first that of node 1; `never` for a node that can't be left in time.
    detail::returned<std::vector<std::uint64_t>> departures() {
        EARLIEST_TURN_;
        std::vector<std::uint64_t> out(held_.nodes + std::size_t{1});
        EARLIEST_TEST_(earliest_search_departures(&held_.handle, out.data(), held_.nodes), earliest_fault{});
        out.pop_back();
        return out;
    }
    /// The numbers of the arcs of a node's canonical walk to a stop; none if no departure is in time.
    detail::returned<std::optional<std::vector<std::uint32_t>>> walk(std::uint32_t node) {
        EARLIEST_TURN_;
        std::vector<std::uint32_t> out(256);
        std::uint64_t count = 0;
        std::uint32_t number = earliest_search_walk_until(&held_.handle, node, out.data(), out.size(), &count);
        if (number == EARLIEST_ROOM_TOO_SMALL) {
            out.resize(static_cast<std::size_t>(count));
            number = earliest_search_walk_until(&held_.handle, node, out.data(), out.size(), &count);
        }
        if (number == EARLIEST_NOT_REACHED) return std::optional<std::vector<std::uint32_t>>();
        EARLIEST_TEST_(number, earliest_fault{});
        out.resize(static_cast<std::size_t>(count));
        return std::optional<std::vector<std::uint32_t>>(std::move(out));
    }

private:
    latest() = default;
    detail::returned<std::optional<std::uint64_t>> told(std::uint32_t node) {
        std::uint64_t time = never;
        EARLIEST_TEST_(earliest_search_departure(&held_.handle, node, &time), earliest_fault{});
        return time == never ? std::optional<std::uint64_t>() : std::optional<std::uint64_t>(time);
    }
    detail::held held_;
};

}  // namespace throwing or returning
}  // namespace earliest

#undef EARLIEST_TURN_
#undef EARLIEST_TEST_
#undef EARLIEST_DONE_
#endif
