/* The engine of `earliest` in a C program: earliest arrivals in road networks whose travel times depend on the departure.
 *
 * Every call that can refuse answers 0 where it is done and else the refusal's number (enum earliest_number). Whatever numbers a
 * caller passes are tested and answered. What a caller owes beyond that:
 *
 *   - Pointers point to what they say: a list to as many readable (for `out`: writable) members as its count says, and a handle, a
 *     fault or a single result to one such value. None is NULL, not even that of a list of 0 members (pass "" or the address of
 *     anything). Lists and results of one call don't overlap one another or a handle.
 *   - A handle is set to EARLIEST_NOTHING before its first use, and is not copied: it is passed by its address, and one copy of it is
 *     in use. No program writes to it.
 *   - One thread at a time is in a call with one road's handle, and hands it to another thread through a lock, the thread's start or its
 *     end. Different handles are used by different threads at the same time, also where searches share a road.
 *   - A search lets in one call at a time: a second one is refused at once (EARLIEST_BUSY) and changes nothing. Threads that share a
 *     search find the answer of whichever query came last.
 *   - No call is made from a signal handler, or in the child of a fork of a process with threads.
 *
 * Nodes and arcs are numbered from 1, arcs in the order in which they were given. Times are whole numbers from 0 to
 * EARLIEST_HORIZON, in whatever unit the travel times have.
 */
#ifndef EARLIEST_H
#define EARLIEST_H

#include <stddef.h>
#include <stdint.h>

#ifdef __cplusplus
extern "C" {
#endif

/* The greatest time. */
#define EARLIEST_HORIZON UINT64_C(281474976710655)
/* The arrival at a node that no walk reaches within the horizon. */
#define EARLIEST_NEVER UINT64_MAX

/* A share of a road; EARLIEST_NOTHING where it holds none. `inside` is unused: handles have one form. */
typedef struct earliest_road { void *at; uint32_t inside; } earliest_road;
/* A search with its last answer; EARLIEST_NOTHING where it holds none. `inside` is 1 while a call is in it. */
typedef struct earliest_search { void *at; uint32_t inside; } earliest_search;
#ifdef __cplusplus
#define EARLIEST_NOTHING {}
#else
#define EARLIEST_NOTHING { 0 }
#endif

/* What is wrong with a text. */
typedef struct earliest_fault {
    uint64_t line;   /* from 1; 0 for a fault of the whole text */
    uint32_t number; /* enum earliest_number; 0 where there is no fault */
    uint32_t text;   /* 1 the network, 2 the timetables, 3 the report; 0 none */
} earliest_fault;

/* 1 to 13 are the program's own numbers. */
enum earliest_number {
    EARLIEST_DONE = 0,
    EARLIEST_NO_PROBLEM_LINE = 1,
    EARLIEST_SECOND_PROBLEM_LINE = 2,
    EARLIEST_UNKNOWN_LINE = 3,
    EARLIEST_FIELD_COUNT = 4,
    EARLIEST_BAD_NUMBER = 5,
    EARLIEST_OUT_OF_RANGE = 6,
    EARLIEST_TOO_MANY_LINES = 7,
    EARLIEST_TOO_FEW_LINES = 8,
    EARLIEST_BAD_KIND = 9,
    EARLIEST_OUT_OF_MEMORY = 13,
    EARLIEST_NO_ROAD = 16,        /* the handle holds no road */
    EARLIEST_NO_SEARCH = 17,      /* the handle holds no search */
    EARLIEST_NO_SUCH_NODE = 18,   /* a number is not that of a node */
    EARLIEST_BEYOND_HORIZON = 19, /* a departure is beyond the horizon */
    EARLIEST_NOT_ASKED = 20,      /* the last query asked for another node alone, or none asked for some nodes */
    EARLIEST_NO_WALKS = 21,       /* the last query found no walks */
    EARLIEST_NOT_REACHED = 22,    /* no walk reaches the node within the horizon */
    EARLIEST_LENGTHS_DIFFER = 23, /* lists that belong together have different lengths */
    EARLIEST_ROOM_TOO_SMALL = 24, /* there is another room than the result takes */
    EARLIEST_BUSY = 25,           /* another call is in the search */
    EARLIEST_NOT_WORTH = 26,      /* the road isn't worth a preparation or a layout */
    EARLIEST_NO_ORDER = 27,       /* a list is no order of the nodes: one is missing, or there twice */
    EARLIEST_BAD_LINE = 31,       /* a report's line is not what its place asks; 0 where it ends too early */
    EARLIEST_NOT_ATTAINED = 32,   /* a report's time or walk is not attained */
    EARLIEST_NOT_LEAST = 33,      /* a walk arrives before a report's time */
    EARLIEST_NOT_CANONICAL = 35   /* a report's walk is not the canonical one */
};

/* When the searches of a report start: the first node departs at `depart`, each next one later by `gap`, each in a problem of its own
 * where `joint` is 0, else all in one. */
typedef struct earliest_starts {
    uint64_t depart, gap;
    uint32_t joint;
} earliest_starts;

/* Makes the road of the text of a network (.gr) and of that of its timetables (.tp); tp_length 0 means no timetables. The texts may go
 * afterwards. `road` holds the road then, and what it held before is let go. Refusals: 1 to 9, with `fault` telling text and line, and
 * 13; `road` is as it was then. */
uint32_t earliest_road_read(const char *gr, size_t gr_length, const char *tp, size_t tp_length, earliest_road *road, earliest_fault *fault);
/* Makes the road of lists: of so many nodes, and of arcs with these tails, heads and weights, in this order, and with these classes of the
 * timetables, where a list of 0 classes makes all arcs plain (class 0). The text of timetables (.tp) has kinds and assigns no arcs, as
 * `p tp K 0` and K lines `k`; tp_length 0 means no timetables. Lists and text may go afterwards. `road` holds the road then, and what it
 * held before is let go. Refusals, in this order, where `road` is as it was: EARLIEST_LENGTHS_DIFFER; EARLIEST_OUT_OF_RANGE, where `fault`
 * tells the line that a text of the network would have it in (1 for the numbers of nodes and arcs, 2 for the first arc); 1 to 9 with the
 * line of the timetables' text; EARLIEST_OUT_OF_RANGE with line 0 of that text, where it has no such class; 13, which may come before any of
 * the timetables'. */
uint32_t earliest_road_of_lists(uint32_t nodes, const uint32_t *tails, size_t tail_count, const uint32_t *heads, size_t head_count, const uint32_t *weights, size_t weight_count, const uint32_t *classes, size_t class_count, const char *tp, size_t tp_length, earliest_road *road, earliest_fault *fault);
/* The same of arrays with `count` members each; `classes` may be NULL, which makes all arcs plain. */
static inline uint32_t earliest_road_of_arcs(uint32_t nodes, const uint32_t *tails, const uint32_t *heads, const uint32_t *weights, const uint32_t *classes, size_t count, const char *tp, size_t tp_length, earliest_road *road, earliest_fault *fault) {
    return earliest_road_of_lists(nodes, tails, count, heads, count, weights, count, classes ? classes : weights, classes ? count : 0, tp, tp_length, road, fault);
}
/* How many nodes, and how many arcs, a road has; 0 where the handle holds none. */
uint32_t earliest_road_nodes(earliest_road *road);
uint32_t earliest_road_arcs(earliest_road *road);
/* Prepares a road, so that searches on it for one target (earliest_search_pair) reach few nodes: far pairs take a fraction of the time, and
 * arrivals and walks are the same. It takes seconds and some 160 MB for 10^6 nodes, once for all searches. `prepared`, another handle,
 * holds the same road with its preparation then, for every call that takes a road; it has a share of the road, which may be freed before
 * it, and what it held before is freed. Any number of searches, each on another thread, share the preparation. They begin with
 * earliest_search_new on `prepared`; those made on `road` don't use it. Turned round (earliest_road_turned), `prepared` is prepared for
 * latest departures of pairs. Refusals: EARLIEST_NO_ROAD; EARLIEST_NOT_WORTH if the road has too dense a core for searches to gain, as a
 * large grid has; 13; `prepared` is as it was then. */
uint32_t earliest_road_prepared(earliest_road *road, earliest_road *prepared);
/* The same over an order of the nodes, each once, from the first that is passed over to the last: of METIS, KaHIP or InertialFlowCutter, say.
 * Any order serves; a good one makes searches quick. It takes a fraction of the time, since no order is looked for, and one order serves
 * roads with other weights and timetables. Refusals besides: EARLIEST_NO_ORDER if a node is missing or there twice. */
uint32_t earliest_road_prepared_by(earliest_road *road, const uint32_t *order, size_t count, earliest_road *prepared);
/* The same for other weights and timetables on the arcs of `like`, a third handle, which holds a prepared road with as many nodes: its order
 * and its upward arcs are taken as they are, so it takes a fraction of the time. If an arc was added that they don't join, they are made
 * anew over the same order. Refusals besides: EARLIEST_NO_ORDER if `like` isn't prepared or has another number of nodes. */
uint32_t earliest_road_prepared_like(earliest_road *road, earliest_road *like, earliest_road *prepared);
/* Lays a road out: its network once more, under numbers by which neighbours are near, for searches to all nodes in roads of at least 65,536
 * nodes whose arcs lead far away in the road's own numbers. They take a fraction of the time, and arrivals and walks are the same; it takes
 * as long as some of them, and some 30 bytes for each arc. `laid`, another handle, holds the same road with its layout then, as with
 * earliest_road_prepared; a prepared road has such a layout already. Refusals: EARLIEST_NO_ROAD; EARLIEST_NOT_WORTH if searches aren't
 * likely to gain; 13; `laid` is as it was then. */
uint32_t earliest_road_laid_out(earliest_road *road, earliest_road *laid);
/* Lets a road go; `road` is EARLIEST_NOTHING then. Searches on it keep their shares and go on. */
void earliest_road_free(earliest_road *road);

/* Each call with a search may also be refused by EARLIEST_BUSY, and changes nothing then. */

/* Makes a search on a road, with room for walks where `walks` isn't 0: then each query finds canonical walks, too, which takes about
 * twice as long. `search` holds it then, and what it held before is let go. Refusals: EARLIEST_NO_ROAD, 13. */
uint32_t earliest_search_new(earliest_road *road, uint32_t walks, earliest_search *search);
/* Searches from these nodes, each departing at its time, to all nodes; lists of 0 reach no node. Refusals: EARLIEST_NO_SEARCH,
 * EARLIEST_LENGTHS_DIFFER, EARLIEST_NO_SUCH_NODE, EARLIEST_BEYOND_HORIZON, 13; the search keeps its last answer then. */
uint32_t earliest_search_from(earliest_search *search, const uint32_t *nodes, size_t node_count, const uint64_t *departures, size_t departure_count);
/* Searches from one node to one target. Refusals: EARLIEST_NO_SEARCH, EARLIEST_NO_SUCH_NODE, EARLIEST_BEYOND_HORIZON. */
uint32_t earliest_search_pair(earliest_search *search, uint32_t source, uint64_t departure, uint32_t target);
/* The earliest arrival at a node for which the last query asked; EARLIEST_NEVER where no walk reaches it, and before the first
 * query. Refusals: EARLIEST_NO_SEARCH, EARLIEST_NO_SUCH_NODE, EARLIEST_NOT_ASKED; `arrival` is as it was then. */
uint32_t earliest_search_arrival(earliest_search *search, uint32_t node, uint64_t *arrival);
/* The earliest arrivals at all nodes: `count` is the number of nodes, and place 0 is node 1. Refusals: EARLIEST_NO_SEARCH,
 * EARLIEST_ROOM_TOO_SMALL where `count` is another, EARLIEST_NOT_ASKED after a query for one of several nodes; `out` is as it was then. */
uint32_t earliest_search_arrivals(earliest_search *search, uint64_t *out, size_t count);
/* The canonical walk to a node: the numbers of its arcs, first arc first, at the head of `out`, and how many they are in `count`. A
 * source at its own departure has the empty walk. Refusals: EARLIEST_ROOM_TOO_SMALL, where `count` tells how much room it takes;
 * EARLIEST_NO_SEARCH, EARLIEST_NO_SUCH_NODE, EARLIEST_NOT_ASKED, EARLIEST_NO_WALKS, EARLIEST_NOT_REACHED, 13, where `out` and `count`
 * are as they were. */
uint32_t earliest_search_walk(earliest_search *search, uint32_t node, uint32_t *out, size_t room, uint64_t *count);
/* Searches from these nodes, each departing at its time, as one problem, for the nodes of `asked` alone, in any order, each as often as one
 * likes: it ends when all of them are settled, so near nodes take a fraction of earliest_search_from. The first such query of a search takes
 * another 16 bytes for each node of the road. It finds no walks, and leaves what the calls above read as it was. Refusals as for
 * earliest_search_from, and EARLIEST_NO_SUCH_NODE for an asked node; after 13 earliest_search_answers may find that nothing was asked. */
uint32_t earliest_search_asking(earliest_search *search, const uint32_t *nodes, size_t node_count, const uint64_t *departures, size_t departure_count, const uint32_t *asked, size_t asked_count);
/* The earliest arrivals at the nodes of the last such query: `count` is their number, and each stands at its place in `asked`;
 * EARLIEST_NEVER for one that no walk reaches. Refusals: EARLIEST_NO_SEARCH, EARLIEST_NOT_ASKED before the first such query,
 * EARLIEST_ROOM_TOO_SMALL if `count` is another; `out` is as it was then. */
uint32_t earliest_search_answers(earliest_search *search, uint64_t *out, size_t count);
/* Lets a search go; `search` is EARLIEST_NOTHING then. With this header it returns a number, 0 or EARLIEST_BUSY. */
void earliest_search_free(earliest_search *search);

/* Turns a road round, for searches for latest departures, which share it; it takes as much memory as the road's network once more. `turned`
 * holds it then, with a share of the road, and what it held before is let go; earliest_road_free lets it go. A road that is laid out or
 * prepared is so turned round, too, over the same upward arcs: it takes about as long as by earliest_road_prepared_like. Refusals: EARLIEST_NO_ROAD, 13. */
uint32_t earliest_road_turned(earliest_road *road, earliest_road *turned);
/* Makes a search for latest departures on a road turned round; else like earliest_search_new. The calls of this part take such a search,
 * and those above a search made by earliest_search_new: each refuses the other sort (EARLIEST_NO_SEARCH). Both are let go by
 * earliest_search_free. */
uint32_t earliest_search_new_until(earliest_road *turned, uint32_t walks, earliest_search *search);
/* Searches for the latest departures of all nodes from which some of these nodes is reached by its time; lists of 0 give no node one.
 * Refusals as for earliest_search_from. */
uint32_t earliest_search_until(earliest_search *search, const uint32_t *nodes, size_t node_count, const uint64_t *times, size_t time_count);
/* Searches for the latest departure from one node by which one target is reached by a time. Refusals as for earliest_search_pair. */
uint32_t earliest_search_pair_until(earliest_search *search, uint32_t source, uint32_t target, uint64_t time);
/* The latest departure of a node for which the last query asked, after a pair its source; EARLIEST_NEVER where no departure is in time,
 * and before the first query. Refusals as for earliest_search_arrival. */
uint32_t earliest_search_departure(earliest_search *search, uint32_t node, uint64_t *departure);
/* The latest departures of all nodes; else like earliest_search_arrivals. */
uint32_t earliest_search_departures(earliest_search *search, uint64_t *out, size_t count);
/* The canonical walk to a target from a node that is left at its latest departure; else like earliest_search_walk. A target that may be
 * left at its own time has the empty walk. */
uint32_t earliest_search_walk_until(earliest_search *search, uint32_t node, uint32_t *out, size_t room, uint64_t *count);

/* Lets a call into a search: 0, or EARLIEST_BUSY where another one is inside. The calls below do so by themselves; who calls the
 * library without this header, by ctypes say, takes a lock. */
static inline uint32_t earliest_enter(uint32_t *inside) {
    return __atomic_exchange_n(inside, UINT32_C(1), __ATOMIC_SEQ_CST) ? (uint32_t)EARLIEST_BUSY : (uint32_t)EARLIEST_DONE;
}
/* Ends a call that was let in. */
static inline void earliest_leave(uint32_t *inside) { __atomic_store_n(inside, UINT32_C(0), __ATOMIC_SEQ_CST); }

/* The calls with a search, each let in before and out behind. */
#define EARLIEST_ALONE_(search, call) \
    uint32_t number_ = earliest_enter(&(search)->inside); \
    if (number_) return number_; \
    number_ = (call); \
    earliest_leave(&(search)->inside); \
    return number_
static inline uint32_t earliest_search_new_alone(earliest_road *road, uint32_t walks, earliest_search *search) {
    EARLIEST_ALONE_(search, earliest_search_new(road, walks, search));
}
static inline uint32_t earliest_search_from_alone(earliest_search *search, const uint32_t *nodes, size_t node_count, const uint64_t *departures, size_t departure_count) {
    EARLIEST_ALONE_(search, earliest_search_from(search, nodes, node_count, departures, departure_count));
}
static inline uint32_t earliest_search_pair_alone(earliest_search *search, uint32_t source, uint64_t departure, uint32_t target) {
    EARLIEST_ALONE_(search, earliest_search_pair(search, source, departure, target));
}
static inline uint32_t earliest_search_arrival_alone(earliest_search *search, uint32_t node, uint64_t *arrival) {
    EARLIEST_ALONE_(search, earliest_search_arrival(search, node, arrival));
}
static inline uint32_t earliest_search_arrivals_alone(earliest_search *search, uint64_t *out, size_t count) {
    EARLIEST_ALONE_(search, earliest_search_arrivals(search, out, count));
}
static inline uint32_t earliest_search_walk_alone(earliest_search *search, uint32_t node, uint32_t *out, size_t room, uint64_t *count) {
    EARLIEST_ALONE_(search, earliest_search_walk(search, node, out, room, count));
}
static inline uint32_t earliest_search_asking_alone(earliest_search *search, const uint32_t *nodes, size_t node_count, const uint64_t *departures, size_t departure_count, const uint32_t *asked, size_t asked_count) {
    EARLIEST_ALONE_(search, earliest_search_asking(search, nodes, node_count, departures, departure_count, asked, asked_count));
}
static inline uint32_t earliest_search_answers_alone(earliest_search *search, uint64_t *out, size_t count) {
    EARLIEST_ALONE_(search, earliest_search_answers(search, out, count));
}
static inline uint32_t earliest_search_new_until_alone(earliest_road *turned, uint32_t walks, earliest_search *search) {
    EARLIEST_ALONE_(search, earliest_search_new_until(turned, walks, search));
}
static inline uint32_t earliest_search_until_alone(earliest_search *search, const uint32_t *nodes, size_t node_count, const uint64_t *times, size_t time_count) {
    EARLIEST_ALONE_(search, earliest_search_until(search, nodes, node_count, times, time_count));
}
static inline uint32_t earliest_search_pair_until_alone(earliest_search *search, uint32_t source, uint32_t target, uint64_t time) {
    EARLIEST_ALONE_(search, earliest_search_pair_until(search, source, target, time));
}
static inline uint32_t earliest_search_departure_alone(earliest_search *search, uint32_t node, uint64_t *departure) {
    EARLIEST_ALONE_(search, earliest_search_departure(search, node, departure));
}
static inline uint32_t earliest_search_departures_alone(earliest_search *search, uint64_t *out, size_t count) {
    EARLIEST_ALONE_(search, earliest_search_departures(search, out, count));
}
static inline uint32_t earliest_search_walk_until_alone(earliest_search *search, uint32_t node, uint32_t *out, size_t room, uint64_t *count) {
    EARLIEST_ALONE_(search, earliest_search_walk_until(search, node, out, room, count));
}
static inline uint32_t earliest_search_free_alone(earliest_search *search) {
    EARLIEST_ALONE_(search, (earliest_search_free(search), (uint32_t)EARLIEST_DONE));
}
#define earliest_search_new earliest_search_new_alone
#define earliest_search_from earliest_search_from_alone
#define earliest_search_pair earliest_search_pair_alone
#define earliest_search_arrival earliest_search_arrival_alone
#define earliest_search_arrivals earliest_search_arrivals_alone
#define earliest_search_walk earliest_search_walk_alone
#define earliest_search_asking earliest_search_asking_alone
#define earliest_search_answers earliest_search_answers_alone
#define earliest_search_new_until earliest_search_new_until_alone
#define earliest_search_until earliest_search_until_alone
#define earliest_search_pair_until earliest_search_pair_until_alone
#define earliest_search_departure earliest_search_departure_alone
#define earliest_search_departures earliest_search_departures_alone
#define earliest_search_walk_until earliest_search_walk_until_alone
#define earliest_search_free earliest_search_free_alone

/* Checks the text of a report on a road, of searches from these nodes to all nodes: 0 where it is right, else 31 to 35, with its first
 * wrong line in `fault`. Refusals: EARLIEST_NO_ROAD, EARLIEST_NO_SUCH_NODE, EARLIEST_BEYOND_HORIZON, 13, which say nothing of the
 * report. */
uint32_t earliest_check(earliest_road *road, const uint32_t *nodes, size_t count, const earliest_starts *starts, const char *report, size_t length, earliest_fault *fault);

/* The name and the meaning of a number. */
static inline const char *earliest_message(uint32_t number) {
    switch (number) {
    case EARLIEST_DONE: return "it is done (0 Done)";
    case EARLIEST_NO_PROBLEM_LINE: return "the problem line `p ..` is missing (1 NoProblemLine)";
    case EARLIEST_SECOND_PROBLEM_LINE: return "there is a second problem line (2 SecondProblemLine)";
    case EARLIEST_UNKNOWN_LINE: return "lines of this file don't begin with this word (3 UnknownLine)";
    case EARLIEST_FIELD_COUNT: return "the line has too few or too many fields (4 FieldCount)";
    case EARLIEST_BAD_NUMBER: return "a field is not a number (5 BadNumber)";
    case EARLIEST_OUT_OF_RANGE: return "a number is out of its range (6 OutOfRange)";
    case EARLIEST_TOO_MANY_LINES: return "there are more lines of this sort than were announced (7 TooManyLines)";
    case EARLIEST_TOO_FEW_LINES: return "there are fewer lines than were announced (8 TooFewLines)";
    case EARLIEST_BAD_KIND: return "a kind word is not the one expected here (9 BadKind)";
    case EARLIEST_OUT_OF_MEMORY: return "there is not enough memory (13 OutOfMemory)";
    case EARLIEST_NO_ROAD: return "the handle holds no road (16 NoRoad)";
    case EARLIEST_NO_SEARCH: return "the handle holds no search (17 NoSearch)";
    case EARLIEST_NO_SUCH_NODE: return "a number is not that of a node (18 NoSuchNode)";
    case EARLIEST_BEYOND_HORIZON: return "a departure is beyond the horizon (19 BeyondHorizon)";
    case EARLIEST_NOT_ASKED: return "the last query asked for another node alone (20 NotAsked)";
    case EARLIEST_NO_WALKS: return "the last query found no walks (21 NoWalks)";
    case EARLIEST_NOT_REACHED: return "no walk reaches the node within the horizon (22 NotReached)";
    case EARLIEST_LENGTHS_DIFFER: return "lists that belong together have different lengths (23 LengthsDiffer)";
    case EARLIEST_ROOM_TOO_SMALL: return "the room is not that of the result (24 RoomTooSmall)";
    case EARLIEST_BUSY: return "another call is in the search (25 Busy)";
    case EARLIEST_NOT_WORTH: return "the road is not worth a preparation or a layout (26 NotWorth)";
    case EARLIEST_NO_ORDER: return "the list is no order of the nodes (27 NoOrder)";
    case EARLIEST_BAD_LINE: return "a line is not what its place asks (31 BadLine)";
    case EARLIEST_NOT_ATTAINED: return "a line is not attained (32 NotAttained)";
    case EARLIEST_NOT_LEAST: return "a line is not the least arrival (33 NotLeast)";
    case EARLIEST_NOT_CANONICAL: return "a line is not the canonical walk (35 NotCanonical)";
    default: return "this is no number of a call";
    }
}

#ifdef __cplusplus
}
#endif
#endif
