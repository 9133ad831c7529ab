/* Four threads with one search of the example four-nodes: 100,000 calls, each of which is right or refused. Four threads with a search each on
 * one prepared road: each pair is the plain road's. The word is the network's file. Exits with 1 and the line of the first test that fails, or 0. */
#include <pthread.h>
#include <sched.h>
#include <stdio.h>
#include <stdlib.h>
#include <string.h>

#include "earliest.h"

#define TEST(holds) do { if (!(holds)) { fprintf(stderr, "line %d: %s\n", __LINE__, #holds); exit(1); } } while (0)
#define THREADS 4
#define ROUNDS 8334

/* From node 1 at time 0. */
static const uint64_t ARRIVALS[4] = {0, 5, 2, 6};

static earliest_search search = EARLIEST_NOTHING;

struct counts { uint64_t done, busy, not_asked; };

static int is_done(struct counts *counts, uint32_t number) {
    TEST(number == 0 || number == EARLIEST_BUSY || number == EARLIEST_NOT_ASKED);
    counts->done += number == 0, counts->busy += number == EARLIEST_BUSY, counts->not_asked += number == EARLIEST_NOT_ASKED;
    if (number == EARLIEST_BUSY) sched_yield();
    return number == 0;
}

/* Three calls a round: a query from node 1, for one target or for all nodes, the arrival at the target, and its walk. */
static void *ask(void *to) {
    struct counts *counts = to;
    const uint32_t first = 1;
    const uint64_t start = 0;
    for (uint32_t round = 0; round < ROUNDS; round++) {
        uint32_t target = 1 + round % 4, walk[3];
        uint64_t arrival = 7, count = 7;
        is_done(counts, round % 3 ? earliest_search_pair(&search, 1, 0, target) : earliest_search_from(&search, &first, 1, &start, 1));
        if (is_done(counts, earliest_search_arrival(&search, target, &arrival))) TEST(arrival == ARRIVALS[target - 1]);
        else TEST(arrival == 7);
        if (is_done(counts, earliest_search_walk(&search, target, walk, 3, &count))) {
            TEST(count == (target == 1 ? 0u : target == 2 ? 2u : target == 3 ? 1u : 3u));
            TEST(target == 1 || walk[0] == 2);
        } else {
            TEST(count == 7);
        }
    }
    return NULL;
}

/* A square of streets, plain and prepared, and the pairs on it. */
enum { SIDE = 30, NODES = SIDE * SIDE, PAIRS = 200 };
static struct { uint32_t source, target, walk[NODES]; uint64_t departure, arrival, count; } pairs[PAIRS];
static earliest_search led[THREADS];

static uint64_t word(void) {
    static uint64_t state = 1;
    state ^= state << 13, state ^= state >> 7, state ^= state << 17;
    return state;
}

/* Each thread asks for all pairs, beginning at another one. */
static void *follow(void *to) {
    earliest_search *alone = to;
    uint32_t *walk = malloc(NODES * sizeof *walk);
    TEST(walk);
    for (int at = 0; at < PAIRS; at++) {
        int it = (at + 50 * (int)(alone - led)) % PAIRS;
        uint64_t arrival = 7, count = 0;
        TEST(earliest_search_pair(alone, pairs[it].source, pairs[it].departure, pairs[it].target) == 0);
        TEST(earliest_search_arrival(alone, pairs[it].target, &arrival) == 0 && arrival == pairs[it].arrival);
        uint32_t number = earliest_search_walk(alone, pairs[it].target, walk, NODES, &count);
        TEST(number == (arrival == EARLIEST_NEVER ? EARLIEST_NOT_REACHED : 0) && count == pairs[it].count);
        TEST(memcmp(walk, pairs[it].walk, count * sizeof *walk) == 0);
    }
    free(walk);
    return NULL;
}

/* Searches on one preparation by four threads, which outlive the roads. */
static void on_one_preparation(void) {
    static uint32_t tails[4 * NODES], heads[4 * NODES], weights[4 * NODES], classes[4 * NODES];
    static const int32_t steps[4] = {1, -1, SIDE, -SIDE};
    static const char tp[] = "p tp 1 0\nk 1 every 60 7\n";
    uint32_t arcs = 0;
    earliest_road road = EARLIEST_NOTHING, prepared = EARLIEST_NOTHING;
    earliest_search plain = EARLIEST_NOTHING;
    earliest_fault fault;
    pthread_t threads[THREADS];
    for (uint32_t at = 0; at < NODES; at++)
        for (int step = 0; step < 4; step++) {
            if ((step == 0 && at % SIDE == SIDE - 1) || (step == 1 && at % SIDE == 0) || at + steps[step] >= NODES || word() % 8 == 0) continue;
            tails[arcs] = at + 1, heads[arcs] = at + 1 + steps[step], weights[arcs] = word() % 30, classes[arcs++] = word() % 2;
        }
    TEST(earliest_road_of_arcs(NODES, tails, heads, weights, classes, arcs, tp, sizeof tp - 1, &road, &fault) == 0);
    TEST(earliest_search_new(&road, 1, &plain) == 0 && earliest_road_prepared(&road, &prepared) == 0);
    for (int it = 0; it < PAIRS; it++) {
        pairs[it].source = 1 + word() % NODES, pairs[it].target = 1 + word() % NODES, pairs[it].departure = word() % 10000;
        TEST(earliest_search_pair(&plain, pairs[it].source, pairs[it].departure, pairs[it].target) == 0);
        TEST(earliest_search_arrival(&plain, pairs[it].target, &pairs[it].arrival) == 0);
        uint32_t number = earliest_search_walk(&plain, pairs[it].target, pairs[it].walk, NODES, &pairs[it].count);
        TEST(number == 0 || (number == EARLIEST_NOT_REACHED && pairs[it].count == 0));
    }
    for (int it = 0; it < THREADS; it++) TEST(earliest_search_new(&prepared, 1, &led[it]) == 0);
    earliest_road_free(&road), earliest_road_free(&prepared);
    for (int it = 0; it < THREADS; it++) TEST(pthread_create(&threads[it], NULL, follow, &led[it]) == 0);
    for (int it = 0; it < THREADS; it++) TEST(pthread_join(threads[it], NULL) == 0);
    for (int it = 0; it < THREADS; it++) TEST(earliest_search_free(&led[it]) == 0);
    TEST(earliest_search_free(&plain) == 0);
}

int main(int count, char **words) {
    static char text[1 << 16];
    static struct counts counts[THREADS];
    earliest_road road = EARLIEST_NOTHING;
    earliest_fault fault;
    pthread_t threads[THREADS];
    FILE *file = count > 1 ? fopen(words[1], "rb") : NULL;
    uint64_t all = 0, done = 0, first = 0;

    TEST(file);
    size_t length = fread(text, 1, sizeof text, file);
    fclose(file);
    TEST(earliest_road_read(text, length, "", 0, &road, &fault) == 0);
    TEST(earliest_search_new(&road, 1, &search) == 0);
    TEST(earliest_search_pair(&search, 1, 0, 4) == 0);
    for (int it = 0; it < THREADS; it++) TEST(pthread_create(&threads[it], NULL, ask, &counts[it]) == 0);
    for (int it = 0; it < THREADS; it++) TEST(pthread_join(threads[it], NULL) == 0);
    for (int it = 0; it < THREADS; it++) {
        all += counts[it].done + counts[it].busy + counts[it].not_asked;
        done += counts[it].done;
    }
    TEST(all == (uint64_t)THREADS * ROUNDS * 3 && done > 0);

    /* While a call is inside, others are refused; afterwards the search answers again. */
    TEST(earliest_enter(&search.inside) == 0 && earliest_enter(&search.inside) == EARLIEST_BUSY);
    TEST(earliest_search_pair(&search, 1, 0, 4) == EARLIEST_BUSY);
    TEST(earliest_search_arrival(&search, 4, &first) == EARLIEST_BUSY && first == 0);
    TEST(earliest_search_new(&road, 1, &search) == EARLIEST_BUSY && earliest_search_free(&search) == EARLIEST_BUSY && search.at);
    earliest_leave(&search.inside);
    TEST(earliest_search_pair(&search, 1, 0, 4) == 0 && earliest_search_arrival(&search, 4, &first) == 0 && first == 6);
    TEST(earliest_search_free(&search) == 0 && search.at == NULL && search.inside == 0);
    earliest_road_free(&road);
    on_one_preparation();
    return 0;
}
