/* The calls of include/earliest.h: happy paths, each refusal, and many calls with bad numbers. Exits with the line of the first test that
 * fails, or 0. Its words are the files of two networks and of the second one's timetables; then,
 * if it is there, the number of arcs of a long path. */
#include <stdio.h>
#include <stdlib.h>
#include <string.h>

#include "earliest.h"

#define TEST(holds) do { if (!(holds)) { fprintf(stderr, "line %d: %s\n", __LINE__, #holds); return 1; } } while (0)

static char *text_of(const char *path, size_t *length) {
    FILE *file = fopen(path, "rb");
    if (!file) exit(2);
    char *text = malloc(1 << 20);
    *length = fread(text, 1, 1 << 20, file);
    fclose(file);
    return text;
}

static uint64_t state = 1;
static uint64_t word(void) {
    state ^= state << 13, state ^= state >> 7, state ^= state << 17;
    return state;
}

/* The example four-nodes: each call on its happy path, and each refusal. */
static int four_nodes(const char *gr, size_t length) {
    earliest_road road = EARLIEST_NOTHING, other = EARLIEST_NOTHING;
    earliest_search search = EARLIEST_NOTHING, plain = EARLIEST_NOTHING;
    earliest_fault fault = {9, 9, 9};
    uint32_t nodes[2] = {1, 4}, walk[3];
    uint64_t departures[2] = {0, 1}, arrivals[4] = {7, 7, 7, 7}, arrival = 7, count = 7;

    TEST(earliest_road_nodes(&road) == 0 && earliest_road_arcs(&road) == 0);
    TEST(earliest_search_new(&road, 1, &search) == EARLIEST_NO_ROAD && search.at == NULL);
    TEST(earliest_search_from(&search, nodes, 1, departures, 1) == EARLIEST_NO_SEARCH);
    TEST(earliest_search_pair(&search, 1, 0, 4) == EARLIEST_NO_SEARCH);
    TEST(earliest_search_arrival(&search, 1, &arrival) == EARLIEST_NO_SEARCH && arrival == 7);
    TEST(earliest_search_arrivals(&search, arrivals, 4) == EARLIEST_NO_SEARCH && arrivals[0] == 7);
    TEST(earliest_search_walk(&search, 4, walk, 3, &count) == EARLIEST_NO_SEARCH && count == 7);

    TEST(earliest_road_read(gr, length, "", 0, &road, &fault) == 0);
    TEST(fault.line == 0 && fault.number == 0 && fault.text == 0);
    TEST(earliest_road_nodes(&road) == 4 && earliest_road_arcs(&road) == 5);
    TEST(earliest_search_new(&road, 1, &search) == 0 && earliest_search_new(&road, 0, &plain) == 0);
    TEST(earliest_search_arrival(&search, 1, &arrival) == 0 && arrival == EARLIEST_NEVER);

    TEST(earliest_search_from(&search, nodes, 1, departures, 1) == 0);
    TEST(earliest_search_arrivals(&search, arrivals, 4) == 0);
    TEST(arrivals[0] == 0 && arrivals[1] == 5 && arrivals[2] == 2 && arrivals[3] == 6);
    TEST(earliest_search_arrival(&search, 2, &arrival) == 0 && arrival == 5);
    TEST(earliest_search_walk(&search, 4, walk, 3, &count) == 0 && count == 3);
    TEST(walk[0] == 2 && walk[1] == 3 && walk[2] == 4);
    TEST(earliest_search_walk(&search, 1, walk, 0, &count) == 0 && count == 0);
    TEST(earliest_search_walk(&search, 4, walk, 2, &count) == EARLIEST_ROOM_TOO_SMALL && count == 3);
    TEST(earliest_search_walk(&search, 0, walk, 3, &count) == EARLIEST_NO_SUCH_NODE);
    TEST(earliest_search_walk(&search, 5, walk, 3, &count) == EARLIEST_NO_SUCH_NODE);
    TEST(earliest_search_arrival(&search, 0, &arrival) == EARLIEST_NO_SUCH_NODE && arrival == 5);
    TEST(earliest_search_arrival(&search, UINT32_MAX, &arrival) == EARLIEST_NO_SUCH_NODE);
    TEST(earliest_search_arrivals(&search, arrivals, 3) == EARLIEST_ROOM_TOO_SMALL);
    TEST(earliest_search_arrivals(&search, arrivals, 0) == EARLIEST_ROOM_TOO_SMALL);

    TEST(earliest_search_from(&search, nodes, 2, departures, 1) == EARLIEST_LENGTHS_DIFFER);
    nodes[1] = 5;
    TEST(earliest_search_from(&search, nodes, 2, departures, 2) == EARLIEST_NO_SUCH_NODE);
    nodes[1] = 0;
    TEST(earliest_search_from(&search, nodes, 2, departures, 2) == EARLIEST_NO_SUCH_NODE);
    nodes[1] = 4, departures[1] = EARLIEST_HORIZON + 1;
    TEST(earliest_search_from(&search, nodes, 2, departures, 2) == EARLIEST_BEYOND_HORIZON);
    TEST(earliest_search_arrival(&search, 4, &arrival) == 0 && arrival == 6);
    departures[1] = 1;
    TEST(earliest_search_from(&search, nodes, 2, departures, 2) == 0);
    TEST(earliest_search_arrival(&search, 4, &arrival) == 0 && arrival == 1);
    TEST(earliest_search_from(&search, nodes, 0, departures, 0) == 0);
    TEST(earliest_search_arrival(&search, 1, &arrival) == 0 && arrival == EARLIEST_NEVER);
    TEST(earliest_search_walk(&search, 1, walk, 3, &count) == EARLIEST_NOT_REACHED);

    TEST(earliest_search_pair(&search, 0, 0, 4) == EARLIEST_NO_SUCH_NODE);
    TEST(earliest_search_pair(&search, 1, 0, 0) == EARLIEST_NO_SUCH_NODE);
    TEST(earliest_search_pair(&search, 1, 0, 5) == EARLIEST_NO_SUCH_NODE);
    TEST(earliest_search_pair(&search, 1, EARLIEST_HORIZON + 1, 4) == EARLIEST_BEYOND_HORIZON);
    TEST(earliest_search_pair(&search, 1, 0, 4) == 0);
    TEST(earliest_search_arrival(&search, 4, &arrival) == 0 && arrival == 6);
    TEST(earliest_search_arrival(&search, 2, &arrival) == EARLIEST_NOT_ASKED);
    TEST(earliest_search_arrivals(&search, arrivals, 4) == EARLIEST_NOT_ASKED);
    TEST(earliest_search_walk(&search, 4, walk, 3, &count) == 0 && count == 3);

    TEST(earliest_search_from(&plain, nodes, 1, departures, 1) == 0);
    TEST(earliest_search_walk(&plain, 4, walk, 3, &count) == EARLIEST_NO_WALKS);
    TEST(earliest_search_arrival(&plain, 4, &arrival) == 0 && arrival == 6);

    /* A search works when its road was freed, and a handle that is filled anew frees its former value. */
    earliest_road_free(&road);
    earliest_road_free(&road);
    TEST(road.at == NULL);
    TEST(earliest_search_from(&search, nodes, 1, departures, 1) == 0);
    TEST(earliest_search_arrival(&search, 4, &arrival) == 0 && arrival == 6);
    TEST(earliest_road_read(gr, length, "", 0, &road, &fault) == 0 && earliest_road_read(gr, length, "", 0, &road, &fault) == 0);
    TEST(earliest_search_new(&road, 1, &search) == 0 && earliest_search_arrival(&search, 4, &arrival) == 0 && arrival == EARLIEST_NEVER);

    /* Reports: right ones, each by itself and together, and wrong ones. */
    static const char right[] = "s 1 0\nd 1 0\nd 2 5\nd 3 2\nd 4 6\n", early[] = "s 1 0\nd 1 0\nd 2 4\nd 3 2\nd 4 6\n";
    static const char late[] = "s 1 0\nd 1 0\nd 2 7\nd 3 2\nd 4 8\n", ill[] = "s 1 0\nd 1 0\nd 2 x\n";
    earliest_starts starts = {0, 0, 0};
    nodes[0] = 1;
    TEST(earliest_check(&road, nodes, 1, &starts, right, sizeof right - 1, &fault) == 0 && fault.number == 0 && fault.text == 0);
    TEST(earliest_check(&road, nodes, 1, &starts, early, sizeof early - 1, &fault) == EARLIEST_NOT_ATTAINED);
    TEST(fault.line == 3 && fault.number == EARLIEST_NOT_ATTAINED && fault.text == 3);
    TEST(earliest_check(&road, nodes, 1, &starts, late, sizeof late - 1, &fault) == EARLIEST_NOT_LEAST && fault.line == 3);
    TEST(earliest_check(&road, nodes, 1, &starts, ill, sizeof ill - 1, &fault) == EARLIEST_BAD_LINE && fault.line == 3);
    TEST(earliest_check(&road, nodes, 1, &starts, "", 0, &fault) == EARLIEST_BAD_LINE && fault.line == 0 && fault.text == 3);
    TEST(earliest_check(&road, nodes, 0, &starts, "", 0, &fault) == 0);
    nodes[0] = 5;
    TEST(earliest_check(&road, nodes, 1, &starts, right, sizeof right - 1, &fault) == EARLIEST_NO_SUCH_NODE && fault.text == 0);
    nodes[0] = 0;
    TEST(earliest_check(&road, nodes, 1, &starts, right, sizeof right - 1, &fault) == EARLIEST_NO_SUCH_NODE);
    nodes[0] = 1, starts.depart = EARLIEST_HORIZON + 1;
    TEST(earliest_check(&road, nodes, 1, &starts, right, sizeof right - 1, &fault) == EARLIEST_BEYOND_HORIZON);
    starts.depart = 1, starts.joint = 1;
    TEST(earliest_check(&road, nodes, 1, &starts, right, sizeof right - 1, &fault) == EARLIEST_BAD_LINE && fault.line == 1);
    TEST(earliest_check(&other, nodes, 1, &starts, right, sizeof right - 1, &fault) == EARLIEST_NO_ROAD);

    /* Faults of texts. */
    TEST(earliest_road_read("", 0, "", 0, &other, &fault) == EARLIEST_NO_PROBLEM_LINE && fault.line == 0 && fault.text == 1);
    TEST(earliest_road_read("p sp 2 1\na 1 3 1\n", 17, "", 0, &road, &fault) == EARLIEST_OUT_OF_RANGE);
    TEST(fault.line == 2 && fault.number == EARLIEST_OUT_OF_RANGE && fault.text == 1);
    TEST(earliest_road_read(gr, length, "x\n", 2, &other, &fault) == EARLIEST_UNKNOWN_LINE && fault.line == 1 && fault.text == 2);
    TEST(other.at == NULL && earliest_road_nodes(&road) == 4);
    /* A handle of the other kind holds nothing of this one. */
    TEST(earliest_road_nodes((earliest_road *)&search) == 0);
    TEST(earliest_search_from((earliest_search *)&road, nodes, 1, departures, 1) == EARLIEST_NO_SEARCH);
    TEST(strstr(earliest_message(EARLIEST_NO_ROAD), "NoRoad") != NULL);
    earliest_search_free(&search), earliest_search_free(&plain), earliest_road_free(&road);
    TEST(search.at == NULL);
    return 0;
}

/* Queries for some nodes: arrivals in the order of the asked nodes, beside other queries of the same search, and each refusal. */
static int asking(const char *gr, size_t length) {
    earliest_road road = EARLIEST_NOTHING;
    earliest_search search = EARLIEST_NOTHING, until = EARLIEST_NOTHING;
    earliest_fault fault;
    uint32_t nodes[2] = {1, 4}, asked[4] = {4, 2, 4, 1}, walk[3];
    uint64_t departures[2] = {0, 1}, out[5] = {7, 7, 7, 7, 7}, arrival = 7, count = 7;
    TEST(earliest_search_asking(&search, nodes, 1, departures, 1, asked, 4) == EARLIEST_NO_SEARCH && search.at == NULL);
    TEST(earliest_search_answers(&search, out, 4) == EARLIEST_NO_SEARCH && out[0] == 7);
    TEST(earliest_road_read(gr, length, "", 0, &road, &fault) == 0 && earliest_search_new(&road, 1, &search) == 0);
    TEST(earliest_search_answers(&search, out, 4) == EARLIEST_NOT_ASKED && earliest_search_answers(&search, out, 0) == EARLIEST_NOT_ASKED && out[0] == 7);

    TEST(earliest_search_asking(&search, nodes, 1, departures, 1, asked, 4) == 0 && earliest_search_answers(&search, out, 4) == 0);
    TEST(out[0] == 6 && out[1] == 5 && out[2] == 6 && out[3] == 0 && out[4] == 7);
    /* The other calls read what the last other query found, and the answers at asked nodes stay as other queries come. */
    TEST(earliest_search_arrival(&search, 4, &arrival) == 0 && arrival == EARLIEST_NEVER);
    TEST(earliest_search_from(&search, nodes + 1, 1, departures, 1) == 0 && earliest_search_pair(&search, 1, 0, 4) == 0);
    TEST(earliest_search_answers(&search, out, 4) == 0 && out[0] == 6 && out[1] == 5 && out[2] == 6 && out[3] == 0);
    TEST(earliest_search_asking(&search, nodes, 2, departures, 2, asked, 2) == 0);
    TEST(earliest_search_walk(&search, 4, walk, 3, &count) == 0 && count == 3 && walk[0] == 2 && walk[1] == 3 && walk[2] == 4);
    TEST(earliest_search_answers(&search, out, 2) == 0 && out[0] == 1 && out[1] == 5 && out[2] == 6);
    TEST(earliest_search_asking(&search, nodes + 1, 1, departures, 1, asked, 2) == 0 && earliest_search_answers(&search, out, 2) == 0);
    TEST(out[0] == 0 && out[1] == EARLIEST_NEVER);
    out[0] = 7;
    TEST(earliest_search_answers(&search, out, 1) == EARLIEST_ROOM_TOO_SMALL && earliest_search_answers(&search, out, 3) == EARLIEST_ROOM_TOO_SMALL && out[0] == 7);

    /* A refused query leaves the answers of the one before. */
    TEST(earliest_search_asking(&search, nodes, 1, departures, 2, asked, 2) == EARLIEST_LENGTHS_DIFFER);
    TEST(earliest_search_asking(&search, nodes, 2, departures, 1, asked, 2) == EARLIEST_LENGTHS_DIFFER);
    nodes[0] = 5;
    TEST(earliest_search_asking(&search, nodes, 1, departures, 1, asked, 2) == EARLIEST_NO_SUCH_NODE);
    nodes[0] = 1, departures[0] = EARLIEST_HORIZON + 1;
    TEST(earliest_search_asking(&search, nodes, 1, departures, 1, asked, 2) == EARLIEST_BEYOND_HORIZON);
    departures[0] = 0, asked[1] = 5;
    TEST(earliest_search_asking(&search, nodes, 1, departures, 1, asked, 2) == EARLIEST_NO_SUCH_NODE);
    asked[1] = 0;
    TEST(earliest_search_asking(&search, nodes, 1, departures, 1, asked, 2) == EARLIEST_NO_SUCH_NODE);
    TEST(earliest_search_answers(&search, out, 2) == 0 && out[0] == 0 && out[1] == EARLIEST_NEVER);

    /* No nodes, no sources, and a search whose road was freed; a search for latest departures refuses both calls. */
    TEST(earliest_search_asking(&search, nodes, 1, departures, 1, asked, 0) == 0 && earliest_search_answers(&search, out, 0) == 0);
    TEST(earliest_search_answers(&search, out, 1) == EARLIEST_ROOM_TOO_SMALL);
    asked[1] = 1;
    TEST(earliest_search_asking(&search, nodes, 0, departures, 0, asked, 4) == 0 && earliest_search_answers(&search, out, 4) == 0);
    TEST(out[0] == EARLIEST_NEVER && out[3] == EARLIEST_NEVER);
    earliest_road turned = EARLIEST_NOTHING;
    TEST(earliest_road_turned(&road, &turned) == 0 && earliest_search_new_until(&turned, 1, &until) == 0);
    earliest_road_free(&road), earliest_road_free(&turned);
    TEST(earliest_search_asking(&search, nodes, 1, departures, 1, asked, 1) == 0 && earliest_search_answers(&search, out, 1) == 0 && out[0] == 6);
    TEST(earliest_search_asking(&until, nodes, 1, departures, 1, asked, 1) == EARLIEST_NO_SEARCH && earliest_search_answers(&until, out, 1) == EARLIEST_NO_SEARCH);
    earliest_search_free(&search), earliest_search_free(&until);
    TEST(earliest_search_answers(&search, out, 1) == EARLIEST_NO_SEARCH);
    return 0;
}

/* Whether two roads have the same arrivals and walks from a node. */
static int alike(earliest_road *one, earliest_road *other, uint32_t from) {
    earliest_road *roads[2] = {one, other};
    uint64_t arrivals[2][16], departure = word() % 20, counts[2];
    uint32_t walks[2][32], nodes = earliest_road_nodes(one);
    earliest_search searches[2] = {EARLIEST_NOTHING, EARLIEST_NOTHING};
    for (int i = 0; i < 2; i++) {
        TEST(earliest_search_new(roads[i], 1, &searches[i]) == 0 && earliest_search_from(&searches[i], &from, 1, &departure, 1) == 0);
        TEST(earliest_search_arrivals(&searches[i], arrivals[i], nodes) == 0);
    }
    TEST(memcmp(arrivals[0], arrivals[1], nodes * sizeof **arrivals) == 0);
    for (uint32_t node = 1; node <= nodes; node++) {
        uint32_t numbers[2];
        for (int i = 0; i < 2; i++) counts[i] = 0, numbers[i] = earliest_search_walk(&searches[i], node, walks[i], 32, &counts[i]);
        TEST(numbers[0] == numbers[1] && counts[0] == counts[1] && memcmp(walks[0], walks[1], counts[0] * sizeof **walks) == 0);
    }
    for (int i = 0; i < 2; i++) earliest_search_free(&searches[i]);
    return 0;
}

/* Random networks of lists beside the same of texts, with timetables and without. */
static int of_lists(void) {
    static const char kinds[] = "k 1 every 10 3\nk 2 closed 4 9\nk 3 rush 2 12 5\n";
    uint32_t tails[24], heads[24], weights[24], classes[24];
    for (int turn = 0; turn < 300; turn++) {
        earliest_road read = EARLIEST_NOTHING, made = EARLIEST_NOTHING;
        earliest_fault fault;
        char gr[2048], tp[2048], text[256];
        uint32_t nodes = 1 + word() % 16, count = word() % 25, timed = word() % 2;
        int gr_length = sprintf(gr, "p sp %u %u\n", (unsigned)nodes, (unsigned)count), length = sprintf(text, "p tp 3 0\n%s", kinds);
        int tp_length = sprintf(tp, "p tp 3 %u\n%s", (unsigned)count, kinds);
        for (uint32_t i = 0; i < count; i++) {
            tails[i] = 1 + word() % nodes, heads[i] = 1 + word() % nodes, weights[i] = word() % 12, classes[i] = word() % 4;
            gr_length += sprintf(gr + gr_length, "a %u %u %u\n", (unsigned)tails[i], (unsigned)heads[i], (unsigned)weights[i]);
            tp_length += sprintf(tp + tp_length, "t %u %u\n", (unsigned)i + 1, (unsigned)classes[i]);
        }
        TEST(earliest_road_read(gr, gr_length, tp, timed ? tp_length : 0, &read, &fault) == 0);
        TEST(earliest_road_of_arcs(nodes, tails, heads, weights, timed ? classes : NULL, count, text, timed ? length : 0, &made, &fault) == 0);
        TEST(fault.line == 0 && fault.number == 0 && fault.text == 0);
        TEST(earliest_road_nodes(&made) == nodes && earliest_road_arcs(&made) == count);
        TEST(alike(&read, &made, 1 + word() % nodes) == 0);
        earliest_road_free(&read), earliest_road_free(&made);
    }
    return 0;
}

/* Each refusal of a road of lists, by which the handle stays as it was. */
static int no_lists(void) {
    static const char two[] = "p tp 2 0\nk 1 plain\nk 2 plain\n", assigned[] = "p tp 1 1\nk 1 plain\nt 1 1\n";
    earliest_road road = EARLIEST_NOTHING;
    earliest_fault fault = {9, 9, 9};
    uint32_t tails[3] = {1, 2, 3}, heads[3] = {2, 3, 1}, weights[3] = {4, 5, 6}, classes[3] = {0, 1, 2};
    TEST(earliest_road_of_arcs(3, tails, heads, weights, classes, 3, two, sizeof two - 1, &road, &fault) == 0 && road.at != NULL);
    void *at = road.at;
    TEST(earliest_road_of_lists(3, tails, 3, heads, 2, weights, 3, classes, 0, "", 0, &road, &fault) == EARLIEST_LENGTHS_DIFFER);
    TEST(fault.line == 0 && fault.number == EARLIEST_LENGTHS_DIFFER && fault.text == 0);
    TEST(earliest_road_of_lists(3, tails, 3, heads, 3, weights, 2, classes, 0, "", 0, &road, &fault) == EARLIEST_LENGTHS_DIFFER);
    TEST(earliest_road_of_lists(0, tails, 3, heads, 3, weights, 3, classes, 2, "", 0, &road, &fault) == EARLIEST_LENGTHS_DIFFER);
    TEST(earliest_road_of_arcs(0, tails, heads, weights, NULL, 0, "", 0, &road, &fault) == EARLIEST_OUT_OF_RANGE && fault.line == 1 && fault.text == 1);
    TEST(earliest_road_of_arcs(67108865, tails, heads, weights, NULL, 3, "", 0, &road, &fault) == EARLIEST_OUT_OF_RANGE && fault.line == 1);
    TEST(earliest_road_of_arcs(2, tails, heads, weights, NULL, 3, "x", 1, &road, &fault) == EARLIEST_OUT_OF_RANGE && fault.line == 3 && fault.text == 1);
    tails[0] = 0;
    TEST(earliest_road_of_arcs(3, tails, heads, weights, NULL, 3, "", 0, &road, &fault) == EARLIEST_OUT_OF_RANGE && fault.line == 2);
    tails[0] = 1, heads[2] = UINT32_MAX, weights[2] = UINT32_MAX;
    TEST(earliest_road_of_arcs(3, tails, heads, weights, NULL, 3, "", 0, &road, &fault) == EARLIEST_OUT_OF_RANGE && fault.line == 4);
    heads[2] = 1;
    TEST(earliest_road_of_arcs(3, tails, heads, weights, classes, 3, "x\n", 2, &road, &fault) == EARLIEST_UNKNOWN_LINE && fault.line == 1 && fault.text == 2);
    TEST(earliest_road_of_arcs(3, tails, heads, weights, classes, 3, assigned, sizeof assigned - 1, &road, &fault) == EARLIEST_OUT_OF_RANGE);
    TEST(fault.line == 3 && fault.text == 2);
    TEST(earliest_road_of_arcs(3, tails, heads, weights, classes, 3, "", 0, &road, &fault) == EARLIEST_OUT_OF_RANGE && fault.line == 0 && fault.text == 2);
    classes[0] = 3;
    TEST(earliest_road_of_arcs(3, tails, heads, weights, classes, 3, two, sizeof two - 1, &road, &fault) == EARLIEST_OUT_OF_RANGE && fault.text == 2);
    TEST(road.at == at && earliest_road_arcs(&road) == 3);
    TEST(earliest_road_of_arcs(1, tails, heads, weights, NULL, 0, "", 0, &road, &fault) == 0 && earliest_road_arcs(&road) == 0);
    earliest_road_free(&road);
    return 0;
}

/* A number that is bad more often than not. */
static uint64_t any(uint64_t near) {
    switch (word() % 6) {
    case 0: return 0;
    case 1: return word();
    case 2: return near + word() % 3;
    case 3: return UINT64_MAX - word() % 2;
    case 4: return EARLIEST_HORIZON + word() % 2;
    default: return near ? word() % near + 1 : 0;
    }
}

/* 100,000 calls with such numbers, on handles of any state. */
static int many(const char *gr, size_t gr_length, const char *tp, size_t tp_length) {
    earliest_road roads[2] = {EARLIEST_NOTHING, EARLIEST_NOTHING};
    earliest_search searches[3] = {EARLIEST_NOTHING, EARLIEST_NOTHING, EARLIEST_NOTHING};
    earliest_fault fault;
    uint32_t nodes[4], out[64];
    uint64_t departures[4], one, *all = malloc(4096 * sizeof *all);
    for (int call = 0; call < 100000; call++) {
        earliest_road *road = &roads[word() % 2];
        earliest_search *search = &searches[word() % 3];
        uint32_t size = earliest_road_nodes(road);
        for (int i = 0; i < 4; i++) nodes[i] = (uint32_t)any(size), departures[i] = any(1000);
        uint32_t number = 0;
        switch (word() % 44) {
        case 0: number = earliest_road_read(gr, word() % 3 ? gr_length : word() % gr_length, tp, word() % 2 ? tp_length : word() % tp_length, road, &fault); break;
        case 1: earliest_road_free(road); break;
        case 2: earliest_search_free(search); break;
        case 3: case 4: number = earliest_search_new(road, (uint32_t)any(1), search); break;
        case 5: case 6: case 7: case 8: number = earliest_search_from(search, nodes, word() % 5, departures, word() % 5); break;
        case 9: case 10: case 11: number = earliest_search_from(search, nodes, 1, departures, 1); break;
        case 12: case 13: case 14: case 15: number = earliest_search_pair(search, nodes[0], departures[0], nodes[1]); break;
        case 16: case 17: number = earliest_search_arrivals(search, all, word() % 2 ? size : word() % 4096); break;
        case 18: case 19: case 20: case 21: case 22: case 23: number = earliest_search_walk(search, nodes[0], out, word() % 65, &one); break;
        case 24: number = earliest_check(road, nodes, word() % 5, &(earliest_starts){any(9), any(9), (uint32_t)any(1)}, tp, word() % tp_length, &fault); break;
        case 25: number = earliest_road_of_lists(nodes[0], nodes, word() % 5, nodes, word() % 5, nodes, word() % 5, nodes, word() % 5, tp, word() % 2, road, &fault); break;
        case 26: number = earliest_road_turned(road, &roads[word() % 2]); break;
        case 27: number = earliest_search_new_until(road, (uint32_t)any(1), search); break;
        case 28: case 29: number = earliest_search_until(search, nodes, word() % 5, departures, word() % 5); break;
        case 30: number = earliest_search_pair_until(search, nodes[0], nodes[1], departures[0]); break;
        case 31: number = earliest_search_departures(search, all, word() % 2 ? size : word() % 4096); break;
        case 32: number = earliest_search_walk_until(search, nodes[0], out, word() % 65, &one); break;
        case 33: number = earliest_search_departure(search, nodes[0], &one); break;
        case 34: case 35: number = earliest_search_asking(search, nodes, word() % 5, departures, word() % 5, nodes, word() % 5); break;
        case 36: number = earliest_search_asking(search, nodes, 1, departures, 1, nodes, word() % 5); break;
        case 37: number = earliest_search_answers(search, all, word() % 5); break;
        default: number = earliest_search_arrival(search, nodes[0], &one); break;
        }
        TEST(number <= 35);
    }
    for (int i = 0; i < 2; i++) earliest_road_free(&roads[i]);
    for (int i = 0; i < 3; i++) earliest_search_free(&searches[i]);
    free(all);
    return 0;
}

/* The example four-nodes turned round: latest departures, walks to targets, and refusals. */
static int latest(const char *gr, size_t length) {
    earliest_road road = EARLIEST_NOTHING, turned = EARLIEST_NOTHING;
    earliest_search search = EARLIEST_NOTHING, plain = EARLIEST_NOTHING, forward = EARLIEST_NOTHING;
    earliest_fault fault;
    uint32_t nodes[2] = {4, 3}, walk[3] = {9, 9, 9};
    uint64_t times[2] = {6, 1}, departures[4] = {7, 7, 7, 7}, departure = 7, count = 7;

    TEST(earliest_road_turned(&road, &turned) == EARLIEST_NO_ROAD && turned.at == NULL);
    TEST(earliest_search_new_until(&turned, 1, &search) == EARLIEST_NO_ROAD && search.at == NULL);
    TEST(earliest_search_until(&search, nodes, 1, times, 1) == EARLIEST_NO_SEARCH);
    TEST(earliest_road_read(gr, length, "", 0, &road, &fault) == 0);
    TEST(earliest_search_new_until(&road, 1, &search) == EARLIEST_NO_ROAD);
    TEST(earliest_road_turned(&road, &turned) == 0 && earliest_road_turned(&turned, &road) == EARLIEST_NO_ROAD && road.at);
    TEST(earliest_road_nodes(&turned) == 0 && earliest_search_new(&turned, 1, &forward) == EARLIEST_NO_ROAD);
    TEST(earliest_search_new_until(&turned, 1, &search) == 0 && earliest_search_new_until(&turned, 0, &plain) == 0);
    TEST(earliest_search_new(&road, 1, &forward) == 0);
    earliest_road_free(&road), earliest_road_free(&turned);
    TEST(turned.at == NULL);
    TEST(earliest_search_departure(&search, 1, &departure) == 0 && departure == EARLIEST_NEVER);

    TEST(earliest_search_until(&search, nodes, 1, times, 1) == 0 && earliest_search_departures(&search, departures, 4) == 0);
    TEST(departures[0] == 0 && departures[1] == 5 && departures[2] == 2 && departures[3] == 6);
    TEST(earliest_search_walk_until(&search, 1, walk, 3, &count) == 0 && count == 3 && walk[0] == 2 && walk[1] == 3 && walk[2] == 4);
    TEST(earliest_search_walk_until(&search, 3, walk, 3, &count) == 0 && count == 2 && walk[0] == 3 && walk[1] == 4);
    TEST(earliest_search_walk_until(&search, 4, walk, 0, &count) == 0 && count == 0);
    TEST(earliest_search_walk_until(&search, 1, walk, 2, &count) == EARLIEST_ROOM_TOO_SMALL && count == 3);
    TEST(earliest_search_departures(&search, departures, 3) == EARLIEST_ROOM_TOO_SMALL);
    times[0] = 5;
    TEST(earliest_search_until(&search, nodes, 1, times, 1) == 0 && earliest_search_departures(&search, departures, 4) == 0);
    TEST(departures[0] == EARLIEST_NEVER && departures[1] == 4 && departures[2] == 1 && departures[3] == 5);
    TEST(earliest_search_walk_until(&search, 1, walk, 3, &count) == EARLIEST_NOT_REACHED);
    /* Node 3 by 1 and node 4 by 5: leaving 3 at 1 is in time for both, and at 3 the empty walk is the shorter one. */
    TEST(earliest_search_until(&search, nodes, 2, times, 2) == 0 && earliest_search_departure(&search, 3, &departure) == 0 && departure == 1);
    TEST(earliest_search_walk_until(&search, 3, walk, 3, &count) == 0 && count == 0);
    TEST(earliest_search_until(&search, nodes, 0, times, 0) == 0 && earliest_search_departure(&search, 4, &departure) == 0 && departure == EARLIEST_NEVER);

    TEST(earliest_search_pair_until(&search, 1, 4, 6) == 0 && earliest_search_departure(&search, 1, &departure) == 0 && departure == 0);
    TEST(earliest_search_walk_until(&search, 1, walk, 3, &count) == 0 && count == 3 && walk[0] == 2);
    TEST(earliest_search_departure(&search, 4, &departure) == EARLIEST_NOT_ASKED && departure == 0);
    TEST(earliest_search_departures(&search, departures, 4) == EARLIEST_NOT_ASKED);
    TEST(earliest_search_pair_until(&search, 4, 1, 6) == 0 && earliest_search_departure(&search, 4, &departure) == 0 && departure == EARLIEST_NEVER);
    TEST(earliest_search_pair_until(&search, 1, 4, EARLIEST_HORIZON) == 0 && earliest_search_departure(&search, 1, &departure) == 0);
    TEST(departure == EARLIEST_HORIZON - 6);

    times[0] = 6;
    TEST(earliest_search_until(&search, nodes, 1, times, 1) == 0);
    TEST(earliest_search_until(&search, nodes, 2, times, 1) == EARLIEST_LENGTHS_DIFFER);
    nodes[1] = 5;
    TEST(earliest_search_until(&search, nodes, 2, times, 2) == EARLIEST_NO_SUCH_NODE);
    nodes[1] = 3, times[1] = EARLIEST_HORIZON + 1;
    TEST(earliest_search_until(&search, nodes, 2, times, 2) == EARLIEST_BEYOND_HORIZON);
    TEST(earliest_search_pair_until(&search, 0, 4, 6) == EARLIEST_NO_SUCH_NODE && earliest_search_pair_until(&search, 1, 5, 6) == EARLIEST_NO_SUCH_NODE);
    TEST(earliest_search_pair_until(&search, 1, 4, EARLIEST_HORIZON + 1) == EARLIEST_BEYOND_HORIZON);
    TEST(earliest_search_departure(&search, 2, &departure) == 0 && departure == 5);
    TEST(earliest_search_departure(&search, 0, &departure) == EARLIEST_NO_SUCH_NODE && earliest_search_departure(&search, 5, &departure) == EARLIEST_NO_SUCH_NODE);

    TEST(earliest_search_from(&search, nodes, 1, times, 1) == EARLIEST_NO_SEARCH && earliest_search_pair(&search, 1, 0, 4) == EARLIEST_NO_SEARCH);
    TEST(earliest_search_arrival(&search, 2, &departure) == EARLIEST_NO_SEARCH && earliest_search_walk(&search, 1, walk, 3, &count) == EARLIEST_NO_SEARCH);
    TEST(earliest_search_until(&forward, nodes, 1, times, 1) == EARLIEST_NO_SEARCH && earliest_search_departure(&forward, 1, &departure) == EARLIEST_NO_SEARCH);
    TEST(earliest_search_until(&plain, nodes, 1, times, 1) == 0 && earliest_search_departure(&plain, 1, &departure) == 0 && departure == 0);
    TEST(earliest_search_walk_until(&plain, 1, walk, 3, &count) == EARLIEST_NO_WALKS);
    earliest_search_free(&search), earliest_search_free(&plain), earliest_search_free(&forward);
    return 0;
}

/* A path of lists with this many arcs, all of weight 1, from the last node to the first: arrivals, a walk of all arcs, and what `count` is
 * after each refused walk. */
static int long_path(uint32_t arcs) {
    uint32_t *tails = malloc(arcs * sizeof *tails), *heads = malloc(arcs * sizeof *heads), *weights = malloc(arcs * sizeof *weights), *walk = malloc(arcs * sizeof *walk);
    uint64_t *arrivals = malloc((arcs + (size_t)1) * sizeof *arrivals), departure = 5, count = 77, arrival = 0;
    uint32_t from = arcs + 1;
    earliest_road road = EARLIEST_NOTHING;
    earliest_search search = EARLIEST_NOTHING;
    earliest_fault fault;
    TEST(tails && heads && weights && walk && arrivals);
    for (uint32_t i = 0; i < arcs; i++) tails[i] = i + 2, heads[i] = i + 1, weights[i] = 1;
    TEST(earliest_road_of_arcs(arcs + 1, tails, heads, weights, NULL, arcs, "", 0, &road, &fault) == 0);
    TEST(earliest_road_nodes(&road) == arcs + 1 && earliest_road_arcs(&road) == arcs);
    TEST(earliest_search_new(&road, 1, &search) == 0);
    TEST(earliest_search_from(&search, &from, 1, &departure, 1) == 0);
    TEST(earliest_search_arrivals(&search, arrivals, arcs + (size_t)1) == 0);
    for (uint32_t i = 0; i <= arcs; i++) TEST(arrivals[i] == departure + arcs - i);
    TEST(earliest_search_walk(&search, 1, walk, arcs - 1, &count) == EARLIEST_ROOM_TOO_SMALL && count == arcs);
    count = 77;
    TEST(earliest_search_walk(&search, arcs + 2, walk, arcs, &count) == EARLIEST_NO_SUCH_NODE && count == 77);
    TEST(earliest_search_walk(&search, 1, walk, arcs, &count) == 0 && count == arcs);
    for (uint32_t i = 0; i < arcs; i++) TEST(walk[i] == arcs - i);
    from = 1, count = 77;
    TEST(earliest_search_from(&search, &from, 1, &departure, 1) == 0);
    TEST(earliest_search_walk(&search, 2, walk, arcs, &count) == EARLIEST_NOT_REACHED && count == 77);
    TEST(earliest_search_pair(&search, arcs + 1, departure, 1) == 0);
    TEST(earliest_search_arrival(&search, 1, &arrival) == 0 && arrival == departure + arcs);
    TEST(earliest_search_walk(&search, 2, walk, arcs, &count) == EARLIEST_NOT_ASKED && count == 77);
    TEST(earliest_search_walk(&search, 1, walk, arcs, &count) == 0 && count == arcs && walk[0] == arcs && walk[arcs - 1] == 1);
    count = 77;
    TEST(earliest_search_new(&road, 0, &search) == 0 && earliest_search_from(&search, &from, 1, &departure, 1) == 0);
    TEST(earliest_search_walk(&search, 1, walk, arcs, &count) == EARLIEST_NO_WALKS && count == 77);
    earliest_search_free(&search), earliest_road_free(&road);
    free(tails), free(heads), free(weights), free(walk), free(arrivals);
    return 0;
}

/* A road and the same road prepared: a square of streets of which each has a class by chance, with timetables. The pairs of
 * the prepared one have the arrivals and walks of the other, and all other calls are the same. */
enum { SIDE = 40 };
/* A large grid whose nodes are numbered at random, with timetables, and the same laid out: all arrivals, walks and latest departures are alike. A
 * grid in order isn't laid out, nor a road that isn't there. */
static int laid_out(void) {
    static const char tp[] = "p tp 2 0\nk 1 every 60 7\nk 2 speeds 86400 3\nv 0 1000\nv 24000 250\nv 36000 1000\n";
    enum { WIDE = 260, NODES = WIDE * WIDE };
    static uint32_t numbers[NODES], tails[4 * NODES], heads[4 * NODES], weights[4 * NODES], classes[4 * NODES], walks[2][NODES];
    static uint64_t arrivals[2][NODES];
    static const int32_t steps[4] = {1, -1, WIDE, -WIDE};
    earliest_road roads[2] = {EARLIEST_NOTHING, EARLIEST_NOTHING}, empty = EARLIEST_NOTHING, turned = EARLIEST_NOTHING;
    earliest_search searches[2] = {EARLIEST_NOTHING, EARLIEST_NOTHING};
    earliest_fault fault;
    for (uint32_t at = 0; at < NODES; at++) numbers[at] = at + 1;
    for (int is_shuffled = 0; is_shuffled < 2; is_shuffled++) {
        uint32_t arcs = 0;
        for (uint32_t at = 0; at < NODES; at++)
            for (int step = 0; step < 4; step++) {
                if ((step == 0 && at % WIDE == WIDE - 1) || (step == 1 && at % WIDE == 0) || at + steps[step] >= NODES || word() % 8 == 0) continue;
                tails[arcs] = numbers[at], heads[arcs] = numbers[at + steps[step]], weights[arcs] = word() % 30, classes[arcs++] = word() % 3;
            }
        TEST(earliest_road_of_arcs(NODES, tails, heads, weights, classes, arcs, tp, sizeof tp - 1, &roads[0], &fault) == 0);
        if (is_shuffled) break;
        TEST(earliest_road_laid_out(&roads[0], &roads[1]) == EARLIEST_NOT_WORTH && roads[1].at == NULL);
        for (uint32_t at = 0; at < NODES; at++) {
            uint32_t other = word() % NODES, number = numbers[at];
            numbers[at] = numbers[other], numbers[other] = number;
        }
    }
    TEST(earliest_road_laid_out(&empty, &roads[1]) == EARLIEST_NO_ROAD && roads[1].at == NULL);
    TEST(earliest_road_laid_out(&roads[0], &roads[1]) == 0 && earliest_road_nodes(&roads[1]) == NODES && earliest_road_arcs(&roads[1]) == earliest_road_arcs(&roads[0]));
    TEST(earliest_road_laid_out(&empty, &roads[1]) == EARLIEST_NO_ROAD && earliest_road_nodes(&roads[1]) == NODES);
    /* A layout is no preparation, whose order another road could take. */
    TEST(earliest_road_prepared_like(&roads[0], &roads[1], &empty) == EARLIEST_NO_ORDER && empty.at == NULL);
    for (int round = 0; round < 3; round++) {
        uint32_t sources[2] = {1 + word() % NODES, 1 + word() % NODES}, from = 1 + word() % NODES, reached = 0;
        uint64_t starts[2] = {25000, 25100 + word() % 900}, counts[2] = {0, 0}, times[2] = {0, 1};
        for (int i = 0; i < 2; i++) {
            TEST(earliest_search_new(&roads[i], round != 1, &searches[i]) == 0 && earliest_search_from(&searches[i], sources, 2, starts, 2) == 0);
            TEST(earliest_search_arrivals(&searches[i], arrivals[i], NODES) == 0);
        }
        TEST(memcmp(arrivals[0], arrivals[1], sizeof arrivals[0]) == 0);
        for (uint32_t node = 1; node <= NODES; node += 997) {
            uint32_t said[2];
            for (int i = 0; i < 2; i++) said[i] = earliest_search_walk(&searches[i], node, walks[i], NODES, &counts[i]);
            TEST(said[0] == said[1] && (round == 1 ? said[0] == EARLIEST_NO_WALKS : counts[0] == counts[1]));
            if (said[0] == 0) TEST(memcmp(walks[0], walks[1], counts[0] * sizeof **walks) == 0 && ++reached);
        }
        TEST(round == 1 || reached > 50);
        for (int i = 0; i < 2; i++)
            TEST(earliest_search_pair(&searches[i], sources[0], starts[0], from) == 0 && earliest_search_arrival(&searches[i], from, &times[i]) == 0);
        TEST(times[0] == times[1]);
        for (int i = 0; i < 2; i++) {
            TEST(earliest_road_turned(&roads[i], &turned) == 0 && earliest_search_new_until(&turned, 0, &searches[i]) == 0);
            TEST(earliest_search_until(&searches[i], &from, 1, &starts[1], 1) == 0 && earliest_search_departures(&searches[i], arrivals[i], NODES) == 0);
        }
        TEST(memcmp(arrivals[0], arrivals[1], sizeof arrivals[0]) == 0);
    }
    for (int i = 0; i < 2; i++) earliest_road_free(&roads[i]), earliest_search_free(&searches[i]);
    earliest_road_free(&turned);
    return 0;
}

/* Prepares a road over the order of one that is prepared; a road that isn't, or has other nodes, is refused, and the handles are as they were. */
static int prepared_like(earliest_road *road, earliest_road *led) {
    earliest_road empty = EARLIEST_NOTHING, small = EARLIEST_NOTHING, made = EARLIEST_NOTHING;
    static const char gr[] = "p sp 2 1\na 1 2 3\n";
    uint32_t nodes = earliest_road_nodes(road);
    earliest_fault fault;
    TEST(earliest_road_read(gr, sizeof gr - 1, NULL, 0, &small, &fault) == 0);
    TEST(earliest_road_prepared_like(&empty, led, &made) == EARLIEST_NO_ROAD && earliest_road_prepared_like(road, &empty, &made) == EARLIEST_NO_ORDER);
    TEST(earliest_road_prepared_like(road, &small, &made) == EARLIEST_NO_ORDER && earliest_road_prepared_like(&small, led, &made) == EARLIEST_NO_ORDER && made.at == NULL);
    TEST(earliest_road_prepared_like(road, led, &made) == 0 && earliest_road_nodes(&made) == nodes && earliest_road_nodes(led) == nodes && earliest_road_nodes(road) == nodes);
    TEST(earliest_road_prepared_like(road, &made, led) == 0 && earliest_road_nodes(led) == nodes);
    earliest_road_free(&small), earliest_road_free(&made);
    return 0;
}

/* Prepares a road over orders, and makes a search on the last; lists that are no order are refused, and the handle is as it was. */
static int prepared_by(earliest_road *road, earliest_road *led, uint32_t nodes, uint32_t *order, earliest_search *search) {
    earliest_road empty = EARLIEST_NOTHING;
    for (uint32_t at = 0; at < nodes; at++) order[at] = nodes - at;
    TEST(earliest_road_prepared_by(&empty, order, nodes, led) == EARLIEST_NO_ROAD && earliest_road_prepared_by(road, order, nodes - 1, &empty) == EARLIEST_NO_ORDER);
    order[7] = order[8];
    TEST(earliest_road_prepared_by(road, order, nodes, &empty) == EARLIEST_NO_ORDER && empty.at == NULL);
    order[7] = 0;
    TEST(earliest_road_prepared_by(road, order, nodes, led) == EARLIEST_NO_ORDER && earliest_road_nodes(led) == nodes);
    order[7] = nodes + 1;
    TEST(earliest_road_prepared_by(road, order, nodes, led) == EARLIEST_NO_ORDER && earliest_road_prepared_by(road, NULL, 0, led) == EARLIEST_NO_ORDER);
    order[7] = nodes - 7;
    TEST(earliest_road_prepared_by(road, order, nodes, led) == 0 && earliest_road_nodes(led) == nodes);
    for (uint32_t at = 0; at < nodes; at++) order[at] = (at % SIDE) * (nodes / SIDE) + at / SIDE + 1;
    TEST(earliest_road_prepared_by(road, order, nodes, led) == 0 && earliest_road_nodes(led) == nodes);
    return prepared_like(road, led) != 0 || earliest_search_new(led, 1, search) != 0;
}

static int prepared(void) {
    static const char tp[] = "p tp 2 0\nk 1 every 60 7\nk 2 speeds 86400 3\nv 0 1000\nv 24000 250\nv 36000 1000\n";
    static uint32_t tails[4 * SIDE * SIDE], heads[4 * SIDE * SIDE], weights[4 * SIDE * SIDE], classes[4 * SIDE * SIDE], walks[2][SIDE * SIDE];
    static uint64_t arrivals[2][SIDE * SIDE];
    static const int32_t steps[4] = {1, -1, SIDE, -SIDE};
    uint32_t arcs = 0, nodes = SIDE * SIDE, from = 1;
    uint64_t departure = 25000, counts[2], reached = 0;
    earliest_road road = EARLIEST_NOTHING, led = EARLIEST_NOTHING, empty = EARLIEST_NOTHING, turned = EARLIEST_NOTHING;
    earliest_search searches[2] = {EARLIEST_NOTHING, EARLIEST_NOTHING}, until = EARLIEST_NOTHING;
    earliest_fault fault;
    for (uint32_t at = 0; at < nodes; at++)
        for (int step = 0; step < 4; step++) {
            if ((step == 0 && at % SIDE == SIDE - 1) || (step == 1 && at % SIDE == 0) || at + steps[step] >= nodes || word() % 8 == 0) continue;
            tails[arcs] = at + 1, heads[arcs] = at + 1 + steps[step], weights[arcs] = word() % 30, classes[arcs++] = word() % 3;
        }
    TEST(earliest_road_of_arcs(nodes, tails, heads, weights, classes, arcs, tp, sizeof tp - 1, &road, &fault) == 0);
    TEST(earliest_road_prepared(&empty, &led) == EARLIEST_NO_ROAD && led.at == NULL);
    TEST(earliest_road_prepared(&road, &led) == 0 && earliest_road_nodes(&led) == nodes && earliest_road_arcs(&led) == arcs);
    TEST(earliest_road_prepared(&empty, &led) == EARLIEST_NO_ROAD && earliest_road_nodes(&led) == nodes);
    TEST(earliest_search_new(&road, 1, &searches[0]) == 0);
    TEST(earliest_road_prepared((earliest_road *)&searches[0], &led) == EARLIEST_NO_ROAD && earliest_road_nodes(&led) == nodes);
    /* A prepared road is a road: it is prepared again, turned round and searched to all nodes. */
    TEST(earliest_road_prepared(&led, &empty) == 0 && earliest_road_nodes(&empty) == nodes);
    earliest_road_free(&led);
    TEST(earliest_road_prepared(&road, &led) == 0 && earliest_road_prepared(&road, &led) == 0);
    TEST(earliest_road_turned(&led, &turned) == 0 && earliest_road_prepared(&turned, &led) == EARLIEST_NO_ROAD);
    TEST(earliest_search_new_until(&turned, 0, &until) == 0 && earliest_search_pair_until(&until, 1, nodes, 30000) == 0);
    TEST(earliest_search_new_until(&led, 0, &until) == EARLIEST_NO_ROAD);
    TEST(earliest_search_new(&led, 1, &searches[1]) == 0);
    TEST(prepared_by(&road, &led, nodes, walks[0], &searches[1]) == 0);
    earliest_road_free(&road), earliest_road_free(&empty), earliest_road_free(&led);
    for (int i = 0; i < 2; i++) {
        TEST(earliest_search_from(&searches[i], &from, 1, &departure, 1) == 0 && earliest_search_arrivals(&searches[i], arrivals[i], nodes) == 0);
    }
    TEST(memcmp(arrivals[0], arrivals[1], sizeof arrivals[0]) == 0);
    for (int round = 0; round < 400; round++) {
        uint32_t source = 1 + word() % nodes, target = 1 + word() % nodes;
        uint64_t start = round % 50 ? word() % 100000 : EARLIEST_HORIZON - word() % 500, times[2] = {0, 1};
        uint32_t numbers[2];
        for (int i = 0; i < 2; i++) {
            counts[i] = 7;
            TEST(earliest_search_pair(&searches[i], source, start, target) == 0 && earliest_search_arrival(&searches[i], target, &times[i]) == 0);
            TEST(earliest_search_arrival(&searches[i], source % nodes + 1, &departure) == (source % nodes + 1 == target ? 0 : EARLIEST_NOT_ASKED));
            numbers[i] = earliest_search_walk(&searches[i], target, walks[i], nodes, &counts[i]);
            if (round % 9 == 0) TEST(earliest_search_from(&searches[i], &source, 1, &start, 1) == 0 && earliest_search_arrival(&searches[i], target, &departure) == 0 && departure == times[i]);
        }
        TEST(times[0] == times[1] && numbers[0] == numbers[1] && counts[0] == counts[1]);
        if (numbers[0]) continue;
        TEST(memcmp(walks[0], walks[1], counts[0] * sizeof **walks) == 0);
        reached++;
    }
    TEST(reached > 200);
    TEST(earliest_search_pair(&searches[1], 0, 0, 1) == EARLIEST_NO_SUCH_NODE && earliest_search_pair(&searches[1], 1, 0, nodes + 1) == EARLIEST_NO_SUCH_NODE);
    TEST(earliest_search_pair(&searches[1], 1, EARLIEST_HORIZON + 1, 1) == EARLIEST_BEYOND_HORIZON);
    earliest_search_free(&searches[0]), earliest_search_free(&searches[1]), earliest_search_free(&until), earliest_road_free(&turned);
    return 0;
}

int main(int count, char **words) {
    if (count != 4 && count != 5) return 2;
    size_t four_length, gr_length, tp_length;
    char *four = text_of(words[1], &four_length), *gr = text_of(words[2], &gr_length), *tp = text_of(words[3], &tp_length);
    int failed = four_nodes(four, four_length) || asking(four, four_length) || latest(four, four_length) || of_lists() || no_lists() || many(gr, gr_length, tp, tp_length) || prepared() || laid_out() || long_path(count == 5 ? strtoul(words[4], NULL, 10) : 1000);
    free(four), free(gr), free(tp);
    return failed;
}
