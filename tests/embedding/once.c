/* Queries on a path, for who counts instructions: its words are the sort of query, a number of nodes and a number of queries. Exits with 1 if an
 * answer is wrong. */
#include <stdlib.h>
#include <string.h>

#include "earliest.h"

int main(int count, char **words) {
    if (count != 4) return 2;
    uint32_t nodes = strtoul(words[2], NULL, 10), queries = strtoul(words[3], NULL, 10), one = 1, *lists = malloc(3 * sizeof *lists * nodes);
    uint64_t zero = 0, by = nodes - 1, time = 7, *out = malloc(sizeof *out * nodes);
    earliest_road road = EARLIEST_NOTHING, turned = EARLIEST_NOTHING;
    earliest_search search = EARLIEST_NOTHING, until = EARLIEST_NOTHING;
    earliest_fault fault;
    for (uint32_t at = 0; at + 1 < nodes; at++) lists[at] = at + 1, lists[nodes + at] = at + 2, lists[2 * nodes + at] = 1;
    if (earliest_road_of_arcs(nodes, lists, lists + nodes, lists + 2 * nodes, NULL, nodes - 1, NULL, 0, &road, &fault) || earliest_road_turned(&road, &turned)) return 1;
    if (earliest_search_new(&road, 0, &search) || earliest_search_new_until(&turned, 0, &until)) return 1;
    for (uint32_t query = 0; query < queries; query++) {
        int failed = 0;
        if (!strcmp(words[1], "from")) failed = earliest_search_from(&search, &one, 1, &zero, 1) || earliest_search_arrivals(&search, out, nodes) || out[nodes - 1] != by;
        if (!strcmp(words[1], "pair")) failed = earliest_search_pair(&search, 1, 0, nodes) || earliest_search_arrival(&search, nodes, &time) || time != by;
        if (!strcmp(words[1], "asking")) failed = earliest_search_asking(&search, &one, 1, &zero, 1, &nodes, 1) || earliest_search_answers(&search, out, 1) || out[0] != by;
        if (!strcmp(words[1], "until")) failed = earliest_search_until(&until, &nodes, 1, &by, 1) || earliest_search_departures(&until, out, nodes) || out[0] != 0;
        if (!strcmp(words[1], "pair_until")) failed = earliest_search_pair_until(&until, 1, nodes, by) || earliest_search_departure(&until, 1, &time) || time != 0;
        if (failed) return 1;
    }
    earliest_search_free(&search), earliest_search_free(&until), earliest_road_free(&road), earliest_road_free(&turned);
    free(lists), free(out);
    return 0;
}
