/* The earliest arrival at a node, and the walk to it: walk_to GR SOURCE DEPARTURE TARGET [TP]
 * cc -Iinclude examples/walk_to.c lib/libearliest.a -o walk_to */
#include <inttypes.h>
#include <stdio.h>
#include <stdlib.h>

#include "earliest.h"

/* The text of a file, which the caller frees. */
static char *text_of(const char *path, size_t *length) {
    FILE *file = fopen(path, "rb");
    size_t room = 1 << 16;
    char *text = malloc(room);
    *length = 0;
    while (file && text && (*length += fread(text + *length, 1, room - *length, file)) == room) {
        char *more = realloc(text, room *= 2);
        if (!more) free(text);
        text = more;
    }
    if (file) fclose(file);
    if (file && text) return text;
    fprintf(stderr, "walk_to: %s can't be read\n", path);
    exit(1);
}

int main(int count, char **words) {
    earliest_road road = EARLIEST_NOTHING;
    earliest_search search = EARLIEST_NOTHING;
    earliest_fault fault;
    if (count != 5 && count != 6) return fprintf(stderr, "walk_to GR SOURCE DEPARTURE TARGET [TP]\n"), 2;
    uint32_t source = (uint32_t)strtoul(words[2], NULL, 10), target = (uint32_t)strtoul(words[4], NULL, 10);
    uint64_t departure = strtoull(words[3], NULL, 10), arrival = 0, arcs = 0;

    size_t length, tp_length = 0;
    char *text = text_of(words[1], &length), *tp = count == 6 ? text_of(words[5], &tp_length) : NULL;
    uint32_t number = earliest_road_read(text, length, tp ? tp : "", tp_length, &road, &fault);
    free(text);
    free(tp);
    if (number && fault.text) fprintf(stderr, "%sline %" PRIu64 ": ", fault.text == 2 ? "timetables, " : "", fault.line);
    if (!number) number = earliest_search_new(&road, 1, &search);
    if (!number) number = earliest_search_pair(&search, source, departure, target);
    if (!number) number = earliest_search_arrival(&search, target, &arrival);
    if (!number && arrival == EARLIEST_NEVER) {
        printf("node %" PRIu32 " is not reached\n", target);
    } else if (!number) {
        uint32_t none;
        number = earliest_search_walk(&search, target, &none, 0, &arcs);
        uint32_t *walk = malloc((arcs + 1) * sizeof *walk);
        if (walk && number == EARLIEST_ROOM_TOO_SMALL) number = earliest_search_walk(&search, target, walk, arcs, &arcs);
        printf("node %" PRIu32 " at %" PRIu64 ", over", target, arrival);
        for (uint64_t i = 0; walk && !number && i < arcs; i++) printf(" %" PRIu32, walk[i]);
        printf("\n");
        free(walk);
    }
    if (number) fprintf(stderr, "%s\n", earliest_message(number));
    earliest_search_free(&search);
    earliest_road_free(&road);
    return number != 0;
}
