/* Calls that look up a root span, for host/lookups to count the instructions of each: of one function, for every size of
   a blob, and for the sizes past the limits. The argument names the function. */
#include "pit.h"

#include <stdio.h>
#include <string.h>

enum { SIZE = 16, MOST = 4096, UPDATES = MOST, NODES = 131072 };

static uint8_t pages[SIZE * MOST];
static uint32_t nodes[2 * NODES];
static pit_record records[UPDATES];

#define AREAS pages, sizeof pages, nodes, sizeof nodes / sizeof *nodes, records, UPDATES

static int spans(void)
{
    for (uint64_t size = 0; size <= MOST; size++) {
        pit_root_span(size);
    }
    pit_root_span(MOST + 1);
    pit_root_span(UINT64_MAX);
    return 0;
}

static int counts(void)
{
    for (uint64_t size = 1; size <= MOST; size++) {
        if (pit_node_count(size - 1, 1, size) == 0) {
            return 1;
        }
    }
    return pit_node_count(0, 1, MOST + 1) != 0;
}

static int worsts(void)
{
    for (uint64_t size = 0; size <= MOST; size++) {
        pit_worst(size, 1);
    }
    return pit_worst(MOST + 1, 1) != 0;
}

/* An update of one page at the end of the blob, so that each size comes once, as a write or an append. */
static int updates(int append)
{
    static const uint8_t page[SIZE];
    pit_format_reply formatted = pit_format(SIZE, MOST, NODES, UPDATES, AREAS);
    pit_store s = formatted.store;
    for (uint64_t f = 0; f < MOST; f++) {
        pit_begin_reply begun = pit_begin(s, AREAS, 1);
        if (begun.refusal || pit_put(begun.store, AREAS, begun.ticket, 0, page, SIZE)) {
            return 1;
        }
        pit_assign_reply assigned =
            append ? pit_append(begun.store, AREAS, 0, begun.ticket) : pit_write(begun.store, AREAS, 0, begun.ticket, f);
        if (assigned.refusal) {
            return 1;
        }
        s = assigned.store;
    }
    return 0;
}

int main(int argc, char **argv)
{
    const char *name = argc == 2 ? argv[1] : "";
    if (!strcmp(name, "pit_root_span")) {
        return spans();
    }
    if (!strcmp(name, "pit_node_count")) {
        return counts();
    }
    if (!strcmp(name, "pit_worst")) {
        return worsts();
    }
    if (!strcmp(name, "pit_write")) {
        return updates(0);
    }
    if (!strcmp(name, "pit_append")) {
        return updates(1);
    }
    fputs("usage: calls (pit_root_span|pit_node_count|pit_worst|pit_write|pit_append)\n", stderr);
    return 2;
}
