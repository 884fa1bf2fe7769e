/* The successors of each node of a small listing. Build: gcc -Iinclude examples/flow.c crates/flowgraph/out/libflowgraph.a */
#include "flowgraph.h"
#include <stdio.h>
#include <string.h>

static const char listing[] =
    "(module 0\n(line 10\n(gosub 100)\n(plain)\n)\n(line 20\n(stop)\n)\n"
    "(line 100\n(if\n(to 20)\n)\n(return)\n)\n)\n";

/* Tables that suffice for every listing. */
static uint32_t counts[FLOW_COUNTS];
static uint16_t lines[FLOW_LINES_SIZE], stmts[FLOW_STMTS_SIZE], entries[FLOW_ENTRIES_SIZE], falls[FLOW_FALLS_SIZE];
static uint16_t links[FLOW_LINKS_SIZE], lists[FLOW_LISTS_SIZE], returns[FLOW_RETURNS_SIZE];
static uint16_t succ[FLOW_SUCC_SIZE], pred[FLOW_PRED_SIZE];
static uint64_t args[FLOW_ARGS_SIZE];

int main(void) {
    size_t place[1], answer[2];
    uint8_t refused = flow_build((const uint8_t *)listing, strlen(listing), counts, lines, FLOW_LINES_SIZE, stmts, FLOW_STMTS_SIZE,
        args, FLOW_ARGS_SIZE, entries, FLOW_ENTRIES_SIZE, falls, FLOW_FALLS_SIZE, links, FLOW_LINKS_SIZE, lists, FLOW_LISTS_SIZE,
        returns, FLOW_RETURNS_SIZE, succ, FLOW_SUCC_SIZE, pred, FLOW_PRED_SIZE, place);
    if (refused != FLOW_OK) {
        printf("refused %d at %zu\n", refused, place[0]);
        return 1;
    }
    for (size_t node = 0; node < counts[FLOW_COUNT_STATEMENTS]; node++) {
        flow_successors(counts, lists, FLOW_LISTS_SIZE, succ, FLOW_SUCC_SIZE, node, answer);
        printf("%zu:", node);
        for (size_t i = 0; i < answer[1]; i++)
            printf(" %d", succ[answer[0] + i]);
        printf("\n");
    }
    return 0;
}
