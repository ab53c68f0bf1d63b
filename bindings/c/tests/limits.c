/* The longest traces, and the largest setups: what is too long for a story. */
#include "testing.h"

#include <stdio.h>
#include <stdlib.h>
#include <string.h>

/* A trace of this header and so many times this row, and its length. */
static char *repeated(const char *header, const char *row, size_t times, size_t *length) {
    size_t header_length = strlen(header), row_length = strlen(row);
    char *trace = (char *)malloc(header_length + row_length * times), *end = trace + header_length;
    if (trace == NULL) {
        abort();
    }
    memcpy(trace, header, header_length);
    for (; times > 0; times--, end += row_length) {
        memcpy(end, row, row_length);
    }
    *length = (size_t)(end - trace);
    return trace;
}

/* As many rows as there may be, and one more. */
static void try_long(void) {
    bully_verdict verdict = {77, 77, 77};
    size_t length;
    char *trace = repeated("bully,1,1,1\n", "saw,1,down,-\n", 1000000, &length);
    ANSWERS(OK, bully_check((const uint8_t *)trace, length, &verdict));
    EXPECT(verdict.kind == BULLY_LAWFUL && verdict.number == 0 && verdict.cause == BULLY_OK);
    free(trace);
    trace = repeated("bully,1,1,1\n", "crash,1\n", 1000001, &length);
    ANSWERS(TOO_MANY_ROWS, bully_check((const uint8_t *)trace, length, &verdict));
    EXPECT(verdict.number == 1000002);
    /* (the last row is one that the trace may have) */
    ANSWERS(OK, bully_check((const uint8_t *)trace, length - strlen("crash,1\n"), &verdict));
    EXPECT(verdict.kind == BULLY_REFUSED && verdict.number == 2 && verdict.cause == BULLY_IS_DOWN);
    free(trace);
}

/* Many nodes of the same weight, by which the header isn't of version 1. */
static void try_many_weights(uint16_t nodes, uint16_t weight) {
    static char wanted[8192], row[8192];
    static uint16_t weights[BULLY_NODES_MAX];
    bully_replica replica = BULLY_REPLICA_CLOSED;
    bully_group group = {77, 77, 77, 77, 77, 77, 77};
    bully_setup setup = setup_of(nodes, BULLY_PARTITIONS_MAX, 1);
    size_t wanted_length = (size_t)sprintf(wanted, "bully,2,%d,4096,", nodes), length = 77;
    uint16_t at;
    for (at = 0; at < nodes; at++) {
        weights[at] = weight;
        wanted_length += (size_t)sprintf(wanted + wanted_length, at == 0 ? "%d" : " %d", weight);
    }
    wanted_length += (size_t)sprintf(wanted + wanted_length, ",clear\n");
    memset(row, '#', sizeof row);
    ANSWERS(SHORT, bully_header(&setup, weights, nodes, row, wanted_length - 1, &length));
    EXPECT(length == wanted_length && row[0] == '#');
    ANSWERS(OK, bully_header(&setup, weights, nodes, row, wanted_length, &length));
    EXPECT(is_text(row, length, wanted) && row[length] == '#');
    ANSWERS(OK, bully_replica_open(&replica, row, length));
    ANSWERS(OK, bully_replica_group(&replica, &group));
    EXPECT(group.nodes == nodes && group.partitions == BULLY_PARTITIONS_MAX && group.keeps == 0 && group.rows == 0);
    ANSWERS(OK, bully_replica_close(&replica));
}

/* The largest setup: each node owns four partitions. */
static void try_largest_table(void) {
    static uint16_t weights[BULLY_NODES_MAX], members[BULLY_NODES_MAX], owners[BULLY_PARTITIONS_MAX];
    bully_setup setup = setup_of(BULLY_NODES_MAX, BULLY_PARTITIONS_MAX, BULLY_EVENTS_MAX);
    uint16_t at, moves = 0;
    for (at = 0; at < BULLY_NODES_MAX; at++) {
        weights[at] = BULLY_WEIGHT_MAX;
        members[at] = (uint16_t)(at + 1);
    }
    ANSWERS(OK, bully_table(&setup, weights, BULLY_NODES_MAX, members, BULLY_NODES_MAX, NULL, 0, owners, BULLY_PARTITIONS_MAX, &moves));
    EXPECT(moves == BULLY_PARTITIONS_MAX);
    for (at = 0; at < BULLY_PARTITIONS_MAX; at++) {
        if (owners[at] != at / 4 + 1) {
            break;
        }
    }
    EXPECT(at == BULLY_PARTITIONS_MAX);
}

void try_limits(void) {
    try_long();
    try_many_weights(65, 1);
    try_many_weights(BULLY_NODES_MAX, BULLY_WEIGHT_MAX);
    try_largest_table();
}
