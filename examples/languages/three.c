/* Three nodes elect a coordinator over a log. Here each row is only learned. */
#include <bully.h>
#include <stdio.h>
#include <stdlib.h>
#include <string.h>

static const char *const header = "bully,1,3,5\n"; /* 3 nodes, 5 partitions */
static const char *const statuses[] = {"down", "election", "reorganization", "normal"};

static bully_replica group = BULLY_REPLICA_CLOSED;
static char row[64];
static size_t length, taken;

static void must(bully_status status) {
    if (status != BULLY_OK) {
        fprintf(stderr, "%s\n", bully_status_name(status));
        exit(1);
    }
}

static int step(uint16_t node) {
    must(bully_replica_next(&group, node, row, sizeof row, &length)); /* a length of 0: it rests */
    must(bully_replica_learn(&group, row, length, &taken));           /* in a store the row is appended first */
    return length > 0;
}

static void elect(void) {
    must(bully_replica_open(&group, header, strlen(header)));
    for (uint16_t node = 1; node <= 3; node++) {
        must(bully_replica_event(&group, node, BULLY_EVENT_RECOVER, row, sizeof row, &length));
        must(bully_replica_learn(&group, row, length, &taken));
    }
    while (step(1) || step(2) || step(3)) {
    }
}

static void show(void) {
    bully_state state;
    uint16_t owners[5];
    for (uint16_t node = 1; node <= 3; node++) {
        must(bully_replica_show(&group, node, &state));
        printf("%d %s %d\n", node, statuses[state.status], state.coordinator);
    }
    must(bully_replica_planned(&group, owners, 5, &length));
    for (size_t place = 0; place < length; place++) {
        printf("%s%d", place == 0 ? "" : " ", owners[place]);
    }
    printf("\n");
}

int main(void) {
    elect();
    show();
    must(bully_replica_close(&group));
    return 0;
}
