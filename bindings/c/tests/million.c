/* Makes a million calls and more in one process: two nodes, of which node 1 looks after node 2 until it has had as
 * many events as the setup allows. Then all is closed and done again, and a replica learns as many rows as a log may
 * have. The memory in use stays as it was. The last line is 'N passed, M failed'. */
#include "testing.h"

#include <stdio.h>
#include <stdlib.h>
#include <string.h>

#if defined(__GLIBC__) && defined(__GLIBC_PREREQ)
#if __GLIBC_PREREQ(2, 33)
#include <malloc.h>
#define HAS_MALLINFO2 1
#endif
#endif

static size_t memory_in_use(void) {
#ifdef HAS_MALLINFO2
    return mallinfo2().uordblks;
#else
    return 0;
#endif
}

/* Node 1 hears of node 2: three events of its own, and one of node 2. Answers how many calls were OK. */
static long look_after(struct pair *pair) {
    char line[ROOM], reply[BULLY_REPLY_MAX];
    size_t line_length = 0, reply_length = 0;
    uint32_t answer = 77;
    if (bully_agent_timeout(&pair->first) != BULLY_OK) {
        return 0;
    }
    if (bully_agent_start(&pair->first) != BULLY_OK) {
        return 1;
    }
    if (bully_agent_request(&pair->first, line, sizeof line, &line_length) != BULLY_OK) {
        return 2;
    }
    if (bully_agent_serve(&pair->second, line, line_length, reply, sizeof reply, &reply_length) != BULLY_OK) {
        return 3;
    }
    return bully_agent_replied(&pair->first, reply, reply_length, &answer) == BULLY_OK && answer == BULLY_YES ? 5 : 4;
}

/* Until node 1 has had so many events, which is all. Returns how many calls there were, and how much memory they
 * took. */
static long use_up(uint32_t events_max, size_t *grown) {
    struct pair pair = open_pair(events_max);
    long calls = look_after(&pair), more;
    size_t before = memory_in_use();
    bully_state state;
    while ((more = look_after(&pair)) == 5) {
        calls += more;
    }
    calls += more + 1;
    *grown = memory_in_use() - before;
    ANSWERS(FULL, bully_agent_timeout(&pair.first));
    ANSWERS(FULL, bully_agent_crash(&pair.first));
    ANSWERS(OK, bully_agent_show(&pair.first, &state));
    EXPECT(state.events == events_max);
    close_pair(&pair);
    return calls;
}

/* A handle that is opened and closed again and again keeps nothing. */
static void open_often(void) {
    bully_setup setup = setup_of(3, 7, 10);
    long round;
    for (round = 0; round < 100000; round++) {
        bully_agent agent = BULLY_AGENT_CLOSED;
        if (bully_agent_open(&agent, &setup, NULL, 0, 2, 0, NULL, 0) != BULLY_OK || bully_agent_recover(&agent) != BULLY_OK ||
            bully_agent_close(&agent) != BULLY_OK) {
            break;
        }
    }
    EXPECT(round == 100000);
}

/* ---- A log of a million rows ---- */

/* Node 1 leads alone, and is idle after nine events. */
#define LEADS "recover,1\nstart,1\nlose,1\nreturn,1\nmove,1\nmove,1\nmove,1\nplan,1,1 1\nmove,1\n"
#define TIMEOUT "timeout,1\n"
#define LAST "recover,2\n"

/* So many times this row, and then these rows. */
static char *many_rows(size_t count, const char *row, const char *last, size_t *length) {
    size_t row_length = strlen(row), at;
    char *rows = (char *)malloc(count * row_length + strlen(last) + 1);
    if (rows == NULL) {
        abort();
    }
    for (at = 0; at < count; at++) {
        memcpy(rows + at * row_length, row, row_length);
    }
    strcpy(rows + count * row_length, last);
    *length = strlen(rows);
    return rows;
}

/* After a million rows no event is given, and nothing is learned. Node 2 is up, and node 1 rests. */
static void try_full_log(bully_replica *replica) {
    char row[ROOM] = "as it was";
    size_t length = 77;
    ANSWERS(FULL, bully_replica_next(replica, 2, row, sizeof row, &length));
    ANSWERS(FULL, bully_replica_next(replica, 2, row, 0, &length));
    ANSWERS(FULL, bully_replica_event(replica, 2, BULLY_EVENT_CRASH, row, sizeof row, &length));
    ANSWERS(FULL, bully_replica_event(replica, 2, BULLY_EVENT_RECOVER, row, 0, &length));
    ANSWERS(FULL, bully_replica_event(replica, 2, BULLY_EVENT_CHECK, row, sizeof row, &length));
    ANSWERS(FULL, bully_replica_event(replica, 1, BULLY_EVENT_DROP, row, sizeof row, &length));
    ANSWERS(BAD_EVENT, bully_replica_event(replica, 2, 6, row, sizeof row, &length));
    ANSWERS(BAD_NODE, bully_replica_event(replica, 3, 6, row, sizeof row, &length));
    EXPECT(length == 77 && strcmp(row, "as it was") == 0);
    ANSWERS(OK, bully_replica_next(replica, 1, row, sizeof row, &length));
    EXPECT(length == 0);
    ANSWERS(TOO_MANY_ROWS, bully_replica_learn(replica, "move,2\n", 7, &length));
    ANSWERS(TOO_MANY_ROWS, bully_replica_learn(replica, "?\n", 2, &length));
    ANSWERS(TOO_MANY_ROWS, bully_replica_learn(replica, "saw,1,down,-\n", 13, &length));
    ANSWERS(TOO_MANY_ROWS, bully_replica_learn(replica, "\xef\xbb\xbfmove,2\n", 10, &length));
    ANSWERS(ROW_END, bully_replica_learn(replica, "move,2", 6, &length));
    ANSWERS(OK, bully_replica_learn(replica, "\n", 1, &length));
    EXPECT(length == 0);
}

/* Each row is an event; some come one by one, and the others at once: the last one recovers node 2. */
static void learn_a_million(void) {
    bully_replica replica = BULLY_REPLICA_CLOSED;
    bully_group group = {77, 77, 77, 77, 77, 77, 77};
    size_t taken = 77, length, before;
    long at;
    char *rows;
    ANSWERS(OK, bully_replica_open(&replica, "bully,1,2,2\n", 12));
    ANSWERS(OK, bully_replica_learn(&replica, LEADS, strlen(LEADS), &taken));
    EXPECT(taken == 9);
    before = memory_in_use();
    for (at = 0; at < 100000; at++) {
        if (bully_replica_learn(&replica, TIMEOUT, strlen(TIMEOUT), &taken) != BULLY_OK || taken != 1) {
            break;
        }
    }
    EXPECT(at == 100000 && memory_in_use() == before);
    rows = many_rows(899990, TIMEOUT, LAST "move,2\n", &length);
    ANSWERS(TOO_MANY_ROWS, bully_replica_learn(&replica, rows, length, &taken));
    EXPECT(taken == 899991);
    free(rows);
    try_full_log(&replica);
    ANSWERS(OK, bully_replica_group(&replica, &group));
    EXPECT(group.rows == 1000000 && group.events == 1000000 && group.token == 8 && group.planner == 1);
    ANSWERS(OK, bully_replica_close(&replica));
}

/* The last row is an event, and the others are claims. All come at once. */
static void learn_a_million_claims(void) {
    bully_replica replica = BULLY_REPLICA_CLOSED;
    bully_group group = {77, 77, 77, 77, 77, 77, 77};
    size_t taken = 77, length;
    char *rows = many_rows(999999, "saw,1,down,-\n", LAST "move,2\n", &length);
    ANSWERS(OK, bully_replica_open(&replica, "bully,1,2,2\n", 12));
    ANSWERS(TOO_MANY_ROWS, bully_replica_learn(&replica, rows, length, &taken));
    EXPECT(taken == 1000000);
    free(rows);
    try_full_log(&replica);
    ANSWERS(OK, bully_replica_group(&replica, &group));
    EXPECT(group.rows == 1000000 && group.events == 1 && group.token == 0 && group.planner == 0);
    ANSWERS(OK, bully_replica_close(&replica));
}

int main(void) {
    size_t before, grown;
    int round;
    printf("a million calls in one process\n");
    /* (what the heap and printing keep for later is there after these) */
    use_up(100, &grown);
    open_often();
    learn_a_million();
    learn_a_million_claims();
    learn_a_million();
    before = memory_in_use();
    for (round = 0; round < 2; round++) {
        long calls = use_up(BULLY_EVENTS_MAX, &grown);
        EXPECT(calls > 1000000);
        EXPECT(grown == 0);
        EXPECT(memory_in_use() == before);
        printf("%ld calls, %lu bytes in use\n", calls, (unsigned long)memory_in_use());
    }
    open_often();
    learn_a_million();
    EXPECT(memory_in_use() == before);
    return tell_counts();
}
