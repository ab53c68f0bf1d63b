/* Threads that each have handles of their own, and call at the same time; and a handle that goes from thread to thread.
 * The last line is 'N passed, M failed'. */
#define _POSIX_C_SOURCE 200112L
#include "testing.h"

#include <pthread.h>
#include <stdio.h>

#define THREADS 4
#define ROUNDS 500

/* What a thread does on its own: an election, and calls until there is no event left. It counts nothing, since counts are
 * shared. */
struct work {
    bully_agent first, second;
    int held;
};

static int call(bully_agent *caller, bully_agent *callee) {
    char line[ROOM], reply[BULLY_REPLY_MAX];
    size_t line_length, reply_length;
    uint32_t answer;
    return bully_agent_start(caller) == BULLY_OK && bully_agent_request(caller, line, ROOM, &line_length) == BULLY_OK &&
           bully_agent_serve(callee, line, line_length, reply, sizeof reply, &reply_length) == BULLY_OK &&
           bully_agent_replied(caller, reply, reply_length, &answer) == BULLY_OK;
}

static int lead(struct work *work) {
    uint16_t owners[2];
    return bully_agent_recover(&work->first) == BULLY_OK && bully_agent_recover(&work->second) == BULLY_OK &&
           bully_agent_advance(&work->second) == BULLY_OK && call(&work->second, &work->first) &&
           bully_agent_advance(&work->second) == BULLY_OK && call(&work->second, &work->first) &&
           bully_agent_advance(&work->second) == BULLY_OK &&
           bully_agent_prepare(&work->second, NULL, 0, owners, 2) == BULLY_OK &&
           bully_agent_plan(&work->second, owners, 2) == BULLY_OK && call(&work->second, &work->first) &&
           bully_agent_advance(&work->second) == BULLY_OK;
}

static void *do_work(void *given) {
    struct work *work = (struct work *)given;
    bully_setup setup = setup_of(2, 2, BULLY_EVENTS_MAX);
    int round;
    work->held = 1;
    for (round = 0; round < ROUNDS && work->held; round++) {
        work->held = bully_agent_open(&work->first, &setup, NULL, 0, 1, 0, NULL, 0) == BULLY_OK &&
                     bully_agent_open(&work->second, &setup, NULL, 0, 2, 0, NULL, 0) == BULLY_OK && lead(work) &&
                     bully_agent_timeout(&work->first) == BULLY_OK && call(&work->first, &work->second) &&
                     bully_agent_close(&work->first) == BULLY_OK && bully_agent_close(&work->second) == BULLY_OK;
    }
    return NULL;
}

/* The same of a replica, which learns the rows that it gives itself: an election of two nodes. */
struct reading {
    bully_replica replica;
    int held;
};

/* Learns a row that was given; returns 0 if there is none, or it isn't learned. */
static int learn(bully_replica *replica, bully_status status, const char *row, size_t length) {
    size_t taken = 0;
    return status == BULLY_OK && length > 0 && bully_replica_learn(replica, row, length, &taken) == BULLY_OK && taken == 1;
}

static int take_event(bully_replica *replica, uint16_t node, uint32_t event) {
    char row[ROOM];
    size_t length = 0;
    bully_status status = bully_replica_event(replica, node, event, row, sizeof row, &length);
    return learn(replica, status, row, length);
}

static int take_next(bully_replica *replica, uint16_t node) {
    char row[ROOM];
    size_t length = 0;
    bully_status status = bully_replica_next(replica, node, row, sizeof row, &length);
    return learn(replica, status, row, length);
}

/* Both nodes come up, and node 2 leads node 1, which answers it: 16 events, of which the plan is the twelfth. */
static int elect(bully_replica *replica) {
    bully_group group;
    if (!take_event(replica, 1, BULLY_EVENT_RECOVER) || !take_event(replica, 2, BULLY_EVENT_RECOVER)) {
        return 0;
    }
    while (take_next(replica, 2) || take_next(replica, 1)) {
    }
    return bully_replica_group(replica, &group) == BULLY_OK && group.events == 16 && group.rows == 16 && group.token == 12;
}

static void *read_log(void *given) {
    struct reading *reading = (struct reading *)given;
    int round;
    reading->held = 1;
    for (round = 0; round < ROUNDS && reading->held; round++) {
        reading->held = bully_replica_open(&reading->replica, "bully,1,2,2\n", 12) == BULLY_OK && elect(&reading->replica) &&
                        bully_replica_close(&reading->replica) == BULLY_OK;
    }
    return NULL;
}

static void *read_on(void *given) {
    struct reading *reading = (struct reading *)given;
    reading->held = elect(&reading->replica);
    return NULL;
}

static void *go_on(void *given) {
    struct work *work = (struct work *)given;
    work->held = lead(work) && bully_agent_close(&work->first) == BULLY_OK;
    return NULL;
}

static void try_own_handles(void) {
    static struct work works[THREADS];
    pthread_t threads[THREADS];
    int at;
    for (at = 0; at < THREADS; at++) {
        EXPECT(pthread_create(&threads[at], NULL, do_work, &works[at]) == 0);
    }
    for (at = 0; at < THREADS; at++) {
        EXPECT(pthread_join(threads[at], NULL) == 0);
        EXPECT(works[at].held);
    }
}

/* The handles are opened here, and are led and closed by another thread; this one goes on with what is open. */
static void try_handing_on(void) {
    static struct work work;
    bully_setup setup = setup_of(2, 2, 100);
    pthread_t thread;
    ANSWERS(OK, bully_agent_open(&work.first, &setup, NULL, 0, 1, 0, NULL, 0));
    ANSWERS(OK, bully_agent_open(&work.second, &setup, NULL, 0, 2, 0, NULL, 0));
    EXPECT(pthread_create(&thread, NULL, go_on, &work) == 0);
    EXPECT(pthread_join(thread, NULL) == 0);
    EXPECT(work.held);
    ANSWERS(CLOSED, bully_agent_close(&work.first));
    EXPECT(claims(&work.second, "saw,2,normal,2,2,1,1 2\n"));
    ANSWERS(OK, bully_agent_close(&work.second));
}

static void try_own_replicas(void) {
    static struct reading readings[THREADS];
    pthread_t threads[THREADS];
    int at;
    for (at = 0; at < THREADS; at++) {
        EXPECT(pthread_create(&threads[at], NULL, read_log, &readings[at]) == 0);
    }
    for (at = 0; at < THREADS; at++) {
        EXPECT(pthread_join(threads[at], NULL) == 0);
        EXPECT(readings[at].held);
    }
}

/* The replica is opened here, and reads on in another thread; this one closes it. */
static void try_replica_handed_on(void) {
    static struct reading reading;
    bully_group group = {77, 77, 77, 77, 77, 77, 77};
    pthread_t thread;
    ANSWERS(OK, bully_replica_open(&reading.replica, "bully,1,2,2\n", 12));
    EXPECT(pthread_create(&thread, NULL, read_on, &reading) == 0);
    EXPECT(pthread_join(thread, NULL) == 0);
    EXPECT(reading.held);
    ANSWERS(OK, bully_replica_group(&reading.replica, &group));
    EXPECT(group.events == 16 && group.planner == 2);
    ANSWERS(OK, bully_replica_close(&reading.replica));
}

int main(void) {
    try_own_handles();
    try_handing_on();
    try_own_replicas();
    try_replica_handed_on();
    return tell_counts();
}
