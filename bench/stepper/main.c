/* Measures what a member's rules take in the largest group. A member works in a stable group of 1,024 nodes, or of 1,023 if one comes. Each round
 * it looks again and finds nothing new, looks again and finds a change, does what it does then, and looks again and finds the group as before. All
 * that it answers is compared with what must come, so nothing that is refused is measured. Each line has the least and the median time of a call
 * over the rounds, in microseconds of the processor: so what else the machine does counts less. */
#define _POSIX_C_SOURCE 199309L
#include "bully.h"

#include <stdio.h>
#include <stdlib.h>
#include <string.h>
#include <time.h>

#define NODES BULLY_NODES_MAX
#define PARTITIONS BULLY_PARTITIONS_MAX
#define EPOCH 7
#define PROCESS 5
#define TTL 5000000000u
#define ROUNDS 301

/* The node that goes or comes: so high that no node before it tells that the group isn't stable. */
#define OTHER (NODES - 1)

static void give_up(const char *what) {
    fprintf(stderr, "stepper: %s\n", what);
    exit(1);
}

static void must(bully_status status) {
    if (status != BULLY_OK) {
        give_up(bully_status_name(status));
    }
}

static char header[4 * BULLY_NODES_MAX];
static size_t header_length;

static void write_header(void) {
    static const bully_setup setup = {NODES, PARTITIONS, BULLY_EVENTS_MAX, 0};
    must(bully_header(&setup, NULL, 0, header, sizeof header, &header_length));
}

/* What a snapshot finds. */
struct found {
    bully_lease leases[NODES];
    size_t lease_count;
    uint16_t kept[PARTITIONS];
    size_t kept_count;
};

/* ---- What a library has that is older than cooperative groups, or isn't ---- */

#ifdef EAGER_ONLY

enum { BULLY_REASON_STOP = 0, BULLY_REASON_STABLE = 0, BULLY_REASON_TURN = 0 };

static bully_status open_member(bully_member *member, uint16_t node, uint32_t is_cooperative) {
    (void)is_cooperative;
    return bully_member_open(member, header, header_length, EPOCH, node, BULLY_EVENTS_MAX, NULL, 0, PROCESS, TTL);
}

static bully_status read_found(bully_member *member, uint64_t time, const struct found *found) {
    return bully_member_snapshot_read(member, time, EPOCH, found->leases, found->lease_count, 0, 0);
}

static uint32_t reason_of(const bully_step *step) {
    (void)step;
    return 0;
}

static void keep(struct found *found, bully_lease *lease, uint16_t partition) {
    (void)found;
    (void)lease;
    (void)partition;
}

static void stops_so_many(bully_member *member, size_t wanted) {
    (void)member;
    (void)wanted;
}

#else

static bully_status open_member(bully_member *member, uint16_t node, uint32_t is_cooperative) {
    return bully_member_open(member, header, header_length, EPOCH, node, BULLY_EVENTS_MAX, NULL, 0, is_cooperative, PROCESS, TTL);
}

static bully_status read_found(bully_member *member, uint64_t time, const struct found *found) {
    return bully_member_snapshot_read(member, time, EPOCH, found->leases, found->lease_count, found->kept, found->kept_count, 0, 0);
}

static uint32_t reason_of(const bully_step *step) {
    return step->reason;
}

static void keep(struct found *found, bully_lease *lease, uint16_t partition) {
    found->kept[found->kept_count] = partition;
    found->kept_count++;
    lease->kept_count++;
}

static void stops_so_many(bully_member *member, size_t wanted) {
    uint16_t activities[PARTITIONS];
    size_t count, at, stopping = 0;
    must(bully_member_activities(member, activities, PARTITIONS, &count));
    for (at = 0; at < count; at++) {
        stopping += activities[at] == BULLY_ACTIVITY_STOPPING;
    }
    if (stopping != wanted) {
        give_up("it stops more or less than it loses");
    }
}

#endif

/* ---- Times ---- */

enum kind { STABLE, SAME, CHANGED, THEN, MEANWHILE, BACK, KINDS, UNTIMED = KINDS };

static double times[KINDS + 1][ROUNDS];
static int round_now;

static double now(void) {
    struct timespec time;
    clock_gettime(CLOCK_PROCESS_CPUTIME_ID, &time);
    return (double)time.tv_sec * 1e6 + (double)time.tv_nsec / 1e3;
}

static void took(enum kind kind, double begun) {
    times[kind][round_now] = now() - begun;
}

static int compare(const void *one, const void *other) {
    double by = *(const double *)one - *(const double *)other;
    return by < 0 ? -1 : by > 0;
}

static void tell(const char *name, enum kind kind) {
    qsort(times[kind], ROUNDS, sizeof *times[kind], compare);
    printf("  %-70s %8.1f %8.1f\n", name, times[kind][0], times[kind][ROUNDS / 2]);
}

/* ---- Groups ---- */

/* What is measured in a group. */
struct scene {
    const char *name;
    uint32_t is_cooperative;
    int keeps;      /* each promise keeps all that its node owns; else nothing */
    int comes;      /* the other node comes; else it goes */
    uint32_t stops; /* how many partitions the member then stops */
};

/* The group, and one of its members. */
struct group {
    struct scene scene;
    char *rows; /* of its log */
    size_t length;
    uint16_t owners[PARTITIONS];
    struct found before, after; /* the change */
    uint16_t node;              /* the member's */
    uint64_t time;
    bully_member member;
};

/* The rows that rebalance a group whose nodes are all Down, and the table of their plan. */
static void write_log(struct group *group) {
    bully_replica replica = BULLY_REPLICA_CLOSED;
    uint16_t live[NODES], node;
    size_t count = 0;
    for (node = 1; node <= NODES; node++) {
        if (node != OTHER || !group->scene.comes) {
            live[count] = node;
            count++;
        }
    }
    must(bully_replica_open(&replica, header, header_length));
    if (bully_replica_rebalance(&replica, live, count, NULL, 0, NULL, 0, &group->length) != BULLY_SHORT) {
        give_up("a rebalance has no rows");
    }
    group->rows = malloc(group->length);
    if (group->rows == NULL) {
        give_up("out of memory");
    }
    must(bully_replica_rebalance(&replica, live, count, NULL, 0, group->rows, group->length, &group->length));
    must(bully_replica_learn(&replica, group->rows, group->length, &count));
    must(bully_replica_planned(&replica, group->owners, PARTITIONS, &count));
    must(bully_replica_close(&replica));
}

static uint32_t owned_by(const struct group *group, uint16_t node) {
    uint32_t count = 0;
    int partition;
    for (partition = 0; partition < PARTITIONS; partition++) {
        count += group->owners[partition] == node;
    }
    return count;
}

/* The last node before the other one that owns the most: so it loses something if that one comes, and nothing if it goes. */
static uint16_t node_of(const struct group *group) {
    uint16_t node, best = 1;
    for (node = 1; node < OTHER; node++) {
        if (owned_by(group, best) <= owned_by(group, node)) {
            best = node;
        }
    }
    return best;
}

/* Finds the lease of a node. */
static void find(const struct group *group, struct found *found, uint16_t node) {
    bully_lease *lease = &found->leases[found->lease_count];
    uint16_t partition;
    memset(lease, 0, sizeof *lease);
    lease->process = node == group->node ? PROCESS : 1000u + node;
    lease->number = 1;
    lease->epoch = EPOCH;
    lease->node = node;
    found->lease_count++;
    for (partition = 0; partition < PARTITIONS; partition++) {
        if (group->scene.keeps && group->owners[partition] == node) {
            keep(found, lease, partition);
        }
    }
}

static void find_all(struct group *group) {
    uint16_t node;
    for (node = 1; node <= NODES; node++) {
        if (node != OTHER || !group->scene.comes) {
            find(group, &group->before, node);
        }
        if (node != OTHER || group->scene.comes) {
            find(group, &group->after, node);
        }
    }
}

/* ---- The member's steps ---- */

static const bully_step snapshot = {.kind = BULLY_STEP_ASK, .request = BULLY_ASK_SNAPSHOT};
static const bully_step acquire = {.kind = BULLY_STEP_ASK, .request = BULLY_ASK_ACQUIRE};
static const bully_step begin = {.kind = BULLY_STEP_BEGIN};
static const bully_step rest = {.kind = BULLY_STEP_WAIT, .until = BULLY_UNTIL_ANY_IDLE};
static const bully_step stop = {.kind = BULLY_STEP_STOP};
static const bully_step await = {.kind = BULLY_STEP_WAIT, .until = BULLY_UNTIL_NEWS};
static const bully_step back_off = {.kind = BULLY_STEP_BACK_OFF};

/* The member's next step is this one, for this reason. */
static void step(struct group *group, enum kind kind, bully_step wanted, uint32_t reason) {
    bully_step next;
    double begun = now();
    bully_status status = bully_member_next(&group->member, group->time, &next);
    took(kind, begun);
    must(status);
    if (next.kind != wanted.kind || next.request != wanted.request || next.until != wanted.until || reason_of(&next) != reason) {
        give_up("another step is next");
    }
}

/* A wait is over: it reads a snapshot, which finds this. */
static void look(struct group *group, enum kind kind, const struct found *found) {
    bully_status status;
    double begun;
    must(bully_member_woke(&group->member));
    step(group, UNTIMED, snapshot, 0);
    begun = now();
    status = read_found(&group->member, group->time, found);
    took(kind, begun);
    must(status);
}

/* It acquires its lease, learns the log, and begins all that its node owns. It has seen the node that comes for long enough to admit it. */
static void start(struct group *group) {
    static const struct found nobody;
    static const bully_member closed = BULLY_MEMBER_CLOSED;
    uint16_t owned[PARTITIONS];
    uint32_t token;
    size_t count;
    group->member = closed;
    must(open_member(&group->member, group->node, group->scene.is_cooperative));
    look(group, UNTIMED, &nobody);
    step(group, UNTIMED, acquire, 0);
    must(bully_member_answered(&group->member, group->time, BULLY_STORE_DONE));
    step(group, UNTIMED, snapshot, 0);
    must(bully_member_learn(&group->member, group->rows, group->length, &count));
    must(read_found(&group->member, group->time, group->scene.comes ? &group->after : &group->before));
    step(group, UNTIMED, begin, 0);
    must(bully_member_owned(&group->member, &token, owned, PARTITIONS, &count));
    if (count != owned_by(group, group->node) || count < group->scene.stops) {
        give_up("it works on something else");
    }
    group->time += TTL / 100;
    look(group, UNTIMED, &group->before);
}

static void stop_and_end(struct group *group) {
    step(group, THEN, stop, 0);
    stops_so_many(&group->member, group->scene.stops);
    step(group, MEANWHILE, group->scene.is_cooperative ? await : back_off, BULLY_REASON_STOP);
    must(bully_member_stopped(&group->member));
}

/* A round: it begins and ends in the stable group. */
static void play_round(struct group *group) {
    step(group, STABLE, rest, BULLY_REASON_STABLE);
    look(group, SAME, &group->before);
    step(group, UNTIMED, rest, BULLY_REASON_STABLE);
    look(group, CHANGED, &group->after);
    if (group->scene.stops == 0) {
        step(group, THEN, await, BULLY_REASON_TURN);
    } else {
        stop_and_end(group);
    }
    look(group, BACK, &group->before);
    if (group->scene.stops > 0) {
        step(group, UNTIMED, begin, 0);
    }
}

/* ---- What is measured ---- */

static void tell_all(const struct scene *scene) {
    printf("%s:\n", scene->name);
    tell("next, the group is stable", STABLE);
    tell("snapshot_read, nothing is new", SAME);
    tell("snapshot_read, that change", CHANGED);
    tell(scene->stops == 0 ? "next, it waits for its turn" : "next, it stops that", THEN);
    if (scene->stops > 0) {
        tell("next, that hasn't ended yet", MEANWHILE);
    }
    tell("snapshot_read, the group is as before", BACK);
}

static void measure(struct scene scene) {
    static struct group group;
    memset(&group, 0, sizeof group);
    group.scene = scene;
    write_log(&group);
    group.node = node_of(&group);
    find_all(&group);
    start(&group);
    for (round_now = 0; round_now < ROUNDS; round_now++) {
        play_round(&group);
    }
    round_now = 0;
    must(bully_member_close(&group.member));
    free(group.rows);
    tell_all(&scene);
}

static void measure_clock(void) {
    for (round_now = 0; round_now < ROUNDS; round_now++) {
        took(UNTIMED, now());
    }
    round_now = 0;
    tell("the clock alone, which each time includes", UNTIMED);
}

int main(void) {
    size_t at;
    static const struct scene scenes[] = {
#ifndef EAGER_ONLY
        {"cooperative, a node goes: the member stops nothing", 1, 0, 0, 0},
        {"cooperative, a node comes: the member stops one partition", 1, 0, 1, 1},
        {"the same, and each promise keeps what its node owns", 1, 1, 1, 1},
#endif
        {"eager, a node goes: the member stops all", 0, 0, 0, PARTITIONS / NODES},
    };
    write_header();
    printf("%-72s %8s %8s\n", "microseconds a call", "least", "median");
    measure_clock();
    for (at = 0; at < sizeof scenes / sizeof *scenes; at++) {
        measure(scenes[at]);
    }
    return 0;
}
