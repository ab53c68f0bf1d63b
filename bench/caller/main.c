/* Measures what a call of the library for C takes. Each line has the least and the median time of a call over the rounds, in
 * nanoseconds of the processor: so what else the machine does counts less. */
#define _POSIX_C_SOURCE 199309L
#include "bully.h"

#include <stdio.h>
#include <stdlib.h>
#include <time.h>

#define CALLS 10000000L
#define ROUNDS 5
#define ROOM 100

static void give_up(const char *what) {
    fprintf(stderr, "caller: %s\n", what);
    exit(1);
}

static void must(bully_status status) {
    if (status != BULLY_OK) {
        give_up(bully_status_name(status));
    }
}

static double now(void) {
    struct timespec time;
    clock_gettime(CLOCK_PROCESS_CPUTIME_ID, &time);
    return (double)time.tv_sec * 1e9 + (double)time.tv_nsec;
}

/* ---- Nodes ---- */

static bully_agent opened(uint16_t nodes, uint16_t node) {
    bully_setup setup = {nodes, 2, BULLY_EVENTS_MAX, 0};
    bully_agent agent = BULLY_AGENT_CLOSED;
    must(bully_agent_open(&agent, &setup, NULL, 0, node, 0, NULL, 0));
    must(bully_agent_recover(&agent));
    return agent;
}

/* The only node of a group, which leads itself. */
static bully_agent alone(void) {
    static const uint16_t owners[2] = {1, 1};
    bully_agent agent = opened(1, 1);
    must(bully_agent_advance(&agent));
    must(bully_agent_advance(&agent));
    must(bully_agent_advance(&agent));
    must(bully_agent_plan(&agent, owners, 2));
    must(bully_agent_advance(&agent));
    return agent;
}

static void return_call(bully_agent *caller, bully_agent *callee) {
    char line[ROOM], reply[BULLY_REPLY_MAX];
    size_t line_length, reply_length;
    uint32_t answer;
    must(bully_agent_request(caller, line, sizeof line, &line_length));
    must(bully_agent_serve(callee, line, line_length, reply, sizeof reply, &reply_length));
    must(bully_agent_replied(caller, reply, reply_length, &answer));
}

static void call_once(bully_agent *caller, bully_agent *callee) {
    must(bully_agent_start(caller));
    return_call(caller, callee);
}

/* Node 2 leads node 1. */
static void lead(bully_agent *first, bully_agent *second) {
    static const uint16_t owners[2] = {1, 2};
    must(bully_agent_advance(second));
    call_once(second, first);
    must(bully_agent_advance(second));
    call_once(second, first);
    must(bully_agent_advance(second));
    must(bully_agent_plan(second, owners, 2));
    call_once(second, first);
    must(bully_agent_advance(second));
}

/* ---- What is measured: each makes so many calls ---- */

static void call_null(void) {
    long at;
    for (at = 0; at < CALLS; at++) {
        if (bully_agent_timeout(NULL) != BULLY_NULL) {
            give_up("a null handle is taken");
        }
    }
}

static void call_busy(void) {
    bully_agent agent = opened(2, 1);
    long at;
    for (at = 0; at < CALLS; at++) {
        if (bully_agent_timeout(&agent) != BULLY_BUSY) {
            give_up("the node isn't busy");
        }
    }
    must(bully_agent_close(&agent));
}

/* (as often as the node has told all its events, it is opened anew) */
static void call_event(void) {
    bully_agent agent = alone();
    long at;
    for (at = 0; at < CALLS; at++) {
        bully_status status = bully_agent_timeout(&agent);
        if (status == BULLY_FULL) {
            must(bully_agent_close(&agent));
            agent = alone();
        } else {
            must(status);
        }
    }
    must(bully_agent_close(&agent));
}

static void call_show(void) {
    bully_agent agent = alone();
    bully_state state;
    long at;
    for (at = 0; at < CALLS; at++) {
        must(bully_agent_show(&agent, &state));
    }
    must(bully_agent_close(&agent));
}

static void call_rows(void) {
    bully_agent agent = alone();
    char rows[ROOM];
    size_t length;
    long at;
    for (at = 0; at < CALLS; at++) {
        must(bully_agent_rows(&agent, rows, sizeof rows, &length));
    }
    must(bully_agent_close(&agent));
}

/* Node 1 asks node 2 by a timeout, a start, a request, a serve and a reply: five calls, of which node 1 tells three events. */
static void call_whole(void) {
    bully_agent first = opened(2, 1), second = opened(2, 2);
    long at, told = 0;
    lead(&first, &second);
    for (at = 0; at < CALLS; at += 5, told += 3) {
        if (told + 100 > BULLY_EVENTS_MAX) {
            must(bully_agent_close(&first));
            must(bully_agent_close(&second));
            first = opened(2, 1);
            second = opened(2, 2);
            lead(&first, &second);
            told = 0;
        }
        must(bully_agent_timeout(&first));
        call_once(&first, &second);
    }
    must(bully_agent_close(&first));
    must(bully_agent_close(&second));
}

/* ---- Times ---- */

static int compare(const void *one, const void *other) {
    double by = *(const double *)one - *(const double *)other;
    return by < 0 ? -1 : by > 0;
}

static void measure(const char *name, void (*call)(void)) {
    double times[ROUNDS];
    int round;
    for (round = 0; round < ROUNDS; round++) {
        double begun = now();
        call();
        times[round] = (now() - begun) / CALLS;
    }
    qsort(times, ROUNDS, sizeof *times, compare);
    printf("%-60s %8.1f %8.1f\n", name, times[0], times[ROUNDS / 2]);
}

int main(void) {
    printf("%-60s %8s %8s\n", "ns a call", "least", "median");
    measure("bully_agent_timeout of a null handle: the test alone", call_null);
    measure("bully_agent_timeout, refused as BUSY", call_busy);
    measure("bully_agent_timeout, an event", call_event);
    measure("bully_agent_show", call_show);
    measure("bully_agent_rows", call_rows);
    measure("timeout, start, request, serve, replied: a call of the five", call_whole);
    return 0;
}
