/* What the tests beside this file have in common: counting, and two nodes that elect. */
#ifndef TESTING_H
#define TESTING_H

#include "bully.h"

/* Counts a test that held (not 0) or didn't, and tells the latter. */
void count_test(int held, const char *file, int line, const char *text);
void count_status(bully_status wanted, bully_status status, const char *file, int line, const char *text);
/* Prints 'N passed, M failed', and answers the exit status: 0 where M is 0. */
int tell_counts(void);

#define EXPECT(condition) count_test((condition) ? 1 : 0, __FILE__, __LINE__, #condition)
/* That a call answers this status, which is named without its BULLY_. */
#define ANSWERS(name, call) count_status(BULLY_##name, (call), __FILE__, __LINE__, #call)

/* How many items an array has. */
#define COUNT(array) (sizeof(array) / sizeof *(array))

/* Room for any line and any row of the tests' groups. */
#define ROOM 400

/* Whether a text of this length is that one, which ends with a zero byte. The second prints both if it isn't. */
int is_text(const char *text, size_t length, const char *wanted);
int is_shown(const char *what, const char *text, size_t length, const char *wanted);

/* A setup that keeps no tasks. */
bully_setup setup_of(uint16_t nodes, uint16_t partitions, uint32_t events_max);

/* Whether the agent's claim and the rows of its last step are these. */
int claims(bully_agent *agent, const char *claim);
int logged(bully_agent *agent, const char *rows);

/* Nodes 1 and 2 of two, with two partitions. */
struct pair {
    bully_setup setup;
    bully_agent first, second;
};

/* Both are Normal under node 2. */
struct pair open_pair(uint32_t events_max);
void close_pair(struct pair *pair);
/* A whole call: it is started, runs at the callee and returns with this answer. */
void call_once(bully_agent *caller, bully_agent *callee, uint32_t answer);

/* The owners that node 2 plans, and that the examples have. */
extern const uint16_t two_owners[2];

/* The tests of each file. `version` is the library's. */
void try_names(const char *version, const char *header_folder);
void try_nulls(void);
void try_limits(void);

#endif
