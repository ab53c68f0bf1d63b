/* Each argument of each function null, too long or of no items in turn, of handles that are open and that aren't:
 * nulls.py makes the calls of the header. */
#include "testing.h"

#include <string.h>

/* What the calls take: a handle of each kind, any number, and what pointers lead to. No function takes more than 20
 * arguments, or a struct of more than 128 bytes. */
static bully_agent agent = BULLY_AGENT_CLOSED;
static bully_replica replica = BULLY_REPLICA_CLOSED;
static bully_member member = BULLY_MEMBER_CLOSED;
static int is_open;
static uint16_t number;
static uint64_t items[20][16];

static void *at(size_t argument) {
    return items[argument];
}

static void fill(void) {
    memset(items, 77, sizeof items);
}

static int is_filled(void) {
    const unsigned char *bytes = (const unsigned char *)items;
    return bytes[0] == 77 && memcmp(bytes, bytes + 1, sizeof items - 1) == 0;
}

/* The most items that a memory has. */
#define MOST(kind) ((size_t)PTRDIFF_MAX / sizeof(kind))

/* A call that is refused so, and writes nothing; and one whose pointers are right, whatever it answers then. */
#define REFUSED(status, call) (fill(), count_status(status, (call), __FILE__, __LINE__, #call), EXPECT(is_filled()))
#define TAKEN(call) (fill(), EXPECT((call) != BULLY_NULL))

#include "each_null.h"

/* With numbers that are nothing's, and with one that is a node's, an event's and an answer's. */
static void try_numbers(void) {
    static const uint16_t numbers[] = {0, 1, UINT16_MAX};
    size_t at_number;
    for (at_number = 0; at_number < COUNT(numbers); at_number++) {
        number = numbers[at_number];
        try_each();
    }
}

static void try_closed(void) {
    is_open = 0;
    try_numbers();
    EXPECT(agent.held == NULL && replica.held == NULL && member.held == NULL);
}

/* Nothing has changed: all are as they were opened. */
static void try_open(void) {
    bully_setup setup = setup_of(1, 1, 10);
    bully_group group = {77, 77, 77, 77, 77, 77, 77};
    bully_step step;
    static const char header[] = "bully,1,1,1\n";
    ANSWERS(OK, bully_agent_open(&agent, &setup, NULL, 0, 1, 0, NULL, 0));
    ANSWERS(OK, bully_replica_open(&replica, header, sizeof header - 1));
    ANSWERS(OK, bully_member_open(&member, header, sizeof header - 1, 7, 1, 22, NULL, 0, 0, 5, BULLY_TTL_MIN));
    is_open = 1;
    try_numbers();
    EXPECT(claims(&agent, "saw,1,down,-,-,-,-\n") && logged(&agent, ""));
    ANSWERS(OK, bully_replica_group(&replica, &group));
    EXPECT(group.rows == 0 && group.events == 0 && group.nodes == 1);
    ANSWERS(OK, bully_member_group(&member, &group));
    EXPECT(group.rows == 0);
    ANSWERS(OK, bully_member_next(&member, 0, &step));
    EXPECT(step.request == BULLY_ASK_SNAPSHOT);
    ANSWERS(OK, bully_agent_recover(&agent));
    ANSWERS(OK, bully_agent_close(&agent));
    ANSWERS(OK, bully_replica_close(&replica));
    ANSWERS(OK, bully_member_close(&member));
}

void try_nulls(void) {
    try_closed();
    try_open();
    try_closed();
}
