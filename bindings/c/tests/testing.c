/* What the tests beside this file have in common. */
#include "testing.h"

#include <stdio.h>
#include <string.h>

static int passed, failed;

const uint16_t two_owners[2] = {1, 2};

void count_test(int held, const char *file, int line, const char *text) {
    if (held) {
        passed++;
    } else {
        failed++;
        printf("FAILED: %s:%d: %s\n", file, line, text);
    }
}

void count_status(bully_status wanted, bully_status status, const char *file, int line, const char *text) {
    if (status != wanted) {
        printf("%s is answered, and %s is wanted:\n", bully_status_name(status), bully_status_name(wanted));
    }
    count_test(status == wanted, file, line, text);
}

int tell_counts(void) {
    printf("%d passed, %d failed\n", passed, failed);
    return failed == 0 ? 0 : 1;
}

int is_text(const char *text, size_t length, const char *wanted) {
    return length == strlen(wanted) && memcmp(text, wanted, length) == 0;
}

int is_shown(const char *what, const char *text, size_t length, const char *wanted) {
    if (!is_text(text, length, wanted)) {
        printf("%s: '%.*s' is shown, and '%s' is wanted:\n", what, (int)length, text, wanted);
    }
    return is_text(text, length, wanted);
}

bully_setup setup_of(uint16_t nodes, uint16_t partitions, uint32_t events_max) {
    bully_setup setup = {0, 0, 0, 0};
    setup.nodes = nodes;
    setup.partitions = partitions;
    setup.events_max = events_max;
    return setup;
}

/* ---- What an agent shows ---- */

int claims(bully_agent *agent, const char *claim) {
    char text[ROOM];
    size_t length = 0;
    ANSWERS(OK, bully_agent_claim(agent, text, ROOM, &length));
    return is_shown("claim", text, length, claim);
}

int logged(bully_agent *agent, const char *rows) {
    char text[ROOM];
    size_t length = 0;
    ANSWERS(OK, bully_agent_rows(agent, text, ROOM, &length));
    return is_shown("rows", text, length, rows);
}

/* ---- Two nodes ---- */

void call_once(bully_agent *caller, bully_agent *callee, uint32_t answer) {
    char line[ROOM], reply[BULLY_REPLY_MAX];
    size_t line_length = 0, reply_length = 0;
    uint32_t told = 99;
    ANSWERS(OK, bully_agent_start(caller));
    ANSWERS(OK, bully_agent_request(caller, line, ROOM, &line_length));
    ANSWERS(OK, bully_agent_serve(callee, line, line_length, reply, sizeof reply, &reply_length));
    ANSWERS(OK, bully_agent_replied(caller, reply, reply_length, &told));
    EXPECT(told == answer);
}

/* Node 2 halts node 1 and announces itself: it wants to plan then. */
static void lead(struct pair *pair) {
    ANSWERS(OK, bully_agent_recover(&pair->first));
    ANSWERS(OK, bully_agent_recover(&pair->second));
    ANSWERS(OK, bully_agent_advance(&pair->second));
    call_once(&pair->second, &pair->first, BULLY_YES);
    ANSWERS(OK, bully_agent_advance(&pair->second));
    call_once(&pair->second, &pair->first, BULLY_YES);
    ANSWERS(OK, bully_agent_advance(&pair->second));
}

struct pair open_pair(uint32_t events_max) {
    struct pair pair;
    memset(&pair, 0, sizeof pair);
    pair.setup = setup_of(2, 2, events_max);
    ANSWERS(OK, bully_agent_open(&pair.first, &pair.setup, NULL, 0, 1, 0, NULL, 0));
    ANSWERS(OK, bully_agent_open(&pair.second, &pair.setup, NULL, 0, 2, 0, NULL, 0));
    lead(&pair);
    ANSWERS(OK, bully_agent_plan(&pair.second, two_owners, 2));
    call_once(&pair.second, &pair.first, BULLY_YES);
    ANSWERS(OK, bully_agent_advance(&pair.second));
    return pair;
}

void close_pair(struct pair *pair) {
    ANSWERS(OK, bully_agent_close(&pair->first));
    ANSWERS(OK, bully_agent_close(&pair->second));
}
