/* The stories of bindings/stories, in C: `from_stories.py` writes each_story.h. */
#include "stories.h"

#include <stdio.h>
#include <stdlib.h>
#include <string.h>

/* ---- What is written ---- */

static uint64_t items[MOST_ITEMS][ENOUGH / 4];

void *at(size_t item) {
    return items[item];
}

/* The item, or null if there is no room for any. */
static void *some(size_t item, size_t room) {
    return room == 0 ? NULL : at(item);
}

void fill(void) {
    memset(items, FILLED, sizeof items);
}

/* Whether all bytes from this one on are as they were filled. */
static int is_left_from(const void *start, size_t count) {
    const unsigned char *bytes = (const unsigned char *)start;
    return count == 0 || (bytes[0] == FILLED && memcmp(bytes, bytes + 1, count - 1) == 0);
}

static int is_left(size_t item) {
    return is_left_from(items[item], sizeof items[item]);
}

int is_filled(void) {
    return is_left_from(items, sizeof items);
}

int is_filled_but(size_t item) {
    size_t each;
    for (each = 0; each < MOST_ITEMS; each++) {
        if (each != item && !is_left(each)) {
            return 0;
        }
    }
    return 1;
}

/* ---- Rows that are learned ---- */

static const char *rows;
static size_t rows_length, rows_learned;

static void begin_rows(const char *text, size_t length) {
    rows = text == NULL ? "" : text;
    rows_length = length;
    rows_learned = 0;
}

const char *next_rows(void) {
    return rows_length == 0 ? NULL : rows;
}

size_t next_length(void) {
    return rows_length;
}

void learned_rows(size_t count) {
    for (rows_learned += count; count > 0; count--) {
        const char *end = (const char *)memchr(rows, '\n', rows_length) + 1;
        rows_length -= (size_t)(end - rows);
        rows = end;
    }
}

/* ---- The handles, and all that they show ---- */

#define MOST_HANDLES 3
#define MOST_SEEN 65536

static bully_agent agents[MOST_HANDLES];
static bully_replica replicas[MOST_HANDLES];
static bully_member members[MOST_HANDLES];

struct sight {
    unsigned char bytes[MOST_SEEN];
    size_t length;
};

static void note(struct sight *sight, const void *bytes, size_t count) {
    if (count > MOST_SEEN - sight->length) {
        abort();
    }
    memcpy(sight->bytes + sight->length, bytes, count);
    sight->length += count;
}

#define EXPECT_OK(call) count_status(BULLY_OK, (call), __FILE__, __LINE__, #call)
#define NOTE(value, call) (EXPECT_OK(call), note(sight, &(value), sizeof(value)))
#define NOTE_LIST(call) (EXPECT_OK(call), note(sight, &count, sizeof count), note(sight, list, count * sizeof *list))
#define NOTE_TEXT(call) (EXPECT_OK(call), note(sight, &count, sizeof count), note(sight, text, count))

static void see_agent(struct sight *sight, bully_agent *agent) {
    static uint16_t list[ENOUGH];
    static char text[ENOUGH];
    bully_state state;
    size_t count = 0;
    NOTE(state, bully_agent_show(agent, &state));
    NOTE_LIST(bully_agent_up(agent, list, ENOUGH, &count));
    NOTE_LIST(bully_agent_task(agent, list, ENOUGH, &count));
    NOTE_TEXT(bully_agent_claim(agent, text, ENOUGH, &count));
    NOTE_TEXT(bully_agent_rows(agent, text, ENOUGH, &count));
    NOTE_TEXT(bully_agent_request(agent, text, ENOUGH, &count));
}

static void see_replica(struct sight *sight, bully_replica *replica) {
    static uint16_t list[ENOUGH];
    static char text[ENOUGH];
    bully_state state;
    bully_group group;
    uint16_t node;
    size_t count = 0;
    NOTE(group, bully_replica_group(replica, &group));
    NOTE_LIST(bully_replica_planned(replica, list, ENOUGH, &count));
    for (node = 1; node <= group.nodes; node++) {
        NOTE(state, bully_replica_show(replica, node, &state));
        NOTE_LIST(bully_replica_up(replica, node, list, ENOUGH, &count));
        NOTE_LIST(bully_replica_task(replica, node, list, ENOUGH, &count));
        NOTE_TEXT(bully_replica_next(replica, node, text, ENOUGH, &count));
    }
}

static void see_member(struct sight *sight, bully_member *member) {
    static uint16_t list[ENOUGH];
    bully_member_state shown;
    bully_state state;
    bully_group group;
    uint16_t node;
    size_t count = 0;
    NOTE(shown, bully_member_show(member, 0, &shown));
    NOTE(group, bully_member_group(member, &group));
    NOTE_LIST(bully_member_planned(member, list, ENOUGH, &count));
    NOTE_LIST(bully_member_activities(member, list, ENOUGH, &count));
    NOTE_LIST(bully_member_works(member, list, ENOUGH, &count));
    for (node = 1; node <= group.nodes; node++) {
        NOTE(state, bully_member_node(member, node, &state));
    }
}

static struct sight before, behind;

static void see(struct sight *sight) {
    size_t each;
    sight->length = 0;
    for (each = 0; each < MOST_HANDLES; each++) {
        if (agents[each].held != NULL) {
            see_agent(sight, &agents[each]);
        }
        if (replicas[each].held != NULL) {
            see_replica(sight, &replicas[each]);
        }
        if (members[each].held != NULL) {
            see_member(sight, &members[each]);
        }
    }
}

void see_before(void) {
    see(&before);
}

int is_as_before(void) {
    see(&behind);
    return before.length == behind.length && memcmp(before.bytes, behind.bytes, before.length) == 0;
}

static int is_last;

int is_last_call(void) {
    return is_last;
}

static void begin_last(void) {
    is_last = 1;
}

static void end_story(void) {
    size_t each;
    is_last = 0;
    for (each = 0; each < MOST_HANDLES; each++) {
        if (agents[each].held != NULL) {
            EXPECT_OK(bully_agent_close(&agents[each]));
        }
        if (replicas[each].held != NULL) {
            EXPECT_OK(bully_replica_close(&replicas[each]));
        }
        if (members[each].held != NULL) {
            EXPECT_OK(bully_member_close(&members[each]));
        }
    }
}

/* ---- What is wanted ---- */

#undef ANSWERS
#define ANSWERS(name, call) \
    do { \
        begin(#call); \
    } while (is_to_go_again(BULLY_##name, (call), __FILE__, __LINE__, #call))

static void begin(const char *call) {
    fill();
    begin_call(call);
}

static int is_to_go_again(bully_status wanted, bully_status status, const char *file, int line, const char *call) {
    int again = goes_again(status, call);
    if (!again) {
        count_status(wanted, status, file, line, call);
    }
    return again;
}

#define IS_NUMBER(item, kind, wanted) is_number(*(const kind *)at(item), (wanted), __FILE__, __LINE__, #kind)
/* All fields of a struct: those that aren't given are 0. */
#define IS_WHOLE(item, kind, ...) is_##kind((const kind *)at(item), (kind){__VA_ARGS__}, __FILE__, __LINE__)
#define IS_FIELD(item, kind, field, wanted) is_number(((const kind *)at(item))->field, (wanted), __FILE__, __LINE__, #kind "." #field)
/* How many rows were learned, in one call or in several. */
#define IS_LEARNED(item, wanted) is_number(rows_learned + *(const size_t *)at(item), (wanted), __FILE__, __LINE__, "rows")
#define IS_LISTED(item, count, size, ...) is_listed(__FILE__, __LINE__, item, count, size, __VA_ARGS__)
#define NO_COUNT MOST_ITEMS

static void is_number(uint64_t number, uint64_t wanted, const char *file, int line, const char *what) {
    if (number != wanted) {
        printf("%s: %llu is shown, and %llu is wanted:\n", what, (unsigned long long)number, (unsigned long long)wanted);
    }
    count_test(number == wanted, file, line, what);
}

/* Whether these bytes or numbers are listed, so many as the count says, and nothing after them. */
static void is_listed(const char *file, int line, size_t item, size_t count, size_t size, const void *wanted, size_t length) {
    size_t bytes = length * size, shown = count == NO_COUNT ? length : *(const size_t *)at(count);
    const char *listed = (const char *)at(item);
    int is_so = shown == length && (length == 0 || memcmp(listed, wanted, bytes) == 0);
    if (!is_so && size == 1) {
        printf("'%.*s' is listed, and '%.*s' is wanted:\n", (int)shown, listed, (int)length, length == 0 ? "" : (const char *)wanted);
    }
    count_test(is_so, file, line, "what is listed");
    count_test(is_left_from(listed + bytes, sizeof items[item] - bytes), file, line, "nothing is written after it");
}

/* The rooms below this length: all if they are few, otherwise the first and the last. */
static size_t first_room(size_t length) {
    return tries_rooms() ? 0 : length;
}

static size_t next_room(size_t room, size_t length) {
    return length < 128 || room != 0 ? room + 1 : length - 1;
}

/* A new replica learns the rows up to the first that isn't learned; and bully_check judges the log alike. */
static void try_log(const char *header, size_t header_length, const char *text, size_t length, bully_status status, size_t taken,
                    uint32_t events, const char *file, int line) {
    static char log[ENOUGH];
    bully_replica replica = BULLY_REPLICA_CLOSED;
    bully_verdict verdict = {FILLED, FILLED, FILLED};
    bully_group group;
    size_t learned = FILLED;
    bully_status checked = status >= BULLY_BAD_HEADER && status <= BULLY_TOO_MANY_ROWS ? status : BULLY_OK;
    uint32_t kind = status == BULLY_OK ? BULLY_LAWFUL : status == BULLY_ROW_DIFFERS ? BULLY_DIFFERS : BULLY_REFUSED;
    EXPECT_OK(bully_replica_open(&replica, header, header_length));
    count_status(status, bully_replica_learn(&replica, text, length, &learned), file, line, "bully_replica_learn");
    EXPECT_OK(bully_replica_group(&replica, &group));
    is_number(learned, taken, file, line, "rows learned");
    is_number(group.rows, taken, file, line, "rows");
    is_number(group.events, events, file, line, "events");
    EXPECT_OK(bully_replica_close(&replica));
    snprintf(log, sizeof log, "%.*s%.*s", (int)header_length, header, (int)length, text == NULL ? "" : text);
    count_status(checked, bully_check((const uint8_t *)log, header_length + length, &verdict), file, line, "bully_check");
    is_number(verdict.number, status == BULLY_OK ? events : taken + 2, file, line, "verdict.number");
    is_number(verdict.kind, checked == BULLY_OK ? kind : FILLED, file, line, "verdict.kind");
    is_number(verdict.cause, checked != BULLY_OK ? FILLED : kind == BULLY_REFUSED ? status : BULLY_OK, file, line, "verdict.cause");
}

#define ROWS next_rows(), next_length()
#define TRY_LOG(header, size, rows, length, status, taken, events) \
    try_log(header, size, rows, length, status, taken, events, __FILE__, __LINE__)

#include "each_story.h"

const char *const taking[] = {TAKING, NULL};

void try_stories(void) {
    try_each_story();
}
