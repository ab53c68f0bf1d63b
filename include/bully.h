/* bully.h: one node of a group, or what a process knows of a group and does in it, from C and from whatever calls C.
 *
 * The node elects a coordinator with its group by Garcia-Molina's Bully algorithm and has the group's task.
 * `docs/NODE.md` has the two ways to embed a node, what the program must keep, and why. An agent is one node that sends
 * calls to the others. A replica is what a process knows of a group whose history is a log in a store. A member has the
 * rules of such a process: it says what to do next. This library leaves sockets, stores, clocks, threads and files to
 * the program; it makes no thread, takes no lock and prints nothing. `bin/library` builds it.
 *
 * Each function returns a status. If that isn't BULLY_OK, nothing has changed, and nothing was written but what the
 * function's comment says. Each function tests its arguments in the order in which its comment lists the statuses:
 *
 * - BULLY_NULL: a pointer is null that must not be, or a length is above PTRDIFF_MAX bytes. A pointer with a `size_t`
 *   right after it points to that many items, any other one to one item. A pointer to no items may be null.
 * - BULLY_CLOSED: the handle isn't open.
 *
 * The program must keep these rules, which no test can see:
 *
 * - a handle is zeroed before it is opened, and nothing but this library writes it then; it may be moved, but no copy
 *   is used beside it;
 * - one call of a handle at a time; it may go from thread to thread, and other threads may use other handles meanwhile;
 * - a pointer and its length are those of memory that is there, and no two of them of the same memory, unless both are
 *   only read;
 * - malloc, realloc and free are those of the C library, and no call comes from a signal handler.
 *
 * Nodes are numbered from 1, and 0 means none. A table has an owner, a node, for each partition. Text is ASCII, without
 * a zero byte at its end: its length says where it ends.
 */
#ifndef BULLY_H
#define BULLY_H

#include <stddef.h>
#include <stdint.h>

#ifdef __cplusplus
extern "C" {
#endif

/* The most that a setup may have, and the most events that it may bound. */
#define BULLY_NODES_MAX 1024
#define BULLY_PARTITIONS_MAX 4096
#define BULLY_WEIGHT_MAX 1000
#define BULLY_EVENTS_MAX 1000000

/* The most bytes that the line of a reply takes. */
#define BULLY_REPLY_MAX 32

/* The shortest and the longest ttl of a member, a millisecond and a day, in nanoseconds. */
#define BULLY_TTL_MIN 1000000
#define BULLY_TTL_MAX 86400000000000

/* ---- Statuses ---- */

typedef uint32_t bully_status;

enum {
    BULLY_OK = 0,

    /* Why an event is refused, as `docs/ALGORITHM.md` lists the causes. */
    BULLY_FULL = 1,         /* there are as many events as the setup allows */
    BULLY_BAD_NODE = 2,     /* a node is none of the setup's */
    BULLY_IS_DOWN = 3,      /* the node is Down */
    BULLY_IS_UP = 4,        /* the node recovers and isn't Down */
    BULLY_BUSY = 5,         /* a check or a timeout of a node that isn't idle */
    BULLY_NO_STEP = 6,      /* the node doesn't want to do that next */
    BULLY_SLOT_BUSY = 7,    /* the node has a call under way */
    BULLY_NO_CALL = 8,      /* there is no such call, or none to this node, or none that is answered so */
    BULLY_CALLEE_DOWN = 9,  /* the request comes to a node that is Down */
    BULLY_CALLEE_UP = 10,   /* of a trace alone: a call is lost whose callee is up */
    BULLY_BAD_TABLE = 11,   /* a planned table isn't balanced over the node and its up set */
    BULLY_NOT_ORPHAN = 12,  /* the call isn't an orphan */

    /* Of arguments. */
    BULLY_NULL = 20,
    BULLY_CLOSED = 21,
    BULLY_OPEN = 22,           /* the handle is open already */
    BULLY_OUT_OF_MEMORY = 23,  /* an allocation failed */
    BULLY_SHORT = 24,          /* the caller's room is too small; how much is wanted was written */
    BULLY_BAD_NODES = 25,      /* nodes: none, or more than BULLY_NODES_MAX */
    BULLY_BAD_PARTITIONS = 26, /* partitions: none, or more than BULLY_PARTITIONS_MAX */
    BULLY_BAD_LIMIT = 27,      /* events_max: 0, or more than BULLY_EVENTS_MAX */
    BULLY_BAD_WEIGHTS = 28,    /* weights: another number than nodes, or one of 0 or above BULLY_WEIGHT_MAX */
    BULLY_TABLE_LENGTH = 29,   /* a table has another number of owners than there are partitions */
    BULLY_TABLE_OWNER = 30,    /* an owner is no node of the setup */
    BULLY_NO_MEMBER = 31,      /* a table over no members */
    BULLY_BAD_EVENT = 32,      /* no number of a kind of event */
    BULLY_BAD_ROWS_MAX = 33,   /* rows_max: below 22 for each node, or more than BULLY_EVENTS_MAX */
    BULLY_BAD_TTL = 34,        /* ttl: below BULLY_TTL_MIN, or more than BULLY_TTL_MAX */
    BULLY_BAD_ANSWER = 35,     /* no number of an answer of a store */
    BULLY_BAD_KEPT = 36,       /* leases keep more or fewer partitions than are given */

    /* The first fault of a line, from its left, as `docs/FORMATS.md` lists them. */
    BULLY_LINE_WORD = 40,   /* it doesn't start with `ask` or `tell`, or isn't UTF-8 */
    BULLY_LINE_CALLER = 41,
    BULLY_LINE_NUMBER = 42,
    BULLY_LINE_CALLEE = 43,
    BULLY_LINE_KIND = 44,
    BULLY_LINE_TABLE = 45,
    BULLY_LINE_ANSWER = 46,

    /* The first fault of a trace's form, as `docs/FORMATS.md` lists them. */
    BULLY_BAD_HEADER = 50,
    BULLY_BAD_ROW = 51,
    BULLY_TOO_MANY_ROWS = 52,

    /* Of a row of a log that is learned. */
    BULLY_ROW_DIFFERS = 53, /* what it says beside its event, or claims, isn't so */
    BULLY_ROW_END = 54,     /* the last line has no line end */

    /* Of a configuration, which `docs/FORMATS.md` refuses. */
    BULLY_BAD_CONFIG = 55
};

/* The status's name, as "OK" for BULLY_OK; "?" for a number that is no status. It never fails, and the text is never
 * freed. */
const char *bully_status_name(bully_status status);

/* The version of the library, as `bully --version` prints it. It never fails, and the text is never freed. */
const char *bully_version(void);

/* ---- Setups ---- */

/* The setup of a group. A function that takes a setup takes the weights of its nodes after it, that of node 1 first: as
 * many as nodes, each from 1 to BULLY_WEIGHT_MAX; or none, and then each weighs 1. */
typedef struct bully_setup {
    uint16_t nodes;      /* 1 to BULLY_NODES_MAX */
    uint16_t partitions; /* 1 to BULLY_PARTITIONS_MAX */
    uint32_t events_max; /* 1 to BULLY_EVENTS_MAX: how many events the group has at most */
    uint32_t keeps;      /* not 0: a node keeps its task over a crash */
} bully_setup;

/* ---- Traces ---- */

enum { BULLY_LAWFUL = 0, BULLY_REFUSED = 1, BULLY_DIFFERS = 2 };

typedef struct bully_verdict {
    uint32_t kind;      /* BULLY_LAWFUL, BULLY_REFUSED or BULLY_DIFFERS */
    uint32_t number;    /* lawful: how many events were counted; else the row that is refused or differs, from 1 */
    bully_status cause; /* refused: why; else BULLY_OK */
} bully_verdict;

/* Judges a trace, as `bully check` does. If the trace has a fault of form, `number` of the verdict is its row; it is 0
 * if an allocation failed.
 * BULLY_NULL; BULLY_OUT_OF_MEMORY; BULLY_BAD_HEADER, BULLY_BAD_ROW, BULLY_TOO_MANY_ROWS: the first in the trace. */
bully_status bully_check(const uint8_t *trace, size_t length, bully_verdict *verdict);

/* The header of a trace of this setup for the rows of replicas, with its line end: of version 1 if that can express the
 * setup, and else of version 2, as `docs/FORMATS.md` says. A header doesn't have events_max: the bound of a trace is
 * BULLY_EVENTS_MAX.
 * BULLY_NULL, BULLY_BAD_NODES, BULLY_BAD_PARTITIONS, BULLY_BAD_LIMIT, BULLY_BAD_WEIGHTS, BULLY_OUT_OF_MEMORY;
 * BULLY_SHORT, with the length. */
bully_status bully_header(const bully_setup *setup, const uint16_t *weights, size_t weight_count, char *row,
                          size_t room, size_t *length);

/* The header of version 3 of the same, for the rows of bully_agent_rows and bully_agent_claim.
 * BULLY_NULL, BULLY_BAD_NODES, BULLY_BAD_PARTITIONS, BULLY_BAD_LIMIT, BULLY_BAD_WEIGHTS, BULLY_OUT_OF_MEMORY;
 * BULLY_SHORT, with the length. */
bully_status bully_detailed_header(const bully_setup *setup, const uint16_t *weights, size_t weight_count, char *row,
                                   size_t room, size_t *length);

/* ---- Configurations ---- */

/* Reads a group's configuration, a TOML document as `docs/FORMATS.md` defines it, and writes the group: the header of a
 * log of it, as bully_header writes that, and then a line for each node in the order of their numbers: how many bytes
 * its name has, a colon and the name. This text is in UTF-8: a name may have any characters, also a line end or a zero
 * byte.
 * BULLY_NULL, BULLY_OUT_OF_MEMORY; BULLY_BAD_CONFIG, and then its first fault is written as that page names it, as
 * `Range nodes`; BULLY_SHORT, with the length. */
bully_status bully_configuration(const uint8_t *text, size_t length, char *told, size_t room, size_t *told_length);

/* ---- Tables ---- */

/* Plans the table over these members, in any order and each counted once: balanced, with the fewest moves from the old
 * table; old_count 0: from none. `owners` has room for owner_count owners, as many as there are partitions, and `moves`
 * gets how many partitions change their owner: all of them, if there is no old table.
 * BULLY_NULL, BULLY_BAD_NODES, BULLY_BAD_PARTITIONS, BULLY_BAD_LIMIT, BULLY_BAD_WEIGHTS; BULLY_BAD_NODE: a member;
 * BULLY_TABLE_LENGTH: of the old table, or of owner_count; BULLY_TABLE_OWNER: of the old table; BULLY_NO_MEMBER;
 * BULLY_OUT_OF_MEMORY. */
bully_status bully_table(const bully_setup *setup, const uint16_t *weights, size_t weight_count,
                         const uint16_t *members, size_t member_count, const uint16_t *old, size_t old_count,
                         uint16_t *owners, size_t owner_count, uint16_t *moves);

/* ---- One node ---- */

/* A handle of an agent: what the library keeps of one node. Closed if it is zeroed. */
typedef struct bully_agent {
    void *held;
} bully_agent;

#define BULLY_AGENT_CLOSED { NULL }

/* Opens the handle: the agent of a node that is Down, whose log has this many events, 0 at first, and which has kept
 * this task; task_count 0: none. With as many events as the setup allows, or more, it is opened, and each event is
 * BULLY_FULL.
 * BULLY_NULL, BULLY_OPEN, BULLY_BAD_NODES, BULLY_BAD_PARTITIONS, BULLY_BAD_LIMIT, BULLY_BAD_WEIGHTS, BULLY_BAD_NODE,
 * BULLY_TABLE_LENGTH, BULLY_TABLE_OWNER, BULLY_OUT_OF_MEMORY. */
bully_status bully_agent_open(bully_agent *agent, const bully_setup *setup, const uint16_t *weights,
                              size_t weight_count, uint16_t node, uint32_t events, const uint16_t *task,
                              size_t task_count);

/* Closes the handle, and gives back all that was kept. BULLY_NULL, BULLY_CLOSED. */
bully_status bully_agent_close(bully_agent *agent);

/* What a node does by itself. Each that is BULLY_OK is one event of the group, and `bully_agent_rows` has its row for
 * the log. */

/* The node recovers, and stands for election. BULLY_NULL, BULLY_CLOSED, BULLY_FULL, BULLY_IS_UP. */
bully_status bully_agent_recover(bully_agent *agent);
/* The node crashes, or must stop. BULLY_NULL, BULLY_CLOSED, BULLY_FULL, BULLY_IS_DOWN. */
bully_status bully_agent_crash(bully_agent *agent);
/* The idle node starts to check. BULLY_NULL, BULLY_CLOSED, BULLY_FULL, BULLY_IS_DOWN, BULLY_BUSY. */
bully_status bully_agent_check(bully_agent *agent);
/* The idle node heard nothing for too long. BULLY_NULL, BULLY_CLOSED, BULLY_FULL, BULLY_IS_DOWN, BULLY_BUSY. */
bully_status bully_agent_timeout(bully_agent *agent);
/* The node starts the call that it wants to start; `bully_agent_request` then has what is to be sent.
 * BULLY_NULL, BULLY_CLOSED, BULLY_FULL, BULLY_IS_DOWN, BULLY_NO_STEP, BULLY_SLOT_BUSY. */
bully_status bully_agent_start(bully_agent *agent);
/* The node moves on without a call. BULLY_NULL, BULLY_CLOSED, BULLY_FULL, BULLY_IS_DOWN, BULLY_NO_STEP,
 * BULLY_SLOT_BUSY. */
bully_status bully_agent_advance(bully_agent *agent);
/* The node has planned this table, as `bully_agent_prepare` makes one.
 * BULLY_NULL, BULLY_CLOSED, BULLY_TABLE_LENGTH, BULLY_TABLE_OWNER, BULLY_OUT_OF_MEMORY, BULLY_FULL, BULLY_IS_DOWN,
 * BULLY_NO_STEP, BULLY_SLOT_BUSY, BULLY_BAD_TABLE. */
bully_status bully_agent_plan(bully_agent *agent, const uint16_t *owners, size_t owner_count);
/* The node's call, an orphan, is given up. BULLY_NULL, BULLY_CLOSED, BULLY_FULL, BULLY_IS_DOWN, BULLY_NO_CALL,
 * BULLY_NOT_ORPHAN. */
bully_status bully_agent_drop_orphan(bully_agent *agent);

/* The table that the node should plan, from this old one; old_count 0: from none. No event.
 * BULLY_NULL, BULLY_CLOSED; BULLY_TABLE_LENGTH: of the old table, or of owner_count; BULLY_TABLE_OWNER,
 * BULLY_OUT_OF_MEMORY. */
bully_status bully_agent_prepare(bully_agent *agent, const uint16_t *old, size_t old_count, uint16_t *owners,
                                 size_t owner_count);

/* What comes from other nodes, or goes to them. Lines have no line end. */

/* The line of the request of the node's call, while the call is under way, to be sent to its callee, once; a length of
 * 0: no call is. No event. BULLY_NULL, BULLY_CLOSED, BULLY_OUT_OF_MEMORY; BULLY_SHORT, with the length. */
bully_status bully_agent_request(bully_agent *agent, char *line, size_t room, size_t *length);
/* The request of this line runs at the node; what is written is the line of the reply to its caller. One event.
 * Premise: the request is the caller's call, and runs once, while the call is under way.
 * BULLY_NULL, BULLY_CLOSED, BULLY_LINE_.., BULLY_OUT_OF_MEMORY; BULLY_SHORT: room below that line, with its length,
 * which is at most BULLY_REPLY_MAX; BULLY_FULL, BULLY_BAD_NODE, BULLY_NO_CALL, BULLY_CALLEE_DOWN. */
bully_status bully_agent_serve(bully_agent *agent, const char *line, size_t line_length, char *reply, size_t room,
                               size_t *length);
/* The node's call returns with the reply of this line; `answer` gets what it brought. One event. Premise: the call ran
 * at its callee, and was answered so. BULLY_NULL, BULLY_CLOSED, BULLY_LINE_.., BULLY_FULL; BULLY_NO_CALL: it is no
 * reply to the call under way. */
bully_status bully_agent_replied(bully_agent *agent, const char *line, size_t line_length, uint32_t *answer);
/* The node's call of this number failed, and returns; `answer` gets what it brought. Two events. Premise: the callee is
 * Down.
 * BULLY_NULL, BULLY_CLOSED; BULLY_FULL: without room for both; BULLY_NO_CALL. */
bully_status bully_agent_failed(bully_agent *agent, uint32_t number, uint32_t *answer);

/* What a call that returned brought. */
enum { BULLY_DONE = 0, BULLY_YES = 1, BULLY_NO = 2, BULLY_FAILED = 3, BULLY_DISCARDED = 4 };

/* ---- What an agent or a replica shows of a node. No event. ---- */

enum { BULLY_DOWN = 0, BULLY_ELECTION = 1, BULLY_REORGANIZATION = 2, BULLY_NORMAL = 3 };
enum {
    BULLY_WANTS_NOTHING = 0,
    BULLY_WANTS_START = 1,
    BULLY_WANTS_MOVE = 2,
    BULLY_WANTS_PLAN = 3,
    BULLY_WANTS_AWAIT = 4
};
enum {
    BULLY_NO_CALL_KIND = 0,
    BULLY_ARE_YOU_UP = 1,
    BULLY_ARE_YOU_NORMAL = 2,
    BULLY_HALT = 3,
    BULLY_NEW_COORDINATOR = 4,
    BULLY_READY = 5
};

typedef struct bully_state {
    uint32_t status;      /* BULLY_DOWN, BULLY_ELECTION, BULLY_REORGANIZATION or BULLY_NORMAL */
    uint32_t wants;       /* what it wants to do next: BULLY_WANTS_.. */
    uint32_t events;      /* of an agent: its events, with those before it was opened; of a replica: those of its log */
    uint32_t generation;  /* how often it was stopped or crashed: an agent since it was opened, a replica in its log */
    uint32_t call;        /* the kind of the call in its slot */
    uint32_t orphan;      /* 1: that call is an orphan; else 0 */
    uint32_t number;      /* of an agent: of its last call; of a replica: 0 */
    uint16_t node;        /* its own number */
    uint16_t coordinator; /* 0: none */
    uint16_t halter;      /* who halted it; 0: nobody */
    uint16_t callee;      /* of the call in its slot; 0: there is none */
} bully_state;

/* The state of the node. BULLY_NULL, BULLY_CLOSED. */
bully_status bully_agent_show(bully_agent *agent, bully_state *state);
/* The nodes of its up set, in rising order. BULLY_NULL, BULLY_CLOSED; BULLY_SHORT, with the count. */
bully_status bully_agent_up(bully_agent *agent, uint16_t *nodes, size_t room, size_t *count);
/* The owners of its task; a count of 0: it has none. BULLY_NULL, BULLY_CLOSED; BULLY_SHORT, with the count. */
bully_status bully_agent_task(bully_agent *agent, uint16_t *owners, size_t room, size_t *count);
/* The rows of its last step, each with its line end, for a log that starts with what bully_detailed_header writes: they
 * are of version 3 of `docs/FORMATS.md`. A length of 0: it took no step since it was opened. BULLY_NULL, BULLY_CLOSED,
 * BULLY_OUT_OF_MEMORY; BULLY_SHORT, with the length. */
bully_status bully_agent_rows(bully_agent *agent, char *rows, size_t room, size_t *length);
/* The row that says all of its vector, with its line end.
 * BULLY_NULL, BULLY_CLOSED, BULLY_OUT_OF_MEMORY; BULLY_SHORT, with the length. */
bully_status bully_agent_claim(bully_agent *agent, char *row, size_t room, size_t *length);

/* ---- A group whose history is a log in a store ---- */

/* A handle of a replica: what the library keeps of a group whose rows it learned. Closed if it is zeroed. */
typedef struct bully_replica {
    void *held;
} bully_replica;

#define BULLY_REPLICA_CLOSED { NULL }

/* Opens the handle: the replica of a log that starts with this header, a row with its line end or without, before any
 * other row.
 * BULLY_NULL, BULLY_OPEN; BULLY_BAD_HEADER: it is none, or rows come after it; BULLY_OUT_OF_MEMORY. */
bully_status bully_replica_open(bully_replica *replica, const char *header, size_t length);

/* Closes the handle, and gives back all that was kept. BULLY_NULL, BULLY_CLOSED. */
bully_status bully_replica_close(bully_replica *replica);

/* Learns the rows that come next in the log, each with its line end, a line feed, in their order and as `bully_check`
 * takes them: up to the first that isn't a row, is refused or says what isn't so. A blank line is no row, and isn't
 * counted. `taken` gets how many were learned, also if the status isn't BULLY_OK. The status then says why the next one
 * wasn't learned, and what was learned before it stays.
 * BULLY_NULL, BULLY_CLOSED: `taken` is as before; BULLY_ROW_END: none was learned. Then of the first that isn't
 * learned: BULLY_OUT_OF_MEMORY; BULLY_TOO_MANY_ROWS; BULLY_BAD_ROW, also for a byte-order mark in front; BULLY_FULL to
 * BULLY_NOT_ORPHAN: its event is refused; BULLY_ROW_DIFFERS. */
bully_status bully_replica_learn(bully_replica *replica, const char *rows, size_t length, size_t *taken);

/* The row that the node appends next by itself, with its line end; a length of 0: it rests. If it isn't Down, it first
 * runs the call of the lowest caller that waits for it. Else its procedure takes a step, and a table is planned from
 * that of the last plan. The row says no more than its event, also in a log of version 3. The replica doesn't learn it:
 * append it to the log first, right after the rows that were learned.
 * BULLY_NULL, BULLY_CLOSED, BULLY_BAD_NODE, BULLY_OUT_OF_MEMORY; BULLY_FULL: the log has as many rows or events as a
 * trace may have; BULLY_SHORT, with the length. */
bully_status bully_replica_next(bully_replica *replica, uint16_t node, char *row, size_t room, size_t *length);

/* Events that a process appends for reasons of its own. (`bully_replica_next` drops an orphan by itself.) */
enum {
    BULLY_EVENT_CRASH = 1,
    BULLY_EVENT_RECOVER = 2,
    BULLY_EVENT_CHECK = 3,
    BULLY_EVENT_TIMEOUT = 4,
    BULLY_EVENT_DROP = 5
};

/* The row of this event of the node, with its line end, to be appended as `bully_replica_next` says; or why it is
 * refused.
 * BULLY_NULL, BULLY_CLOSED, BULLY_BAD_NODE, BULLY_BAD_EVENT; BULLY_FULL, BULLY_IS_DOWN, BULLY_IS_UP, BULLY_BUSY,
 * BULLY_NO_CALL, BULLY_NOT_ORPHAN; BULLY_OUT_OF_MEMORY; BULLY_SHORT, with the length. */
bully_status bully_replica_event(bully_replica *replica, uint16_t node, uint32_t event, char *row, size_t room,
                                 size_t *length);

/* The state of the node. BULLY_NULL, BULLY_CLOSED, BULLY_BAD_NODE. */
bully_status bully_replica_show(bully_replica *replica, uint16_t node, bully_state *state);
/* The nodes of the node's up set, in rising order. BULLY_NULL, BULLY_CLOSED, BULLY_BAD_NODE; BULLY_SHORT, with the
 * count. */
bully_status bully_replica_up(bully_replica *replica, uint16_t node, uint16_t *nodes, size_t room, size_t *count);
/* The owners of the node's task; a count of 0: it has none. BULLY_NULL, BULLY_CLOSED, BULLY_BAD_NODE; BULLY_SHORT, with
 * the count. */
bully_status bully_replica_task(bully_replica *replica, uint16_t node, uint16_t *owners, size_t room, size_t *count);

typedef struct bully_group {
    uint32_t rows;       /* how many rows were learned, claims too */
    uint32_t events;     /* how many of them were events */
    uint32_t token;      /* of the last plan: the number of events up to and including it; 0: there is none */
    uint16_t planner;    /* the node that made the last plan; 0: there is none */
    uint16_t nodes;      /* as the header has it */
    uint16_t partitions;
    uint16_t keeps;      /* 1: a node keeps its task over a crash; else 0 */
} bully_group;

/* The state of the group. Each node that is Normal has the last plan's planner as coordinator, and its table as task.
 * BULLY_NULL, BULLY_CLOSED. */
bully_status bully_replica_group(bully_replica *replica, bully_group *group);
/* The owners of the last plan's table; a count of 0: there is none. BULLY_NULL, BULLY_CLOSED; BULLY_SHORT, with the
 * count. */
bully_status bully_replica_planned(bully_replica *replica, uint16_t *owners, size_t room, size_t *count);

/* Live nodes may be in any order, and each counts once. An old table is the last one of an epoch before, in the numbers
 * of this group, for a log without a plan; old_count 0: there is none. In it 0 means an owner that this group doesn't
 * have. The library takes that as the node after the group's last one; in a group of BULLY_NODES_MAX nodes as node 1,
 * which may then keep what it didn't have. */

/* The rows that make the group stable among the live nodes, each with its line end. Append them right after the rows
 * that were learned, with nothing between, and in one process alone. With no live node all nodes crash; else the
 * highest live node is elected, and plans from the last plan's table, or else from the old one. They are at most 11 for
 * each node of the group. The replica doesn't learn them.
 * BULLY_NULL, BULLY_CLOSED; BULLY_BAD_NODE: one of `live`; BULLY_TABLE_LENGTH, BULLY_TABLE_OWNER: of the old table;
 * BULLY_FULL: the log has no room for all of them; BULLY_OUT_OF_MEMORY; BULLY_SHORT, with the length. */
bully_status bully_replica_rebalance(bully_replica *replica, const uint16_t *live, size_t live_count,
                                     const uint16_t *old, size_t old_count, char *rows, size_t room, size_t *length);
/* Whether the group is stable among the live nodes: all of these are Normal under the highest of them, all others are
 * Down, and if any node is live, there is a last plan, its token is above this offset, and all its owners are live.
 * `is_stable` gets 1, or else 0.
 * BULLY_NULL, BULLY_CLOSED, BULLY_BAD_NODE. */
bully_status bully_replica_is_stable(bully_replica *replica, const uint16_t *live, size_t live_count, uint32_t offset,
                                     uint32_t *is_stable);
/* By which token the node's process may work, and on which partitions, in rising order: the node is Normal, and the
 * last plan's token is above this offset. The first partition of a group is 0. A token and a count of 0: on none.
 * BULLY_NULL, BULLY_CLOSED, BULLY_BAD_NODE, BULLY_OUT_OF_MEMORY; BULLY_SHORT, with the token and the count. */
bully_status bully_replica_owned(bully_replica *replica, uint16_t node, uint32_t offset, uint32_t *token,
                                 uint16_t *partitions, size_t room, size_t *count);

/* ---- A process that acts for a node, by the rules of a member ---- */

/* A handle of a member: what the library keeps of a process that acts for one node of a group, as `docs/REBALANCING.md`
 * says. It gives the next step. The program that drives it does that, and reports the result to it. A member has no
 * clock, no store and no random numbers of its own. Times are whole nanoseconds of one clock that never goes back. An
 * offset in an epoch's log is the number of rows before it, without the header; each row is an event. Closed if it is
 * zeroed. */
typedef struct bully_member {
    void *held;
} bully_member;

#define BULLY_MEMBER_CLOSED { NULL }

/* Opens the handle: a member that has learned nothing, and asked for nothing, of an epoch whose log starts with this
 * header, for the node that has its name there. rows_max: how many rows the log may have, from 22 for each node to
 * BULLY_EVENTS_MAX. The old table is as `bully_replica_rebalance` takes one. is_cooperative: not 0 if a change of the
 * group stops only the work that moves; 0 if it stops all work (eager). All members of a group must agree on that. In a
 * cooperative group a resource must keep the highest token of each partition.
 * process: a number that no other process of the group ever has. ttl: how long a lease lasts after its last renewal.
 * BULLY_NULL, BULLY_OPEN; BULLY_BAD_HEADER: it is none, or rows come after it; BULLY_BAD_NODE, BULLY_TABLE_LENGTH,
 * BULLY_TABLE_OWNER, BULLY_BAD_ROWS_MAX, BULLY_BAD_TTL, BULLY_OUT_OF_MEMORY. */
bully_status bully_member_open(bully_member *member, const char *header, size_t length, uint32_t epoch, uint16_t node,
                               uint32_t rows_max, const uint16_t *old, size_t old_count, uint32_t is_cooperative,
                               uint64_t process, uint64_t ttl);

/* Closes the handle, and gives back all that was kept. BULLY_NULL, BULLY_CLOSED. */
bully_status bully_member_close(bully_member *member);

/* What a step is. */
enum {
    BULLY_STEP_ASK = 1,      /* send `request` to the store, and report its answer to the member */
    BULLY_STEP_BEGIN = 2,    /* start work by `token` on what `bully_member_owned` gives; nothing is written first.
                                Where it works already the work goes on, by this token from now on */
    BULLY_STEP_STOP = 3,     /* stop the work on the partitions that `bully_member_activities` shows as stopping, and
                                call `bully_member_stopped` or `bully_member_stopped_on` when that has ended. In an
                                eager group that is all work */
    BULLY_STEP_WAIT = 4,     /* wait for `until`, or for `at_most` nanoseconds, and then call `bully_member_woke` */
    BULLY_STEP_BACK_OFF = 5, /* do nothing for `at_most` nanoseconds, or until something is reported to the member */
    BULLY_STEP_END = 6       /* do nothing more: the member has ended, for the reason `ending` */
};

/* Requests to the store. A session is the pair of `process` and `number`, and an epoch is the member's. Each request is
 * done at one moment, or not at all. For a promise, an append or a roll-over read the rows, who is affected, and what
 * the member works on before anything else is reported to it. */
enum {
    BULLY_ASK_ACQUIRE = 1,   /* the node's lease for this session, which promises `offset` and keeps nothing: if nobody
                                has it, and the log ends at `offset` */
    BULLY_ASK_RENEW = 2,     /* renew the lease: if this session has had it without a gap */
    BULLY_ASK_RELEASE = 3,   /* release the lease, if this session has it */
    BULLY_ASK_SNAPSHOT = 4,  /* the rows after all that was learned, and what `bully_member_snapshot_read` is given */
    BULLY_ASK_PROMISE = 5,   /* this session's promise of `offset`, which keeps the partitions that `bully_member_works`
                                gives now: if it has the lease, and has promised no higher offset */
    BULLY_ASK_APPEND = 6,    /* append the rows of `bully_member_rebalance`: if the log ends at `offset`, somebody holds
                                a lease, and all holders, also unknown processes, have promised this offset of this
                                epoch and keep nothing. In a cooperative group, unless the member ends, nothing is
                                compared of holders whose node isn't affected (`bully_member_is_affected`). A lease that
                                is compared may also be as the member knows it: its own with its last promise that was
                                done, another one as the last snapshot found it */
    BULLY_ASK_ROLL_OVER = 7, /* end the epoch and start the next one, if the log ends at `offset`, somebody holds a
                                lease, and all holders have promised this offset of this epoch and keep nothing. In a
                                cooperative group nothing is compared of holders whose node isn't affected */
    BULLY_ASK_FOLLOW = 8     /* read what the current epoch starts with */
};

/* What ends a wait early: other rows, sessions or requests to resize than were seen, or another holder that is known to
 * leave; or one of these. */
enum {
    BULLY_UNTIL_NEWS = 1,     /* nothing else */
    BULLY_UNTIL_ANY_IDLE = 2, /* a holder of a lease is idle up to the end of the log (it has promised that, and keeps
                                 nothing), and wasn't when the member last read a snapshot */
    BULLY_UNTIL_ALL_IDLE = 3, /* all holders of leases are idle up to the end of the log */
    BULLY_UNTIL_PROMISES = 4  /* a holder of a lease has made another promise than when the member last read a
                                 snapshot */
};

/* Why a member waits or backs off: what holds then. The numbers are those of the rules in `docs/REBALANCING.md`. */
enum {
    BULLY_REASON_ANSWER = 2,     /* its last request isn't answered yet */
    BULLY_REASON_STOP = 3,       /* work that it was asked to stop hasn't ended yet */
    BULLY_REASON_PAUSE = 4,      /* a request was given up as unanswered not long ago */
    BULLY_REASON_HELD = 11,      /* another process holds the lease of its node */
    BULLY_REASON_REBALANCE = 12, /* the others haven't rebalanced the group yet since the session before its own
                                    ended */
    BULLY_REASON_STABLE = 18,    /* the group is stable, and its node works on all that it owns, if it owns anything */
    BULLY_REASON_ADMISSION = 19, /* the group is cooperative, and its lease isn't admitted yet */
    BULLY_REASON_TURN = 21,      /* it isn't its turn to change the log */
    BULLY_REASON_OTHERS = 22     /* others must promise something before the log changes */
};

/* Why a member ends. */
enum {
    BULLY_ENDING_NONE = 0,
    BULLY_ENDING_LEFT = 1,      /* it was told to leave */
    BULLY_ENDING_NOT_THERE = 2, /* the group has no node of its name any more */
    BULLY_ENDING_BROKEN = 3     /* the log has a row that isn't learned, or that has no event */
};

/* A step. A field that its kind and its request don't have is 0. */
typedef struct bully_step {
    uint64_t at_most; /* wait, back off: nanoseconds */
    uint64_t process; /* acquire, renew, release, promise: of the session */
    uint64_t number;
    uint32_t kind;    /* BULLY_STEP_.. */
    uint32_t request; /* ask: BULLY_ASK_.. */
    uint32_t until;   /* wait: BULLY_UNTIL_.. */
    uint32_t reason;  /* wait, back off: BULLY_REASON_.. */
    uint32_t offset;  /* acquire, promise, append, roll over */
    uint32_t token;   /* begin */
    uint32_t ending;  /* end: BULLY_ENDING_.. */
} bully_step;

/* What the member does now: the first of its rules that applies. The member notes that, so the step must be done. As
 * long as a request is awaited it asks for nothing else: the step is BULLY_STEP_STOP or BULLY_STEP_BACK_OFF. So if the
 * answer of a request is lost, or can't be passed on, call `bully_member_answered` with BULLY_STORE_UNANSWERED.
 * BULLY_NULL, BULLY_CLOSED. */
bully_status bully_member_next(bully_member *member, uint64_t now, bully_step *step);

/* What became of a request. */
enum {
    BULLY_STORE_DONE = 1,
    BULLY_STORE_REFUSED = 2,   /* it wasn't done, and won't be */
    BULLY_STORE_UNANSWERED = 3 /* it may have been done already, or may be done later, or never */
};

/* What became of the last request: BULLY_STORE_... A snapshot or a follow whose result doesn't come counts as
 * BULLY_STORE_UNANSWERED, whatever this call says. Nothing changes if no request is awaited.
 * BULLY_NULL, BULLY_CLOSED, BULLY_BAD_ANSWER. */
bully_status bully_member_answered(bully_member *member, uint64_t now, uint32_t answer);

/* The rows that a snapshot found after all that was learned, before `bully_member_snapshot_read` is called for it: they
 * are learned as `bully_replica_learn` learns rows. Unless the status is BULLY_OK, BULLY_ROW_END or
 * BULLY_OUT_OF_MEMORY, the member ends as BULLY_ENDING_BROKEN; so it does if one of the rows has no event. The snapshot
 * stays awaited. The statuses are those of `bully_replica_learn`. */
bully_status bully_member_learn(bully_member *member, const char *rows, size_t length, size_t *taken);

/* Who holds the lease of a node: the session, the offset of an epoch that it has promised, how many partitions that
 * promise keeps, and whether the holder is known to leave, as one that is told to (not 0: yes). Then the others stop at
 * once what its leaving takes from them. A member's own lease shows it only once the member was told to leave. */
typedef struct bully_lease {
    uint64_t process;
    uint64_t number;
    uint32_t epoch;
    uint32_t offset;
    uint16_t node;
    uint16_t kept_count;
    uint32_t is_leaving;
} bully_lease;

/* What a snapshot found beside the rows, at the same moment: which epoch is the current one; who holds the lease of a
 * node of it, in rising order of the nodes; the partitions that their promises keep: first those of the first lease,
 * and so on, those of each lease in rising order; whether an unknown process holds a lease, whose name no node of it
 * has (not 0: yes); and whether other settings are requested (not 0: yes). If the epoch isn't the member's, nothing
 * else counts. Nothing changes if no snapshot is awaited. The promises of others may be left out (epoch 0, offset 0,
 * nothing kept) unless `bully_member_needs_promises` gives 1.
 * BULLY_NULL, BULLY_CLOSED; BULLY_BAD_NODE: a lease's node isn't in the group; or, in another epoch, it is 0 or above
 * BULLY_NODES_MAX; BULLY_BAD_KEPT; BULLY_OUT_OF_MEMORY: nothing changes; or, once the leases were read, the member
 * reads another snapshot after a pause. */
bully_status bully_member_snapshot_read(bully_member *member, uint64_t now, uint32_t epoch, const bully_lease *leases,
                                        size_t lease_count, const uint16_t *kept, size_t kept_count,
                                        uint32_t has_unknown, uint32_t has_request);

/* Instead of any other answer: the member's epoch is over, and its log was removed. BULLY_NULL, BULLY_CLOSED. */
bully_status bully_member_passed(bully_member *member);

/* What the current epoch starts with: the member continues there with its session, and has learned nothing of the log.
 * Nothing changes if no follow is awaited. It counts as unanswered if the epoch isn't after the member's, or if the
 * member works on something. The arguments are those of `bully_member_open`.
 * BULLY_NULL, BULLY_CLOSED; BULLY_BAD_HEADER: it is none, or rows come after it; BULLY_BAD_NODE, BULLY_TABLE_LENGTH,
 * BULLY_TABLE_OWNER, BULLY_BAD_ROWS_MAX, BULLY_OUT_OF_MEMORY. */
bully_status bully_member_followed(bully_member *member, uint64_t now, const char *header, size_t length,
                                   uint32_t epoch, uint16_t node, uint32_t rows_max, const uint16_t *old,
                                   size_t old_count, uint32_t is_cooperative);
/* The current epoch's group has no node of the member's name: the member ends. Nothing changes if no follow is awaited.
 * BULLY_NULL, BULLY_CLOSED. */
bully_status bully_member_not_there(bully_member *member);
/* A wait is over. BULLY_NULL, BULLY_CLOSED. */
bully_status bully_member_woke(bully_member *member);
/* The member must leave in an orderly way. BULLY_NULL, BULLY_CLOSED. */
bully_status bully_member_leave(bully_member *member);
/* All work has ended by itself. token: that of the last BULLY_STEP_BEGIN, also for work that was started before. Nothing
 * changes with another one. BULLY_NULL, BULLY_CLOSED. */
bully_status bully_member_lost(bully_member *member, uint32_t token);
/* All work has ended. Even if there was none, the member promises again before a change that affects it. BULLY_NULL,
 * BULLY_CLOSED. */
bully_status bully_member_stopped(bully_member *member);
/* The work on this partition has ended, whether or not the member was asked to stop it. If the node still owns the
 * partition, the member begins again there. Even if there was no such work or partition, the member promises again
 * before a change that affects it. BULLY_NULL, BULLY_CLOSED. */
bully_status bully_member_stopped_on(bully_member *member, uint16_t partition);

/* The rows of an append, each with its line end: they rebalance the group among the live nodes, as
 * `bully_replica_rebalance` does, or in a cooperative group among those that are admitted; if the member ends, among
 * none.
 * BULLY_NULL, BULLY_CLOSED; BULLY_FULL: the log has no room for all of them; BULLY_OUT_OF_MEMORY; BULLY_SHORT, with the
 * length. */
bully_status bully_member_rebalance(bully_member *member, char *rows, size_t room, size_t *length);
/* What the member's node owns, by a plan after all that its session has promised, as `bully_replica_owned` shows it.
 * BULLY_NULL, BULLY_CLOSED, BULLY_OUT_OF_MEMORY; BULLY_SHORT, with the token and the count. */
bully_status bully_member_owned(bully_member *member, uint32_t *token, uint16_t *partitions, size_t room,
                                size_t *count);

/* What the holder of this lease owns, by a plan after what its session has promised in the member's epoch, as
 * `bully_replica_owned` shows it: on these partitions its process may work; in a cooperative group also on what its
 * promise keeps.
 * BULLY_NULL, BULLY_CLOSED, BULLY_BAD_NODE, BULLY_OUT_OF_MEMORY; BULLY_SHORT, with the token and the count. */
bully_status bully_member_owned_of(bully_member *member, const bully_lease *lease, uint32_t *token,
                                   uint16_t *partitions, size_t room, size_t *count);

/* What the member's process does on a partition. */
enum {
    BULLY_ACTIVITY_IDLE = 0,    /* it doesn't work on the partition */
    BULLY_ACTIVITY_WORKING = 1,
    BULLY_ACTIVITY_STOPPING = 2 /* it was asked to stop its work there, and hasn't reported yet that this has ended */
};

/* What the member's process does on each partition: BULLY_ACTIVITY_.., from partition 0 on. BULLY_NULL, BULLY_CLOSED;
 * BULLY_SHORT, with the count. */
bully_status bully_member_activities(bully_member *member, uint16_t *activities, size_t room, size_t *count);
/* The partitions on which the member's process works, in rising order, also those that it was asked to stop: what a
 * promise that is asked for now keeps. BULLY_NULL, BULLY_CLOSED, BULLY_OUT_OF_MEMORY; BULLY_SHORT, with the count. */
bully_status bully_member_works(bully_member *member, uint16_t *partitions, size_t room, size_t *count);
/* Whether a change of the log affects this node, as the member's last snapshot found: in an eager group each live node,
 * in a cooperative one each that loses a partition by the coming table. The member of an affected node must promise the
 * end of the log before the change. (A member that ends affects all.) `is_affected` gets 1, or else 0.
 * BULLY_NULL, BULLY_CLOSED, BULLY_BAD_NODE. */
bully_status bully_member_is_affected(bully_member *member, uint16_t node, uint32_t *is_affected);
/* Whether the group is stable for the member, by its last snapshot, so that there is nothing to do but to work. That is
 * so if all of these hold: the group is stable, as `bully_replica_is_stable` says, among the live nodes that were
 * admitted then, for each offset that one of them has promised; its plan comes after all that the member's own session
 * has promised; no other settings are requested; and the log has room for one more rebalance. `is_stable` gets 1, or
 * else 0. A member that acquires no lease may observe a group by this call.
 * BULLY_NULL, BULLY_CLOSED. */
bully_status bully_member_is_stable(bully_member *member, uint32_t *is_stable);
/* Whether the next snapshot must show what others have promised. In an eager group it must. In a cooperative group it
 * must if no higher node is live, or if the group isn't stable for the member and its turn to change the log has come,
 * or while the member keeps out a node that came again. Otherwise these promises may be left out: the member does the
 * same. A snapshot may change what this call gives; if that is 1 after one that left promises out, the member needs
 * another one. `needs_promises` gets 1, or else 0.
 * BULLY_NULL, BULLY_CLOSED. */
bully_status bully_member_needs_promises(bully_member *member, uint64_t now, uint32_t *needs_promises);

/* Whether the process has the lease of its node. */
enum {
    BULLY_SESSION_ABSENT = 0,
    BULLY_SESSION_UNKNOWN = 1, /* this session may have it: the request to acquire it wasn't answered */
    BULLY_SESSION_LIVE = 2
};

/* The state of its work. */
enum {
    BULLY_WORK_IDLE = 0,
    BULLY_WORK_WORKING = 1,
    BULLY_WORK_LOST = 2,    /* its work has ended by itself */
    BULLY_WORK_STOPPING = 3 /* it was asked to stop all its work or a part of it, and hasn't reported yet that this has
                               ended */
};

typedef struct bully_member_state {
    uint64_t process;     /* of its session; absent: 0 */
    uint64_t number;
    uint64_t since;       /* live: when its last renewal that was done was asked for; else 0 */
    uint64_t sure_left;   /* for how many nanoseconds from now its lease is sure: for that long it may go on working */
    uint32_t session;     /* BULLY_SESSION_.. */
    uint32_t promised;    /* the last offset of this epoch that its session has promised, whether or not the store knows
                             of that */
    uint32_t work;        /* BULLY_WORK_.. */
    uint32_t token;       /* of its work; idle: 0 */
    uint32_t ending;      /* why it ends, if it does: BULLY_ENDING_.. */
    uint32_t epoch;
    uint32_t offset;      /* the end of the log, as far as it was learned */
    uint16_t node;
    uint16_t has_request; /* 1: its last snapshot found that other settings are requested; else 0 */
} bully_member_state;

/* The state of the member now. BULLY_NULL, BULLY_CLOSED. */
bully_status bully_member_show(bully_member *member, uint64_t now, bully_member_state *shown);

/* What it has learned, as a replica shows it. */

/* The state of a node. BULLY_NULL, BULLY_CLOSED, BULLY_BAD_NODE. */
bully_status bully_member_node(bully_member *member, uint16_t node, bully_state *state);
/* The state of the group. BULLY_NULL, BULLY_CLOSED. */
bully_status bully_member_group(bully_member *member, bully_group *group);
/* The owners of the last plan's table; a count of 0: there is none. BULLY_NULL, BULLY_CLOSED; BULLY_SHORT, with the
 * count. */
bully_status bully_member_planned(bully_member *member, uint16_t *owners, size_t room, size_t *count);

#ifdef __cplusplus
}
#endif

#endif
