/* Refuses each call of the stories that allocates each of its requests in turn, the first, the second and so on, until one meets no refusal: it
 * answers BULLY_OUT_OF_MEMORY, nothing has changed, and all memory is given back. The program is linked with --wrap for malloc, realloc and free. The
 * last line is 'N passed, M failed'. */
#include "stories.h"

#include <stdio.h>
#include <string.h>

/* ---- The heap ---- */

void *__real_malloc(size_t size);
void *__real_realloc(void *block, size_t size);
void __real_free(void *block);
void *__wrap_malloc(size_t size);
void *__wrap_realloc(void *block, size_t size);
void __wrap_free(void *block);

/* Which request is refused, counted from now on (0: none), whether one was, and how many blocks there are. */
static long until_refused, blocks;
static int is_refused;

static int is_next_refused(void) {
    if (until_refused == 0 || --until_refused > 0) {
        return 0;
    }
    is_refused = 1;
    return 1;
}

void *__wrap_malloc(size_t size) {
    void *block = is_next_refused() ? NULL : __real_malloc(size);
    blocks += block != NULL;
    return block;
}

void *__wrap_realloc(void *block, size_t size) {
    void *moved = is_next_refused() ? NULL : __real_realloc(block, size);
    blocks += block == NULL && moved != NULL;
    return moved;
}

void __wrap_free(void *block) {
    blocks -= block != NULL;
    __real_free(block);
}

/* ---- The functions that the header has as taking memory ---- */

#define MOST_FUNCTIONS 40

/* How many requests each was refused, and how often rows were learned before the one that was. */
static long refused[MOST_FUNCTIONS], learned_before;

/* Which one this call is of; MOST_FUNCTIONS: of none. */
static size_t function_of(const char *call) {
    size_t length = strcspn(call, "("), at;
    for (at = 0; taking[at] != NULL; at++) {
        if (strlen(taking[at]) == length && memcmp(taking[at], call, length) == 0) {
            return at;
        }
    }
    return MOST_FUNCTIONS;
}

/* ---- Refusing ---- */

/* Which request of the call is refused, and the blocks before it. */
static long number, blocks_before;

/* A member that is refused while it reads a snapshot may read another one, so that its story goes another way. */
void begin_call(const char *call) {
    is_refused = 0;
    if (strstr(call, "_snapshot_read(") != NULL && !is_last_call()) {
        return;
    }
    if (number++ == 0) {
        see_before();
    }
    blocks_before = blocks;
    until_refused = number;
}

/* Rows before the refusal stay learned, and the rest is learned then. */
static void see_learning(const char *call) {
    size_t taken = *(const size_t *)at(2);
    EXPECT(is_filled_but(2));
    if (taken > 0) {
        learned_rows(taken);
        learned_before++;
        see_before();
    }
    EXPECT(strstr(call, "_learn(") != NULL);
}

/* Nothing was written, but for the number of a verdict. */
static void see_refusal(const char *call) {
    if (strstr(call, "_learn(") != NULL) {
        see_learning(call);
    } else if (strstr(call, "bully_check(") != NULL) {
        const bully_verdict *verdict = (const bully_verdict *)at(1);
        EXPECT(is_filled_but(1) && verdict->number == 0);
    } else {
        EXPECT(is_filled());
    }
    EXPECT(blocks == blocks_before || strstr(call, "_learn(") != NULL);
    EXPECT(is_as_before());
}

int goes_again(bully_status status, const char *call) {
    size_t function = function_of(call);
    until_refused = 0;
    if (!is_refused) {
        number = 0;
        return 0;
    }
    if (status != BULLY_OUT_OF_MEMORY || function == MOST_FUNCTIONS) {
        printf("%s, request %ld refused:\n", call, number);
    }
    ANSWERS(OUT_OF_MEMORY, status);
    EXPECT(function < MOST_FUNCTIONS);
    refused[function % MOST_FUNCTIONS]++;
    see_refusal(call);
    return 1;
}

int tries_rooms(void) {
    return 0;
}

int main(void) {
    size_t at_function;
    long before;
    /* (what printing keeps is made now) */
    puts("requests for memory are refused");
    before = blocks;
    try_stories();
    EXPECT(blocks == before && learned_before > 0);
    for (at_function = 0; taking[at_function] != NULL; at_function++) {
        printf("%s: %ld requests refused\n", taking[at_function], refused[at_function]);
        EXPECT(refused[at_function] > 0);
    }
    return tell_counts();
}
