/* What the calls of stories write, and what their handles show. */
#ifndef STORIES_H
#define STORIES_H

#include "testing.h"

/* Runs each story that `from_stories.py` wrote. What happens at a call is that of calls.c, or of memory.c. */
void try_stories(void);

/* The functions that the header has as taking memory, and then NULL. */
extern const char *const taking[];

/* Before each call; and after it, whether it is made once more. */
void begin_call(const char *call);
int goes_again(bully_status status, const char *call);
/* Whether calls are made with too little room, too. */
int tries_rooms(void);

/* Whether this call is the last one of its story. */
int is_last_call(void);

/* What is written: fills it, and whether all of it is as it was filled, or all but one item. */
#define MOST_ITEMS 12
#define ENOUGH 2000
#define FILLED 77
void *at(size_t item);
void fill(void);
int is_filled(void);
int is_filled_but(size_t item);

/* The rows that are still to be learned of those that a call is given. */
const char *next_rows(void);
size_t next_length(void);
/* So many of them were learned. */
void learned_rows(size_t count);

/* All that the open handles show: keeps it, and whether it is the same. */
void see_before(void);
int is_as_before(void);

#endif
