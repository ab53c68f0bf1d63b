/* Tries each function of bully.h: calls VERSION HEADER_FOLDER. The version is the one that the program prints as its own,
 * and the folder has bully.h. The last line is 'N passed, M failed'. */
#include "stories.h"

#include <stdio.h>

/* (memory.c refuses the calls of stories their requests for memory) */
void begin_call(const char *call) {
    (void)call;
}

int goes_again(bully_status status, const char *call) {
    (void)status;
    (void)call;
    return 0;
}

int tries_rooms(void) {
    return 1;
}

int main(int count, char **words) {
    if (count != 3) {
        fprintf(stderr, "usage: calls VERSION HEADER_FOLDER\n");
        return 2;
    }
    try_names(words[1], words[2]);
    try_nulls();
    try_limits();
    try_stories();
    return tell_counts();
}
