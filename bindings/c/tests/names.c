/* The statuses: each has the name that the header gives it, and no other number has one. And the version. */
#include "testing.h"

#include <ctype.h>
#include <stdio.h>
#include <stdlib.h>
#include <string.h>

/* Whether this is in the text, with no digit after it. */
static int stands_in(const char *text, const char *told) {
    const char *at;
    for (at = strstr(text, told); at != NULL; at = strstr(at + 1, told)) {
        if (!isdigit((unsigned char)at[strlen(told)])) {
            return 1;
        }
    }
    return 0;
}

/* Whether the library names this number as the header does: `?` if it is none of the statuses there. */
static int is_named(const char *statuses, bully_status status) {
    const char *name = bully_status_name(status);
    char told[100];
    snprintf(told, sizeof told, " = %u", (unsigned)status);
    if (!stands_in(statuses, told)) {
        return strcmp(name, "?") == 0;
    }
    snprintf(told, sizeof told, " BULLY_%s = %u", name, (unsigned)status);
    return stands_in(statuses, told);
}

/* The header's statuses alone, cut out of its text. */
static char *statuses_in(char *header) {
    char *begin = strstr(header, "typedef uint32_t bully_status;"), *end = begin == NULL ? NULL : strstr(begin, "};");
    EXPECT(end != NULL);
    if (end == NULL) {
        abort();
    }
    *end = 0;
    return begin;
}

/* The text of the header, to be freed. */
static char *read_header(const char *folder) {
    char path[4096], *text = (char *)calloc(1, 65536);
    FILE *file;
    snprintf(path, sizeof path, "%s/bully.h", folder);
    file = fopen(path, "rb");
    EXPECT(file != NULL && text != NULL);
    if (file == NULL || text == NULL) {
        abort();
    }
    EXPECT(fread(text, 1, 65535, file) > 0);
    fclose(file);
    return text;
}

static void try_statuses(const char *statuses) {
    bully_status status;
    EXPECT(stands_in(statuses, " BULLY_OK = 0"));
    for (status = 0; status < 300; status++) {
        EXPECT(is_named(statuses, status));
    }
}

void try_names(const char *version, const char *header_folder) {
    char *header = read_header(header_folder);
    try_statuses(statuses_in(header));
    free(header);
    EXPECT(strcmp(bully_status_name(UINT32_MAX), "?") == 0);
    EXPECT(strcmp(bully_status_name(0x80000000), "?") == 0);
    /* (the numbers are a part of the interface) */
    EXPECT(BULLY_NOT_ORPHAN == 12 && BULLY_NULL == 20 && BULLY_NO_MEMBER == 31 && BULLY_BAD_EVENT == 32);
    EXPECT(BULLY_LINE_WORD == 40 && BULLY_LINE_ANSWER == 46 && BULLY_BAD_HEADER == 50 && BULLY_TOO_MANY_ROWS == 52);
    EXPECT(BULLY_ROW_DIFFERS == 53 && BULLY_ROW_END == 54);
    EXPECT(BULLY_EVENT_CRASH == 1 && BULLY_EVENT_RECOVER == 2 && BULLY_EVENT_CHECK == 3);
    EXPECT(BULLY_BAD_ROWS_MAX == 33 && BULLY_BAD_TTL == 34 && BULLY_BAD_ANSWER == 35 && BULLY_BAD_KEPT == 36);
    EXPECT(BULLY_EVENT_TIMEOUT == 4 && BULLY_EVENT_DROP == 5);
    EXPECT(is_shown("version", bully_version(), strlen(bully_version()), version));
}
