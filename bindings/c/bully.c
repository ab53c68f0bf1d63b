/* bully.c: what comes between C and the proved functions.
 *
 * The functions of crates/bully_c are proved, but for references and slices: none of these can be null, and C can pass
 * a null pointer. So each function of bully.h tests its pointers and lengths here, as that header says, and then calls
 * the proved function that has its name with `bully_c_` in the place of `bully_`, and its parameters, less `alloc`,
 * which has no size. Nothing else is decided here. bully_status_name and bully_version have no proved function: they
 * return texts that bin/library makes.
 *
 * What follows from bully.h alone isn't written here: bin/building/layer.py makes `wrappers.h` and `names.h` from that
 * header, and prints the former.
 */
#include "bully.h"

/* ---- The tests ---- */

/* Whether so many items of this size, in bytes, can lie there. */
static int can_lie(const void *items, size_t count, size_t size) {
    return count <= (size_t)PTRDIFF_MAX / size && (items != NULL || count == 0);
}

/* A place for slices of no items, because these must not be null either. Nothing reads or writes it. */
static uint64_t nowhere;

/* The items to be read, or nowhere if there are none. */
static const void *source(const void *items, size_t count) {
    return count == 0 ? &nowhere : items;
}

/* The items to be written, or nowhere if there are none. */
static void *target(void *items, size_t count) {
    return count == 0 ? &nowhere : items;
}

/* ---- The functions that answer a status ---- */

/* Each after a declaration of the proved one, which has its type: a reference is a pointer here, and a slice a pointer
 * with its length after it. */
#include "wrappers.h"

/* ---- Names ---- */

/* By their numbers: `[0] = "OK",` and so on. */
static const char *const names[] = {
#include "names.h"
};

const char *bully_status_name(bully_status status) {
    return status < sizeof names / sizeof *names && names[status] != NULL ? names[status] : "?";
}

/* ---- The version ---- */

#ifndef BULLY_VERSION
#error "BULLY_VERSION must be the version, as bin/library takes it from crates/bully_cli"
#endif

const char *bully_version(void) {
    return BULLY_VERSION;
}
