"""A kernel that doesn't list the children of a process, as one without CONFIG_PROC_CHILDREN."""
from __future__ import annotations

import os
import shutil
import subprocess
import unittest
from pathlib import Path

# A library that is loaded before others. By it nobody opens such a file, once the file UNLISTED is there;
# with NO_PARENTS nor one that names a parent.
SOURCE = r"""
#define _GNU_SOURCE
#include <dlfcn.h>
#include <errno.h>
#include <fcntl.h>
#include <stdarg.h>
#include <stdlib.h>
#include <string.h>
#include <unistd.h>

static int is_hidden(const char *path) {
    size_t length = strlen(path);
    const char *since = getenv("UNLISTED");
    int is_list = strncmp(path, "/proc/", 6) == 0 && length > 9 && strcmp(path + length - 9, "/children") == 0;
    int is_parent = getenv("NO_PARENTS") && strncmp(path, "/proc/", 6) == 0 && strcmp(path + length - 7, "/status") == 0;
    return (is_list || is_parent) && since && access(since, F_OK) == 0;
}

#define OPENS(NAME, PARAMETERS, ARGUMENTS)                            \
    int NAME PARAMETERS {                                             \
        va_list more;                                                 \
        va_start(more, flags);                                        \
        mode_t mode = flags & (O_CREAT | O_TMPFILE) ? va_arg(more, mode_t) : 0; \
        va_end(more);                                                 \
        if (is_hidden(path)) {                                        \
            errno = ENOENT;                                           \
            return -1;                                                \
        }                                                             \
        int (*next) PARAMETERS = (int (*) PARAMETERS)dlsym(RTLD_NEXT, #NAME); \
        return next ARGUMENTS;                                        \
    }

OPENS(open, (const char *path, int flags, ...), (path, flags, mode))
OPENS(open64, (const char *path, int flags, ...), (path, flags, mode))
OPENS(openat, (int folder, const char *path, int flags, ...), (folder, path, flags, mode))
OPENS(openat64, (int folder, const char *path, int flags, ...), (folder, path, flags, mode))
"""


def unlisted_from(test: unittest.TestCase, folder: Path, since: Path, has_parents: bool = True) -> dict[str, str]:
    """The environment of processes for which the kernel lists no children, once that file is there, and without
    `has_parents` doesn't say either who is a process's parent. The test is skipped without a C compiler."""
    compiler = shutil.which(os.environ.get('CC') or 'cc') or shutil.which('gcc')
    if compiler is None:
        test.skipTest('no C compiler makes the library by which the kernel lists no children')
    library = folder / 'unlisted.so'
    words = [compiler, '-shared', '-fPIC', '-O1', '-x', 'c', '-', '-o', str(library), '-ldl']
    subprocess.run(words, input=SOURCE.encode(), check=True)
    return {'LD_PRELOAD': str(library), 'UNLISTED': str(since), **({} if has_parents else {'NO_PARENTS': '1'})}
