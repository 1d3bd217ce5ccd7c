/* What each test program of calls has: a check that tells its line, and a count of them. */
#ifndef CHECK_H
#define CHECK_H

#include <errno.h>
#include <stdio.h>
#include <stdlib.h>

static int checked, failed;

/** What has to be so. */
#define CHECK(what) check((what), __LINE__, #what)

static inline void check(int is_so, int line, const char *what) {
    checked++;
    if (is_so)
        return;
    failed++;
    printf("line %d: %s (errno %d)\n", line, what, errno);
}

/** That a call fails with this errno. */
#define FAILS(call, with) CHECK((call) == -1 && errno == (with))

static inline int all_told(void) {
    printf("%d checks, %d failed\n", checked, failed);
    return failed != 0;
}

#endif
