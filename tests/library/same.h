/* How the programs here say where something else came than was wanted. */
#ifndef SAME_H
#define SAME_H

#include <stdio.h>

static int failures = 0;

static void same_at(int line, const char *what, long long wanted, long long came) {
    if (wanted != came) {
        printf("line %d: %s: %lld was wanted, and %lld came\n", line, what, wanted, came);
        failures++;
    }
}

#define SAME(wanted, came) same_at(__LINE__, #came, (long long)(wanted), (long long)(came))

#endif
