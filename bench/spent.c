/* Runs a command, and writes to its standard error what the run took: nanoseconds, KiB at most, and page faults.
 *
 * It is small, so that a command which it starts does not begin with the memory of a larger process.
 */
#define _GNU_SOURCE
#include <stdio.h>
#include <sys/resource.h>
#include <sys/wait.h>
#include <time.h>
#include <unistd.h>

static long long now(void) {
    struct timespec t;
    clock_gettime(CLOCK_MONOTONIC, &t);
    return 1000000000ll * t.tv_sec + t.tv_nsec;
}

int main(int argc, char **argv) {
    struct rusage used;
    int status;
    if (argc < 2) return 2;
    long long begun = now();
    pid_t child = fork();
    if (child == 0) { execv(argv[1], argv + 1); _exit(127); }
    if (child < 0 || wait4(child, &status, 0, &used) < 0) return 1;
    fprintf(stderr, "%lld %ld %ld\n", now() - begun, used.ru_maxrss, used.ru_minflt + used.ru_majflt);
    return WIFEXITED(status) ? WEXITSTATUS(status) : 1;
}
