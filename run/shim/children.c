/* Where time is virtual a process is known from its begin on, and a wait for a child is a wait as any other.
 */
#include "shim.h"

#include <errno.h>
#include <spawn.h>
#include <sys/resource.h>
#include <sys/wait.h>
#include <unistd.h>

static pid_t told(pid_t child) {
    if (child > 0 && is_virtual())
        tell_begin(child);
    return child;
}

/* (Who begins a process tells of it, so that no time goes by before it says so itself.) */
EXPORT pid_t fork(void) {
    REAL(fork);
    return told(real());
}

EXPORT pid_t vfork(void) {
    REAL(vfork);
    return is_virtual() ? fork() : real();
}

#define SPAWNS(name) \
    EXPORT int name(pid_t *restrict child, const char *restrict program, \
                    const posix_spawn_file_actions_t *actions, const posix_spawnattr_t *restrict how, \
                    char *const *restrict words, char *const *restrict variables) { \
        REAL(name); \
        pid_t process = 0; \
        int error = real(&process, program, actions, how, words, variables); \
        if (child) \
            *child = process; \
        return error ? error : (told(process), 0); \
    }

SPAWNS(posix_spawn)
SPAWNS(posix_spawnp)

/* How a wait for children is begun and ended, around a call that waits. */
#define WAITS(call, type, is_waiting) \
    struct line line; \
    bool is_told = is_virtual() && (is_waiting) && begin_wait(&line); \
    type result = (call); \
    int error = errno; \
    if (is_told) \
        end_wait(line); \
    errno = error; \
    return result

EXPORT pid_t waitpid(pid_t process, int *status, int options) {
    REAL(waitpid);
    WAITS(real(process, status, options), pid_t, !(options & WNOHANG));
}

EXPORT pid_t wait(int *status) {
    return waitpid(-1, status, 0);
}

EXPORT pid_t wait4(pid_t process, int *status, int options, struct rusage *usage) {
    REAL(wait4);
    WAITS(real(process, status, options, usage), pid_t, !(options & WNOHANG));
}

EXPORT pid_t wait3(int *status, int options, struct rusage *usage) {
    return wait4(-1, status, options, usage);
}

EXPORT int waitid(idtype_t type, id_t id, siginfo_t *info, int options) {
    REAL(waitid);
    WAITS(real(type, id, info, options), int, !(options & WNOHANG));
}
