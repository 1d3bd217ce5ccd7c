/* Waits where time is virtual: the server is told up to which moment the program waits, and answers when that
 * has come. What comes to the program's files first ends the wait too. */
#include "shim.h"

#include <errno.h>
#include <poll.h>
#include <signal.h>
#include <stdlib.h>
#include <string.h>
#include <sys/socket.h>
#include <sys/syscall.h>
#include <unistd.h>

enum { SIGNAL_BYTES = 8, USUAL_FILES = 64 };

uint64_t microseconds_of(const struct timespec *time) {
    return (uint64_t)time->tv_sec * 1000000 + ((uint64_t)time->tv_nsec + 999) / 1000;
}

uint64_t moment_in(const struct timespec *time) {
    return time ? virtual_now() + microseconds_of(time) : UINT64_MAX;
}

/* A poll of the kernel's: how many are ready, or a negative errno. */
static int poll_now(struct pollfd *files, nfds_t count, const struct timespec *time, const sigset_t *mask) {
    struct timespec copy = time ? *time : (struct timespec){0};
    long result = syscall(SYS_ppoll, files, count, time ? &copy : NULL, mask, SIGNAL_BYTES);
    return result < 0 ? -errno : (int)result;
}

static bool send_begin(int line, pid_t process) {
    struct request request = {.magic = PROTOCOL_MAGIC, .kind = ASK_BEGIN, .value = (uint32_t)process};
    return syscall(SYS_sendto, line, &request, sizeof request, MSG_NOSIGNAL, NULL, 0) == (long)sizeof request;
}

static bool send_wait(int line, uint32_t kind, uint64_t until) {
    struct {
        struct request request;
        uint64_t until;
    } message = {{.magic = PROTOCOL_MAGIC, .kind = kind}, until};
    size_t length = kind == ASK_WAIT ? sizeof message : sizeof message.request;
    message.request.length = (uint32_t)(length - sizeof message.request);
    return syscall(SYS_sendto, line, &message, length, MSG_NOSIGNAL, NULL, 0) == (long)length;
}

static bool take_wait(int line) {
    struct answer answer;
    return syscall(SYS_recvfrom, line, &answer, sizeof answer, 0, NULL, NULL) == (long)sizeof answer;
}

/* Polls the files and the connection behind them; what came of the files stands in `files` then. */
static int poll_both(struct pollfd *files, nfds_t count, int line, const sigset_t *mask, bool *is_over) {
    struct pollfd usual[USUAL_FILES], *all = count < USUAL_FILES ? usual : calloc(count + 1, sizeof *all);
    if (!all)
        return -ENOMEM;
    if (count)
        memcpy(all, files, count * sizeof *all);
    all[count] = (struct pollfd){.fd = line, .events = POLLIN};
    int result = poll_now(all, count + 1, NULL, mask);
    *is_over = result > 0 && all[count].revents;
    if (count && result > 0)
        memcpy(files, all, count * sizeof *all);
    if (all != usual)
        free(all);
    return result < 0 ? result : result - *is_over;
}

/* One wait, with the connection: how many files are ready, or a negative errno. */
static int wait_by(int line, struct pollfd *files, nfds_t count, uint64_t until, const sigset_t *mask,
                   bool *is_good) {
    static const struct timespec none;
    bool is_over = false;
    *is_good = send_wait(line, ASK_WAIT, until);
    if (!*is_good)
        return -EINTR;
    int result = poll_both(files, count, line, mask, &is_over);
    if (!is_over)
        *is_good = send_wait(line, ASK_CANCEL, 0);
    *is_good = *is_good && take_wait(line);
    /* (what came with the answer is ready too) */
    return is_over && !result && count ? poll_now(files, count, &none, NULL) : result;
}

int wait_virtually(struct pollfd *files, nfds_t count, uint64_t until, const sigset_t *mask) {
    static const struct timespec none;
    int before = errno, result = poll_now(files, count, &none, mask);
    if (!result && until > virtual_now()) {
        bool is_good;
        struct line line = line_begin();
        result = line.descriptor < 0 ? poll_now(files, count, NULL, mask)
                                     : wait_by(line.descriptor, files, count, until, mask, &is_good);
        line_end(line, line.descriptor >= 0 && is_good);
    }
    errno = result < 0 ? -result : before;
    return result < 0 ? -1 : result;
}

bool begin_wait(struct line *line) {
    *line = line_begin();
    bool is_good = line->descriptor >= 0 && send_wait(line->descriptor, ASK_WAIT, UINT64_MAX);
    if (!is_good)
        line_end(*line, false);
    return is_good;
}

void end_wait(struct line line) {
    line_end(line, send_wait(line.descriptor, ASK_CANCEL, 0) && take_wait(line.descriptor));
}

void tell_begin(pid_t process) {
    int before = errno;
    struct line line = line_begin();
    line_end(line, line.descriptor >= 0 && send_begin(line.descriptor, process));
    errno = before;
}
