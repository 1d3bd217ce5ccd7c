#include "shim.h"

#include <errno.h>
#include <fcntl.h>
#include <signal.h>
#include <string.h>
#include <sys/socket.h>
#include <sys/syscall.h>
#include <unistd.h>

enum { TRIES = 3 };

union control {
    char room[CMSG_SPACE(sizeof(int))];
    struct cmsghdr aligned;
};

static long send_question(int line, struct question *question) {
    union control control = {0};
    struct iovec parts[3] = {
        {&question->request, sizeof question->request}, question->sent[0], question->sent[1]};
    struct msghdr message = {.msg_iov = parts, .msg_iovlen = 1 + (size_t)question->sent_count};
    long done;
    if (question->brings >= 0) {
        message.msg_control = &control;
        message.msg_controllen = sizeof control;
        struct cmsghdr *part = CMSG_FIRSTHDR(&message);
        part->cmsg_level = SOL_SOCKET;
        part->cmsg_type = SCM_RIGHTS;
        part->cmsg_len = CMSG_LEN(sizeof(int));
        memcpy(CMSG_DATA(part), &question->brings, sizeof(int));
    }
    do
        done = syscall(SYS_sendmsg, line, &message, MSG_NOSIGNAL);
    while (done < 0 && errno == EINTR);
    return done;
}

/* Takes an answer. Where it brings a descriptor that is its result. */
static long take_answer(int line, const struct question *question, struct answer *answer) {
    union control control = {0};
    struct iovec parts[2] = {{answer, sizeof *answer}, question->answer};
    struct msghdr message = {
        .msg_iov = parts, .msg_iovlen = 2, .msg_control = &control, .msg_controllen = sizeof control};
    bool is_open = question->request.kind == ASK_OPEN;
    int flags = is_open && question->request.flags & O_CLOEXEC ? MSG_CMSG_CLOEXEC : 0;
    long done;
    do
        done = syscall(SYS_recvmsg, line, &message, flags);
    while (done < 0 && errno == EINTR);
    if (done < (long)sizeof *answer || answer->result < 0 || !is_open)
        return done;
    struct cmsghdr *part = CMSG_FIRSTHDR(&message);
    if (part && part->cmsg_type == SCM_RIGHTS)
        memcpy(&answer->result, CMSG_DATA(part), sizeof(int));
    else
        answer->result = -EMFILE; /* (no number was free for it) */
    return done;
}

/* Asks once. True where it is to be asked again: the server drops the oldest connection when it has too many,
 * and has not taken the request then. */
static bool ask_once(struct question *question, struct answer *answer) {
    struct line line = line_begin();
    long done = line.descriptor < 0 ? -1 : send_question(line.descriptor, question);
    if (line.descriptor >= 0 && done >= 0)
        done = take_answer(line.descriptor, question, answer);
    bool is_good = done >= (long)sizeof *answer;
    bool is_dropped =
        line.descriptor >= 0 && (!done || (done < 0 && (errno == EPIPE || errno == ECONNRESET)));
    if (!is_good)
        *answer = (struct answer){.result = line.descriptor >= 0 && done < 0 && errno == EFAULT ? -EFAULT
                                                                                                : -ENODEV};
    line_end(line, is_good);
    return is_dropped;
}

int ask(struct question *question) {
    struct answer answer = {.result = -ENODEV};
    int before = errno, tries = 0;
    question->request.magic = PROTOCOL_MAGIC;
    for (int i = 0; i < question->sent_count; i++)
        question->request.length += (uint32_t)question->sent[i].iov_len;
    while (tries < TRIES && ask_once(question, &answer))
        tries++;
    if (answer.signal)
        kill(getpid(), (int)answer.signal);
    errno = before;
    return answer.signal && question->request.kind == ASK_WAIT ? -EINTR : answer.result;
}
