/* Messages that bring descriptors. One may be of a node, so from then on descriptors are looked at. */
#include "shim.h"

#include <sys/socket.h>
#include <time.h>

static void look_at_message(struct msghdr *message) {
    for (struct cmsghdr *part = CMSG_FIRSTHDR(message); part; part = CMSG_NXTHDR(message, part))
        if (part->cmsg_level == SOL_SOCKET && part->cmsg_type == SCM_RIGHTS)
            atomic_store_explicit(&may_have_nodes, true, memory_order_relaxed);
}

EXPORT ssize_t recvmsg(int descriptor, struct msghdr *message, int flags) {
    REAL(recvmsg);
    ssize_t result = real(descriptor, message, flags);
    if (result >= 0 && message->msg_controllen && shim_run()->folder[0])
        look_at_message(message);
    return result;
}

EXPORT int recvmmsg(int descriptor, struct mmsghdr *messages, unsigned count, int flags,
                    struct timespec *time) {
    REAL(recvmmsg);
    int result = real(descriptor, messages, count, flags, time);
    for (int i = 0; i < result && shim_run()->folder[0]; i++)
        if (messages[i].msg_hdr.msg_controllen)
            look_at_message(&messages[i].msg_hdr);
    return result;
}
