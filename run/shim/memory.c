/* The program's memory, where a request has a place in another place: one that is not there is EFAULT, as
 * with the kernel. */
#include "shim.h"

#include <errno.h>
#include <string.h>
#include <sys/syscall.h>
#include <unistd.h>

enum { PAGE = 4096 };

/* (A sandbox may forbid the call; then the memory is used as it is.) */
bool copy_from_program(void *to, const void *from, size_t length) {
    struct iovec here = {to, length}, there = {(void *)(uintptr_t)from, length};
    long done = syscall(SYS_process_vm_readv, getpid(), &here, 1, &there, 1, 0);
    if (done < 0 && (errno == EPERM || errno == ENOSYS)) {
        memcpy(to, from, length);
        return true;
    }
    return done == (long)length;
}

long copy_text_from_program(char *to, const char *from, size_t room) {
    size_t length = 0;
    while (length < room) {
        uintptr_t at = (uintptr_t)from + length;
        size_t part = PAGE - at % PAGE < room - length ? PAGE - at % PAGE : room - length;
        if (!copy_from_program(to + length, (const void *)at, part))
            return -EFAULT;
        const char *end = memchr(to + length, 0, part);
        if (end)
            return end - to + 1;
        length += part;
    }
    return -EINVAL;
}
