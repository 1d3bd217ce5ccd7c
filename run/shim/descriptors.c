/* Which descriptors are of a node. Nothing is kept of a descriptor, so that fork, exec, dup and descriptors
 * from elsewhere are all alike: it is known by the name that the server gave to the other end. */
#include "shim.h"

#include <fcntl.h>
#include <stdio.h>
#include <string.h>
#include <sys/socket.h>
#include <sys/syscall.h>
#include <sys/types.h>
#include <sys/un.h>
#include <unistd.h>

enum { ENTRIES_ROOM = 2048, LOOKED_AT_BLINDLY = 64 };

/** An entry of a folder, as the kernel lists it. */
struct entry {
    uint64_t inode;
    int64_t offset;
    uint16_t length;
    uint8_t type;
    char name[];
};

int node_of_peer(int descriptor) {
    struct sockaddr_un name;
    socklen_t length = sizeof name;
    if (descriptor < 0 || syscall(SYS_getpeername, descriptor, &name, &length) || name.sun_family != AF_UNIX)
        return -1;
    const size_t before =
        offsetof(struct sockaddr_un, sun_path) + 1; /* (an abstract name begins with a NUL) */
    char text[sizeof name.sun_path] = {0};
    unsigned long long number;
    unsigned serial, node;
    if (length <= before || name.sun_path[0])
        return -1;
    memcpy(text, name.sun_path + 1, length - before);
    if (strncmp(text, PEER_PREFIX, sizeof PEER_PREFIX - 1))
        return -1;
    bool is_whole = sscanf(text + sizeof PEER_PREFIX - 1, "%llx/%x/%x", &number, &serial, &node) == 3;
    return is_whole && number == shim_run()->number ? (int)node : -1;
}

/* Whether a descriptor that the program was started with is of a run. (Of which one is not known yet.) */
static void look_at(int descriptor) {
    struct sockaddr_un name;
    socklen_t length = sizeof name;
    if (syscall(SYS_getpeername, descriptor, &name, &length) || name.sun_family != AF_UNIX)
        return;
    if (length > sizeof PEER_PREFIX && !strncmp(name.sun_path + 1, PEER_PREFIX, sizeof PEER_PREFIX - 1))
        atomic_store_explicit(&may_have_nodes, true, memory_order_relaxed);
}

static void look_at_entries(const char *entries, long length) {
    for (long at = 0; at < length;) {
        const struct entry *entry = (const struct entry *)(entries + at);
        int descriptor;
        if (sscanf(entry->name, "%d", &descriptor) == 1)
            look_at(descriptor);
        at += entry->length;
    }
}

void look_at_descriptors(void) {
    _Alignas(struct entry) char entries[ENTRIES_ROOM];
    long folder = syscall(SYS_openat, AT_FDCWD, "/proc/self/fd", O_RDONLY | O_DIRECTORY | O_CLOEXEC), length;
    if (folder < 0) {
        for (int i = 0; i < LOOKED_AT_BLINDLY; i++)
            look_at(i);
        return;
    }
    while ((length = syscall(SYS_getdents64, folder, entries, sizeof entries)) > 0)
        look_at_entries(entries, length);
    syscall(SYS_close, folder);
}
