/* What a node is: a character device of the numbers that the kernel's has. */
#include "shim.h"

#include <limits.h>
#include <sys/stat.h>
#include <sys/sysmacros.h>

enum { NODE_MODE = S_IFCHR | 0660 };

#define AS_NODE(result, node, status) \
    if ((result) == 0 && (node) >= 0 && kind_of_node(node) != NODE_TIMER) { \
        (status)->st_mode = NODE_MODE; \
        (status)->st_rdev = makedev(major_of_node(node), minor_of_node(node)); \
        (status)->st_size = 0; \
    }

#define STAT(name, type) \
    EXPORT int name(const char *path, struct type *status) { \
        REAL(name); \
        char room[PATH_MAX]; \
        int node = node_of_path(path), result = real(true_path(path, room, sizeof room), status); \
        AS_NODE(result, node, status) \
        return result; \
    }

#define FSTAT(name, type) \
    EXPORT int name(int descriptor, struct type *status) { \
        REAL(name); \
        int node = node_of_descriptor(descriptor), result = real(descriptor, status); \
        AS_NODE(result, node, status) \
        return result; \
    }

#define FSTATAT(name, type) \
    EXPORT int name(int at, const char *path, struct type *status, int flags) { \
        REAL(name); \
        char room[PATH_MAX]; \
        int node = path[0] ? node_of_path(path) : node_of_descriptor(at); \
        int result = real(at, true_path(path, room, sizeof room), status, flags); \
        AS_NODE(result, node, status) \
        return result; \
    }

STAT(stat, stat)
STAT(stat64, stat64)
STAT(lstat, stat)
STAT(lstat64, stat64)
FSTAT(fstat, stat)
FSTAT(fstat64, stat64)
FSTATAT(fstatat, stat)
FSTATAT(fstatat64, stat64)

/* The names by which programs of older C libraries ask. */
#define XSTAT(name, now, type) \
    int name(int version, const char *path, struct type *status); \
    EXPORT int name(int version, const char *path, struct type *status) { \
        (void)version; \
        return now(path, status); \
    }

#define FXSTAT(name, now, type) \
    int name(int version, int descriptor, struct type *status); \
    EXPORT int name(int version, int descriptor, struct type *status) { \
        (void)version; \
        return now(descriptor, status); \
    }

XSTAT(__xstat, stat, stat)
XSTAT(__xstat64, stat64, stat64)
XSTAT(__lxstat, lstat, stat)
XSTAT(__lxstat64, lstat64, stat64)
FXSTAT(__fxstat, fstat, stat)
FXSTAT(__fxstat64, fstat64, stat64)

EXPORT int statx(int at, const char *restrict path, int flags, unsigned mask, struct statx *restrict status) {
    REAL(statx);
    char room[PATH_MAX];
    int node = path[0] ? node_of_path(path) : node_of_descriptor(at);
    int result = real(at, true_path(path, room, sizeof room), flags, mask, status);
    if (result == 0 && node >= 0 && kind_of_node(node) != NODE_TIMER) {
        status->stx_mode = NODE_MODE;
        status->stx_rdev_major = major_of_node(node);
        status->stx_rdev_minor = minor_of_node(node);
    }
    return result;
}
