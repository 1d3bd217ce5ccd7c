/* What beside_server.c and beside_libevdev.c say to each other: the library's reader and the real libevdev
 * read one device.
 *
 * The program with libevdev orders, by a socket of their own. The server plays so many frames, has its reader
 * take so many events, and reports. Then the program reads through the shim, as any program does. */
#ifndef INPUTPLAY_RUN_TESTS_BESIDE_H
#define INPUTPLAY_RUN_TESTS_BESIDE_H

#include <stdbool.h>
#include <stddef.h>
#include <stdint.h>
#include <unistd.h>

struct order {
    uint32_t frames;
    uint32_t most; /**< Events that the reader takes. */
};

/** How an event was handed out. */
enum handing { HANDED_READ, HANDED_LOSS, HANDED_MADE };

struct handed {
    uint16_t type, code;
    int32_t value;
    uint32_t how; /**< enum handing */
};

/** What comes back: this, then the events, then the values that the reader believes: those of keys, switches,
 * LEDs and axes that the device has, by type and code; then those of each slot; then the current slot. */
struct report {
    uint32_t has_more; /**< Lines are left. */
    uint32_t has_all;  /**< The reader found nothing more to read. */
    uint32_t event_count;
    uint32_t value_count;
};

enum beside_limit { EVENTS_MAX = 1 << 16, VALUES_MAX = 1 << 14 };

static inline bool read_whole(int from, void *to, size_t length) {
    ssize_t got = 1;
    for (size_t done = 0; got > 0 && done < length; done += (size_t)got) {
        got = read(from, (char *)to + done, length - done);
        if (got <= 0)
            return false;
    }
    return true;
}

static inline bool write_whole(int to, const void *from, size_t length) {
    ssize_t put = 1;
    for (size_t done = 0; put > 0 && done < length; done += (size_t)put) {
        put = write(to, (const char *)from + done, length - done);
        if (put <= 0)
            return false;
    }
    return true;
}

#endif
