/* The real libevdev on a played device, beside the library's reader on the same one. Both read on, all there
 * is or a part of it; where both have read all, what they handed out and what they believe is compared.
 *
 *     beside_libevdev SEED DESCRIPTOR
 *
 * It is run with the shim loaded, and beside_server at the other end of the descriptor. It prints one line of
 * what was compared, one for each kind of difference that docs/KERNEL.md has, and one for each that it has
 * not. Status 0: none of those. 1: some. 2: it could not go on. */
#include "beside_libevdev.h"

#include <errno.h>
#include <fcntl.h>
#include <stdarg.h>
#include <stdio.h>
#include <stdlib.h>
#include <string.h>

enum { ALL = 1 << 20 };

struct side libevdev_side, reader_side;
struct round round_now;
static struct report report;
static uint64_t random_state;

static unsigned below(unsigned bound) {
    random_state ^= random_state << 13;
    random_state ^= random_state >> 7;
    random_state ^= random_state << 17;
    return (unsigned)(random_state >> 11) % bound;
}

void give_up(const char *why, int error) {
    printf("%s: %s\n", why, strerror(error));
    exit(2);
}

void note_handed(struct side *side, const struct handed *handed) {
    if (side->count == EVENTS_MAX)
        give_up("a round", ENOBUFS);
    side->events[side->count++] = *handed;
    side->losses += handed->how == HANDED_LOSS;
}

static void note(const struct input_event *event, enum handing how) {
    struct handed handed = {event->type, event->code, event->value, how};
    note_handed(&libevdev_side, &handed);
}

/* libevdev says where it keeps a tracking id from its program; the slot stands at the end. */
__attribute__((format(printf, 7, 0)))
static void take_remark(const struct libevdev *device, enum libevdev_log_priority priority, void *data,
                        const char *file, int line, const char *function, const char *format, va_list words) {
    char text[256];
    int id, slot;
    (void)device, (void)priority, (void)data, (void)file, (void)line, (void)function;
    vsnprintf(text, sizeof text, format, words);
    const char *at = strstr(text, "tracking ID");
    if (at && sscanf(at, "tracking ID %d in slot %d", &id, &slot) == 2 && slot >= 0 && slot < SLOTS_MAX) {
        round_now.hidden_ids++;
        libevdev_side.has_stale_id[slot] = true;
    }
}

static void synchronise(struct libevdev *device) {
    struct input_event event;
    int status = libevdev_next_event(device, LIBEVDEV_READ_FLAG_SYNC, &event);
    while (status == LIBEVDEV_READ_STATUS_SYNC) {
        note(&event, HANDED_MADE);
        status = libevdev_next_event(device, LIBEVDEV_READ_FLAG_SYNC, &event);
    }
    if (status != -EAGAIN)
        give_up("libevdev, which synchronises", status < 0 ? -status : EPROTO);
    for (size_t code = 0; code < KEY_CNT; code++)
        round_now.was_repeated[code] |= libevdev_side.is_repeated[code];
    memset(libevdev_side.has_stale_id, 0, sizeof libevdev_side.has_stale_id);
    memset(libevdev_side.is_repeated, 0, sizeof libevdev_side.is_repeated);
}

/* Takes as many events by libevdev, as its documentation says. */
static void read_by_libevdev(struct libevdev *device, uint32_t most) {
    struct input_event event;
    int status = LIBEVDEV_READ_STATUS_SUCCESS;
    while (most-- > 0 && status != -EAGAIN) {
        status = libevdev_next_event(device, LIBEVDEV_READ_FLAG_NORMAL, &event);
        if (status == LIBEVDEV_READ_STATUS_SYNC) {
            note(&event, HANDED_LOSS);
            synchronise(device);
        } else if (status == LIBEVDEV_READ_STATUS_SUCCESS) {
            note(&event, HANDED_READ);
            if (event.type == EV_KEY && event.code < KEY_CNT)
                libevdev_side.is_repeated[event.code] = event.value == 2;
        } else if (status != -EAGAIN) {
            give_up("libevdev", -status);
        }
    }
    libevdev_side.has_all = status == -EAGAIN;
}

static void order(int orders, uint32_t frames, uint32_t most) {
    struct order words = {frames, most};
    static struct handed events[EVENTS_MAX];
    if (!write_whole(orders, &words, sizeof words) || !read_whole(orders, &report, sizeof report) ||
        report.event_count > EVENTS_MAX || report.value_count > VALUES_MAX ||
        !read_whole(orders, events, report.event_count * sizeof events[0]) ||
        !read_whole(orders, reader_side.values, report.value_count * sizeof reader_side.values[0]))
        give_up("beside_server", EPIPE);
    reader_side.value_count = report.value_count;
    reader_side.has_all = report.has_all;
    for (uint32_t i = 0; i < report.event_count; i++)
        note_handed(&reader_side, &events[i]);
}

/* Both read on; in one of three turns a part of what is there. */
static void read_on(struct libevdev *device, int orders) {
    uint32_t frames = below(4) ? 1 + below(4) : below(120);
    bool takes_all = below(3) || !report.has_more;
    order(orders, frames, takes_all ? ALL : below(40));
    read_by_libevdev(device, takes_all ? ALL : below(40));
    round_now.is_partial |= !libevdev_side.has_all || !reader_side.has_all;
}

static void begin_round(void) {
    round_now = (struct round){0};
    libevdev_side.count = libevdev_side.losses = 0;
    reader_side.count = reader_side.losses = 0;
}

int main(int count, char **words) {
    struct libevdev *device = NULL;
    if (count != 3)
        give_up("usage: beside_libevdev SEED DESCRIPTOR", EINVAL);
    random_state = strtoull(words[1], NULL, 10) * 0x9e3779b97f4a7c15u | 1;
    int orders = atoi(words[2]), node = open("/dev/input/event0", O_RDWR | O_NONBLOCK);
    int error = node < 0 ? -errno : libevdev_new_from_fd(node, &device);
    if (error)
        give_up("/dev/input/event0", -error);
    libevdev_set_device_log_function(device, take_remark, LIBEVDEV_LOG_INFO, NULL);
    order(orders, 0, 0);
    compare_values(device);
    begin_round();
    while (report.has_more && !tally.unexplained) {
        read_on(device, orders);
        if (libevdev_side.has_all && reader_side.has_all) {
            compare_round(device);
            begin_round();
        }
    }
    print_tally();
    libevdev_free(device);
    return tally.unexplained ? 1 : 0;
}
