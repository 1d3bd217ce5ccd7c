/* What the files of the player share: it plays lines of numbers on real devices. checks/kernels/lines.py
 * writes them, and checks/kernels/answers.py reads what is said. */
#ifndef GUEST_H
#define GUEST_H

#include <linux/input.h>
#include <stdbool.h>
#include <stddef.h>
#include <stdint.h>

enum { MOST_DEVICES = 8, MOST_ACTORS = 256, MOST_WORDS = 12, MOST_EVENTS = 4096 };

enum role { SOURCE, CLIENT, TAP, JOY, OWNER };

struct device {
    int fd; /* of /dev/uinput */
    int slots;
    uint8_t types[EV_CNT];
    struct input_absinfo axes[ABS_CNT];
    bool has_axis[ABS_CNT];
    char folder[64], events[64], joystick[64];
};

enum phase { PLAIN, NEEDED, HANDING };

struct actor {
    enum role role;
    struct device *device;
    int fd;
    struct libevdev *reader;
    enum phase phase;
};

struct words {
    const char *name;
    int count;
    long long of[MOST_WORDS];
};

/* Ends the process with a line that says why. */
void give_up(const char *what) __attribute__((noreturn));
long long microseconds(int clock);
/* Waits until a moment, where the record is played in real time. */
void wait_until(long long moment);
long long base_time(void);
/* The one line that ends what is said of a step: an errno or 0, and numbers behind it. */
void say_status(int status);
void say_event(const struct input_event *event);

/* device.c */
void set_bit_of(struct device *device, int type, int code);
void set_axis_of(struct device *device, const long long *words);
bool make_device(struct device *device);
void inject(struct device *device, const long long *words);
void inhibit(struct device *device, bool on);
void read_feedback(struct device *device, size_t count);

/* steps.c: whether there is a step of this name, which is then done */
bool do_step(struct actor *actor, const struct words *words);

/* reader.c */
void open_reader(struct actor *actor);
void close_reader(struct actor *actor);
bool do_reader_step(struct actor *actor, const struct words *words);
bool do_joystick_step(struct actor *actor, const struct words *words);

#endif
