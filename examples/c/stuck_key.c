/*
 * Two programs read a keyboard that is flooded: one that ignores SYN_DROPPED, and one that does what evdev asks.
 *
 *     gcc -Iinclude examples/c/stuck_key.c out/library/libinputplay.a -o stuck_key && ./stuck_key
 *
 * A key goes down, and up again while the ring is full, so its release is lost. The naive program goes on believing that the
 * key is down. The right one drops what it reads up to the next SYN_REPORT, and then asks for the keys. The reader of the
 * library does the same by itself. The exit status is 0 where each program believes what is said here.
 */
#include "inputplay.h"

#include <stdio.h>
#include <string.h>

enum { EV_SYN = 0, EV_KEY = 1, SYN_REPORT = 0, SYN_DROPPED = 3, KEY_A = 30, KEY_B = 48 };

static const char *const KEYBOARD = "inputrecord 1\n"
                                    "device kbd\n"
                                    "hint 8\n"
                                    "cap EV_KEY KEY_A\n"
                                    "cap EV_KEY KEY_B\n"
                                    "log 10000\n"
                                    "source usb\n";

/* What a program believes of a keyboard that it reads. */
typedef struct {
    uint32_t client;
    int is_right;
    int drops;
    int a_is_down;
} program;

/* Makes a step, which must be one that a device takes. */
static inputplay_reply_t step(inputplay_handle_t *device, inputplay_step_t asked, inputplay_event_t *events, size_t count) {
    inputplay_reply_t reply;
    int32_t none;
    memset(&reply, 0, sizeof reply);
    if (inputplay_step(device, &asked, &reply, events, count, &none, 0) != INPUTPLAY_OK)
        reply.reply = INPUTPLAY_STEP_REFUSED;
    return reply;
}

static program opened(inputplay_handle_t *device, int is_right) {
    inputplay_event_t none;
    inputplay_reply_t reply = step(device, (inputplay_step_t){.step = INPUTPLAY_OPEN}, &none, 0);
    return (program){.client = reply.client, .is_right = is_right};
}

/* Asks which keys are down, as EVIOCGKEY does. */
static void ask(inputplay_handle_t *device, program *p) {
    inputplay_event_t none;
    inputplay_reply_t reply = step(device, (inputplay_step_t){.step = INPUTPLAY_GET_KEYS, .client = p->client}, &none, 0);
    p->a_is_down = (int)(reply.words[KEY_A / 64] >> (KEY_A % 64) & 1);
}

/* Whether it asked: then the keys are newer than all that it had read before. */
static int take(inputplay_handle_t *device, program *p, const inputplay_event_t *event) {
    int is_asked = p->drops && event->type == EV_SYN && event->code == SYN_REPORT;
    if (event->type == EV_SYN && event->code == SYN_DROPPED)
        p->drops = p->is_right;
    else if (is_asked)
        ask(device, p);
    else if (!p->drops && event->type == EV_KEY && event->code == KEY_A)
        p->a_is_down = event->value != 0;
    p->drops = p->drops && !is_asked;
    return is_asked;
}

/* Reads until nothing is there. */
static void follow(inputplay_handle_t *device, program *p) {
    inputplay_event_t events[16];
    inputplay_step_t read = {.step = INPUTPLAY_READ, .client = p->client, .count = 16};
    inputplay_reply_t reply;
    while ((reply = step(device, read, events, 16)).reply == INPUTPLAY_TOOK)
        for (uint32_t i = 0; i < reply.count; i++)
            if (take(device, p, &events[i]))
                break;
}

static void key(inputplay_handle_t *device, uint16_t code, int32_t value) {
    uint32_t at, why;
    inputplay_inject(device, EV_KEY, code, value, 0, &at, &why);
    inputplay_inject(device, EV_SYN, SYN_REPORT, 0, 0, &at, &why);
}

/* What the reader of the library believes. */
static int read_by_library(inputplay_handle_t *device) {
    inputplay_event_t event;
    uint32_t told, mode = INPUTPLAY_NORMAL;
    int32_t down = -1;
    while (inputplay_reader_next(device, mode, &event, &told) == INPUTPLAY_OK && told != INPUTPLAY_NEXT_AGAIN)
        mode = told == INPUTPLAY_NEXT_DROPPED || told == INPUTPLAY_NEXT_SYNC ? INPUTPLAY_SYNC : INPUTPLAY_NORMAL;
    inputplay_reader_value(device, EV_KEY, KEY_A, &down);
    return (int)down;
}

int main(void) {
    inputplay_handle_t device = INPUTPLAY_NOTHING;
    uint32_t line, cause, client, why;
    if (inputplay_abi() != INPUTPLAY_ABI ||
        inputplay_device_new((const uint8_t *)KEYBOARD, strlen(KEYBOARD), 0, &device, &line, &cause) != INPUTPLAY_OK ||
        inputplay_reader_start(&device, &client, &why) != INPUTPLAY_OK || why != 0) {
        fputs("stuck_key: no device was made\n", stderr);
        return 2;
    }
    program naive = opened(&device, 0), right = opened(&device, 1);
    key(&device, KEY_A, 1);
    follow(&device, &naive);
    follow(&device, &right);
    key(&device, KEY_A, 0);
    for (int i = 0; i < 200; i++)
        key(&device, KEY_B, i % 2 == 0);
    follow(&device, &naive);
    follow(&device, &right);
    int library = read_by_library(&device);
    printf("the key is up\n");
    printf("a program that ignores SYN_DROPPED: %s\n", naive.a_is_down ? "down" : "up");
    printf("a program that asks for the keys: %s\n", right.a_is_down ? "down" : "up");
    printf("the reader of the library: %s\n", library ? "down" : "up");
    inputplay_free(&device);
    return naive.a_is_down && !right.a_is_down && library == 0 ? 0 : 1;
}
