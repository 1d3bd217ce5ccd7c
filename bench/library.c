/*
 * Calls of the library over and over, for `bench/library` to count instructions by: library WHAT TIMES.
 *
 * WHAT is 0 for nothing but the device, 1 for an injected event, 2 for two of them and a read of both, 3 for two of them and
 * the reader's two events, 4 for a key of the reader's state, 5 for two of them and a step that reads both, and 6 for how many
 * events a client could read.
 */
#include "inputplay.h"

#include <stdlib.h>
#include <string.h>

static const char *const TEXT = "inputrecord 1\ndevice pad\ncap EV_KEY KEY_A\naxis ABS_X 0 0 255 0 0 0\nlog 8000000\nsource s\n";

int main(int argc, char **argv) {
    int what = argc > 1 ? atoi(argv[1]) : 0, times = argc > 2 ? atoi(argv[2]) : 0;
    inputplay_handle h = INPUTPLAY_NOTHING;
    inputplay_event events[64];
    inputplay_reply reply;
    uint32_t a, b, c;
    int32_t value;
    if (inputplay_device_new((const uint8_t *)TEXT, strlen(TEXT), 0, &h, &a, &b))
        return 1;
    inputplay_step_t open = {.step = INPUTPLAY_OPEN}, read = {.step = INPUTPLAY_READ, .count = 64};
    if (what == 3)
        inputplay_reader_start(&h, &a, &b);
    if (what == 2 || what == 5 || what == 6)
        inputplay_step(&h, &open, &reply, events, 0, &value, 0);
    if (what == 6) {
        inputplay_inject(&h, 1, 30, 1, 1000, &a, &b);
        inputplay_inject(&h, 0, 0, 0, 1000, &a, &b);
    }
    for (int i = 0; i < times; i++) {
        if (what == 4) {
            inputplay_reader_value(&h, 1, 30, &value);
            continue;
        }
        if (what == 6) {
            inputplay_visible(&h, 0, &a);
            continue;
        }
        if (what >= 1)
            inputplay_inject(&h, 1, 30, (i & 1) ^ 1, 1000, &a, &b);
        if (what >= 2)
            inputplay_inject(&h, 0, 0, 0, 1000, &a, &b);
        if (what == 2)
            inputplay_read(&h, 0, events, 64, &a, &b, &c);
        if (what == 5)
            inputplay_step(&h, &read, &reply, events, 64, &value, 0);
        if (what == 3) {
            inputplay_reader_next(&h, INPUTPLAY_NORMAL, events, &a);
            inputplay_reader_next(&h, INPUTPLAY_NORMAL, events, &a);
        }
    }
    inputplay_free(&h);
    return 0;
}
