/* A device that a program makes by requests of /dev/uinput: what it has said of it so far. */
#ifndef INPUTPLAY_RUN_MAKER_H
#define INPUTPLAY_RUN_MAKER_H

#include "client.h"

#include <linux/uinput.h>

struct maker {
    bool is_set_up; /**< It has a name. */
    struct identity identity;
    uint8_t bits[EV_CNT][KEY_CNT / 8]; /**< Of types in [0], of their codes in the others. */
    struct input_absinfo axes[ABS_CNT];
};

/** UI_DEV_SETUP, and the write of a struct uinput_user_dev that says the same: 0, or a negative errno. */
int maker_set_up(struct maker *maker, const struct uinput_setup *setup);
int maker_set_up_by_write(struct maker *maker, const struct uinput_user_dev *told);

/** UI_ABS_SETUP, of as many bytes as the program gave. */
int maker_set_axis(struct maker *maker, const void *setup, size_t length);

/** UI_SET_EVBIT and those like it. */
int maker_set_bit(struct maker *maker, uint32_t number, uint32_t bit);

/** A new device of what was said, or NULL and a negative errno. */
struct device *maker_make(const struct maker *maker, int *error);

#endif
