/* The description of a device that a program makes, as the lines of a record. */
#ifndef INPUTPLAY_RUN_DESCRIPTION_H
#define INPUTPLAY_RUN_DESCRIPTION_H

#include "device.h"

#include <stdlib.h>

/** The text of a device with these axes. Who asks frees it. */
char *description_of(const struct device *device, const struct input_absinfo *axes);

#endif
