/* Steps and devices as lines of a record. */
#ifndef INPUTPLAY_RUN_STEPS_H
#define INPUTPLAY_RUN_STEPS_H

#include "device.h"

#include <stdbool.h>
#include <stdio.h>

/** Whether a step is made by a source, and not by a client. */
bool is_step_of_source(uint32_t step);

/** Writes a step as the line of an actor. */
void write_step(FILE *file, const char *actor, const inputplay_step_t *step);

/** Writes who a device is, as comments that are read again (identity.c). */
void write_identity(FILE *file, const struct device *device);

#endif
