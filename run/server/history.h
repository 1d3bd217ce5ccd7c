/* What happened, as a record that plays as any other. */
#ifndef INPUTPLAY_RUN_HISTORY_H
#define INPUTPLAY_RUN_HISTORY_H

#include "device.h"

#include <stdint.h>
#include <sys/types.h>

/** A process opened a client of a device. The tap that makes its calls is named by it, or by --as. */
void history_note_open(const struct device *device, uint32_t client, pid_t process);

/** An actor of the record opened a client: its tap has its name. */
void history_note_actor(const struct device *device, const char *name, uint32_t client);

/** Writes what happened, where that is wanted. A file that cannot be written ends the server. */
void history_write(void);

#endif
