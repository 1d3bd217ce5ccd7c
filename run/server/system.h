/* What a program finds in /sys of a device that a program made. */
#ifndef INPUTPLAY_RUN_SYSTEM_H
#define INPUTPLAY_RUN_SYSTEM_H

#include "device.h"

enum system_limit { SYSTEM_NAME_ROOM = 16, SYSTEM_ROOT_ROOM = 4096 };

/** The name of the folder that a device has in /sys: inputN. */
void take_system_name(const struct device *device, char *name);

/** Makes its files, in the folder sys of this one. */
void system_files_make(const struct device *device, const char *root);

void system_files_remove(const struct device *device, const char *root);

#endif
