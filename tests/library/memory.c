/*
 * What a device takes before its first step, in KiB: of the memory that the process had in use at most, and of its
 * addresses.
 */
#include "inputplay.h"

#include <stdio.h>
#include <string.h>

static const char PAD[] = "inputrecord 1\ndevice pad\ncap EV_KEY KEY_A\n";

/* A number of KiB that the kernel tells of this process. (That of getrusage() counts what ran before it, too.) */
static long told(const char *name) {
    char line[128];
    long kib = 0;
    FILE *file = fopen("/proc/self/status", "r");
    while (file && fgets(line, sizeof line, file))
        if (!strncmp(line, name, strlen(name)))
            sscanf(line + strlen(name), "%ld", &kib);
    if (file)
        fclose(file);
    return kib;
}

int main(void) {
    inputplay_handle_t h = INPUTPLAY_NOTHING;
    uint32_t line, cause;
    long most = told("VmHWM:"), addresses = told("VmSize:");
    if (inputplay_device_new((const uint8_t *)PAD, strlen(PAD), 0, &h, &line, &cause) != INPUTPLAY_OK)
        return 1;
    printf("%ld %ld\n", told("VmHWM:") - most, told("VmSize:") - addresses);
    inputplay_free(&h);
    return 0;
}
