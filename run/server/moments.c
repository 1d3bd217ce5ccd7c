#include "moments.h"

#include "failure.h"
#include "protocol.h"
#include "settings.h"

#include <errno.h>
#include <fcntl.h>
#include <stdio.h>
#include <string.h>
#include <sys/mman.h>
#include <unistd.h>

enum { PATH_ROOM = 4400 };

static uint64_t line_moment;

/* The virtual clock that programs see, or NULL. */
static struct virtual_clock *shown;

uint64_t clock_us(clockid_t clock) {
    struct timespec time;
    clock_gettime(clock, &time);
    return (uint64_t)time.tv_sec * 1000000 + (uint64_t)time.tv_nsec / 1000;
}

uint64_t now_us(void) {
    return clock_us(CLOCK_MONOTONIC);
}

uint64_t clock_ahead(clockid_t clock) {
    uint64_t time = clock_us(clock), monotonic = now_us();
    return time > monotonic ? time - monotonic : 0;
}

uint64_t step_moment(void) {
    return settings.is_record_clock ? line_moment : now_us();
}

void set_line_moment(uint64_t moment) {
    if (!shown) {
        line_moment = moment;
        return;
    }
    if (moment > line_moment)
        line_moment = moment;
    __atomic_store_n(&shown->now, line_moment, __ATOMIC_RELEASE);
}

/* (Programs see the file as it is.) */
void virtual_begin(uint64_t moment, uint64_t realtime_ahead, uint64_t boottime_ahead) {
    char path[PATH_ROOM];
    snprintf(path, sizeof path, "%s/" CLOCK_NAME, settings.folder);
    int file = open(path, O_RDWR | O_CREAT | O_CLOEXEC, 0644);
    if (file < 0 || ftruncate(file, sizeof *shown))
        fail("%s: %s", path, strerror(errno));
    void *place = mmap(NULL, sizeof *shown, PROT_READ | PROT_WRITE, MAP_SHARED, file, 0);
    close(file);
    if (place == MAP_FAILED)
        fail("%s: %s", path, strerror(errno));
    shown = place;
    shown->realtime_ahead = realtime_ahead;
    shown->boottime_ahead = boottime_ahead;
    set_line_moment(moment);
}
