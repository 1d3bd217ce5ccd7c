#include "shim.h"

#include <errno.h>
#include <pthread.h>
#include <stdio.h>
#include <stdlib.h>
#include <string.h>

static struct run run;
static pthread_once_t once = PTHREAD_ONCE_INIT;

atomic_bool may_have_nodes;

static void take_environment(void) {
    const char *is_virtual_run = getenv("INPUTPLAY_RUN_VIRTUAL");
    const char *folder = getenv("INPUTPLAY_RUN_FOLDER"), *first = getenv("INPUTPLAY_RUN_FIRST");
    const char *frames = getenv("INPUTPLAY_RUN_BY_FRAMES"), *root = getenv("UMOCKDEV_DIR");
    if (!folder || strlen(folder) >= sizeof run.folder)
        return;
    strcpy(run.folder, folder);
    strcpy(run.root, root && strlen(root) < sizeof run.root ? root : folder);
    run.number = run_number(folder);
    run.first_number = first ? atoi(first) : 0;
    run.is_by_frames = frames && frames[0] == '1';
    look_at_descriptors();
    if (is_virtual_run && is_virtual_run[0] == '1')
        show_virtual_clock(run.folder);
}

/* (Another shared object's constructor may call before ours.) */
const struct run *shim_run(void) {
    pthread_once(&once, take_environment);
    return &run;
}

__attribute__((constructor)) static void begin(void) {
    shim_run();
    if (is_virtual())
        tell_begin(0);
}

long with_errno(long result) {
    if (result >= 0)
        return result;
    errno = (int)-result;
    return -1;
}
