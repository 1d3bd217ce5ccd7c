#include "ending.h"

#include "client.h"
#include "history.h"
#include "moments.h"
#include "process.h"
#include "settings.h"

#include <signal.h>

enum { AGAIN_US = 1000000 };

static bool has_begun;

bool ending_has_begun(void) {
    return has_begun;
}

int ending_signal(void) {
    return settings.end == END_INTERRUPT ? SIGINT : settings.end == END_TERMINATE ? SIGTERM : 0;
}

void ending_begin(void) {
    if (has_begun)
        return;
    has_begun = true;
    history_write(); /* (a signal may end the programs, and the server with them) */
    for (int i = 0; settings.end == END_GONE && i < device_count; i++) {
        if (devices[i].is_made)
            continue; /* (its owner destroys it) */
        devices[i].is_gone = true;
        nodes_remove(&devices[i]);
        clients_refresh(&devices[i]);
    }
}

bool ending_ends(pid_t id) {
    struct process *process = process_of(id);
    if (!has_begun || !ending_signal() || !process || files_of(id) != HAS_READ_ALL)
        return false;
    process->signalled_us = now_us();
    return true;
}

/* When a process is sent the signal next: it is at rest for a while. Again where it goes on so, for the
 * signal may have come between an answer and the program's own call that waits. */
static uint64_t signal_at(const struct process *process) {
    uint64_t at = process->asked_us + (process->is_waiting ? 0 : settings.quiet_us);
    uint64_t again = process->signalled_us + AGAIN_US;
    return process->signalled_us && again > at ? again : at;
}

uint64_t ending_signal_all(void) {
    uint64_t now = now_us(), next = UINT64_MAX;
    for (int i = 0; has_begun && ending_signal() && i < CLIENTS; i++) {
        struct client *client = &clients[i];
        struct process *process = client->is_open && !client->has_byte ? process_of(client->owner) : NULL;
        if (!process)
            continue;
        if (signal_at(process) <= now) {
            process->signalled_us = now;
            kill(process->id, ending_signal());
        }
        if (signal_at(process) < next)
            next = signal_at(process);
    }
    return next;
}
