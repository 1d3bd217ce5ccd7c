#include "process.h"

#include "client.h"
#include "connection.h"
#include "moments.h"
#include "settings.h"

#include <dirent.h>
#include <errno.h>
#include <signal.h>
#include <stdio.h>
#include <string.h>

enum { PATH_ROOM = 64, LINE_ROOM = 256 };

static struct process processes[PROCESSES];
static pid_t asking;

/* The state of a process or a thread, by its file of /proc; 0 where there is none. */
static char state_in(const char *path) {
    char line[LINE_ROOM];
    FILE *file = fopen(path, "r");
    const char *behind = file && fgets(line, sizeof line, file) ? strrchr(line, ')') : NULL;
    char state = behind && behind[1] ? behind[2] : 0;
    if (file)
        fclose(file);
    return state;
}

/* (One that nobody has waited for yet is ended too.) */
static bool has_ended(pid_t id) {
    char path[PATH_ROOM];
    if (kill(id, 0) && errno == ESRCH)
        return true;
    snprintf(path, sizeof path, "/proc/%d/stat", (int)id);
    char state = state_in(path);
    return state == 'Z' || state == 'X';
}

/* (A process of a namespace that is not seen from here has the number 0.) */
struct process *process_of(pid_t id) {
    struct process *free_one = NULL;
    for (int i = 0; id > 0 && i < PROCESSES; i++) {
        struct process *process = &processes[i];
        if (process->id == id)
            return process;
        if (!free_one && (!process->id || has_ended(process->id)))
            free_one = process;
    }
    if (free_one)
        *free_one = (struct process){.id = id, .asked_us = now_us()};
    return free_one;
}

void process_asks(pid_t id, bool is_waiting) {
    struct process *process = process_of(id);
    asking = id;
    if (!process)
        return;
    process->asked_us = now_us();
    process->is_waiting = is_waiting;
}

void process_is_answered(pid_t id) {
    struct process *process = process_of(id);
    asking = 0;
    if (process)
        process->asked_us = now_us();
}

/* Whether one of a process's threads runs, or would if a processor were free. */
static bool is_running(pid_t id) {
    char path[PATH_ROOM];
    snprintf(path, sizeof path, "/proc/%d/task", (int)id);
    DIR *threads = opendir(path);
    bool runs = false;
    for (struct dirent *thread; threads && (thread = readdir(threads)) && !runs;) {
        snprintf(path, sizeof path, "/proc/%d/task/%.16s/stat", (int)id, thread->d_name);
        char state = state_in(path);
        runs = state == 'R' || state == 'D';
    }
    if (threads)
        closedir(threads);
    return runs;
}

/* It has ended, or it has asked nothing for long, does not run, and waits for no answer. */
static bool is_at_rest(pid_t id) {
    struct process *process = process_of(id);
    if (!process || has_ended(id))
        return true;
    bool is_long = now_us() >= process->asked_us + settings.patience_us;
    return is_long && id != asking && !connection_is_pending() && !is_running(id);
}

static bool waits(pid_t id) {
    struct process *process = process_of(id);
    return (process && process->is_waiting) || is_at_rest(id);
}

static bool is_owned_by(const struct device *device, pid_t process) {
    for (int i = 0; i < CLIENTS; i++) {
        const struct client *client = &clients[i];
        if (client->is_open && client->kind == NODE_UINPUT && client->device == device &&
            client->owner == process)
            return true;
    }
    return false;
}

/* Whether there is something that is going to be read. Who makes a device may open its node too, to ask for
 * what it has, and read nothing (python3-evdev does). */
static bool is_unread(const struct client *client) {
    return client->kind != NODE_TIMER && client->has_byte &&
           (client->has_read || !client->device || !client->device->is_made ||
            !is_owned_by(client->device, client->owner));
}

static bool all_known(bool (*is_so)(pid_t)) {
    for (int i = 0; i < PROCESSES; i++)
        if (processes[i].id && !is_so(processes[i].id))
            return false;
    return true;
}

/* Whether it is so of who has a client's file. Where the one that asked last has ended another one has it,
 * and it is not known which. */
static bool is_of_owner(const struct client *client, bool (*is_so)(pid_t)) {
    return is_so(client->owner) && (all_known(is_so) || !has_ended(client->owner));
}

/* Whether nothing is to be done for a client: it waits and has read all, or nobody cares for what is left. */
static bool is_idle(const struct client *client) {
    return is_of_owner(client, is_unread(client) ? is_at_rest : waits);
}

bool is_all_read(void) {
    bool any = false;
    for (int i = 0; i < CLIENTS; i++) {
        if (clients[i].is_open && is_unread(&clients[i]) && !is_of_owner(&clients[i], is_at_rest))
            return false;
        any |= clients[i].is_open && clients[i].device;
    }
    return any;
}

bool is_any_running(void) {
    for (int i = 0; i < PROCESSES; i++)
        if (processes[i].id && is_running(processes[i].id))
            return true;
    return false;
}

bool all_processes_wait(void) {
    bool any = false;
    for (int i = 0; i < CLIENTS; i++) {
        if (clients[i].is_open && !is_idle(&clients[i]))
            return false;
        any |= clients[i].is_open && clients[i].device;
    }
    /* (Where time is virtual a process without a node waits too, as for a while to be over. Each says when it
     * begins.) */
    return settings.is_virtual ? all_known(waits) : any;
}

enum possession files_of(pid_t id) {
    enum possession found = HAS_NO_FILE;
    for (int i = 0; i < CLIENTS; i++) {
        const struct client *client = &clients[i];
        if (!client->is_open || client->owner != id)
            continue;
        if (is_unread(client))
            return HAS_SOMETHING_TO_READ;
        found = HAS_READ_ALL;
    }
    return found;
}
