/* The processes that have asked something, and which of them wait. */
#ifndef INPUTPLAY_RUN_PROCESS_H
#define INPUTPLAY_RUN_PROCESS_H

#include <stdbool.h>
#include <stdint.h>
#include <sys/types.h>

enum process_limit { PROCESSES = 64 };

struct process {
    pid_t id;              /**< 0: the place is free. */
    bool is_waiting;       /**< It has said so, and asked nothing since. */
    uint64_t asked_us;     /**< When it asked last. */
    uint64_t signalled_us; /**< When it was sent a signal last, or 0. */
};

/** The place of a process, which may be a new one; NULL where none is left. */
struct process *process_of(pid_t id);

/** A process asks something, and then is answered. Between the two it is not at rest, however long that
 * takes. */
void process_asks(pid_t id, bool is_waiting);
void process_is_answered(pid_t id);

/** Whether each process that used an open file last waits, and has read all that it cares for. There is such
 * a file. */
bool all_processes_wait(void);

/** Whether a process runs that has asked something: one that waits may just go on, since something else came. */
bool is_any_running(void);

/** Whether there are open files, and nothing is left to read in any of them that somebody cares for: a
 * process that has asked nothing for long, and does not run, does not. */
bool is_all_read(void);

/** Whether this process used an open file last, and if so whether one of them has something to read. */
enum possession { HAS_NO_FILE, HAS_READ_ALL, HAS_SOMETHING_TO_READ };
enum possession files_of(pid_t id);

#endif
