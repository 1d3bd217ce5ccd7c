/* What comes behind the last line of the record (--end). */
#ifndef INPUTPLAY_RUN_ENDING_H
#define INPUTPLAY_RUN_ENDING_H

#include <stdbool.h>
#include <stdint.h>
#include <sys/types.h>

/** The last line was played, and programs have read all. The history is written, and devices are unplugged
 * where wanted. */
void ending_begin(void);

bool ending_has_begun(void);

/** The signal that programs get behind the last line, or 0. */
int ending_signal(void);

/** Whether a process is to send itself the signal, since it has read all and is going to wait. */
bool ending_ends(pid_t process);

/** Sends the signal to processes that have read all and ask nothing. Gives when it is to be called again. */
uint64_t ending_signal_all(void);

#endif
