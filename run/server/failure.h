/* The end of a server that cannot go on. */
#ifndef INPUTPLAY_RUN_FAILURE_H
#define INPUTPLAY_RUN_FAILURE_H

/** Says why on standard error, and ends in status 126. */
void fail(const char *format, ...) __attribute__((format(printf, 1, 2), noreturn));

/** Says something on standard error, in one line. */
void say(const char *format, ...) __attribute__((format(printf, 1, 2)));

#endif
