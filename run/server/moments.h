/* The clock that a run goes by. */
#ifndef INPUTPLAY_RUN_MOMENTS_H
#define INPUTPLAY_RUN_MOMENTS_H

#include <stdint.h>
#include <time.h>

/** The time of a clock, in microseconds. */
uint64_t clock_us(clockid_t clock);

/** How far a clock is ahead of the monotonic one, whose moments the steps have. */
uint64_t clock_ahead(clockid_t clock);

/** The monotonic clock, in microseconds. */
uint64_t now_us(void);

/** The moment of a step that is made now: the clock's, or the one of the line that was played last (--clock
 * record). */
uint64_t step_moment(void);

/** Says the moment of the line that is played now. Where time is virtual it is what programs see as the time,
 * which never goes back. */
void set_line_moment(uint64_t moment);

/** Begins virtual time at a moment, with the other clocks as far ahead as a device of the record has them. */
void virtual_begin(uint64_t moment, uint64_t realtime_ahead, uint64_t boottime_ahead);

#endif
