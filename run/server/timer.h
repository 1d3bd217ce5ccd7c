/* Virtual timers: what timerfd_create() opens where time is virtual. */
#ifndef INPUTPLAY_RUN_TIMER_H
#define INPUTPLAY_RUN_TIMER_H

#include <stdint.h>

/** When the first timer is over; UINT64_MAX where none runs. */
uint64_t timers_over_at(void);

/** Has those be over whose moment has come. */
void timers_fire(uint64_t now);

#endif
