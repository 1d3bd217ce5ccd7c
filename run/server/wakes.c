/* Where time is virtual: the moments up to which programs wait. Time goes from one to the next. */
#include "connection.h"
#include "moments.h"
#include "player.h"
#include "timer.h"

static uint64_t first_until(void) {
    uint64_t first = timers_over_at();
    for (int i = 0; i < connection_count; i++)
        if (connections[i].is_waiting && connections[i].until < first)
            first = connections[i].until;
    return first;
}

bool wake_before(uint64_t moment) {
    uint64_t until = first_until();
    if (until > moment)
        return false;
    set_line_moment(until);
    for (int i = 0; i < connection_count; i++)
        if (connections[i].is_waiting && connections[i].until <= until)
            connection_wake(&connections[i]);
    timers_fire(until);
    return true;
}
