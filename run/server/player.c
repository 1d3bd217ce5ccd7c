#include "player.h"

#include "connection.h"
#include "ending.h"
#include "failure.h"
#include "history.h"
#include "moments.h"
#include "process.h"
#include "record.h"
#include "settings.h"

#include <errno.h>

enum phase { BEFORE, PLAYING, BEHIND, OVER };

/** How far the record has been played. */
static struct player {
    enum phase phase;
    size_t next; /**< The action that comes next. */
    uint64_t started_us;
    uint64_t active_us; /**< When a program did something last. */
    int opens;
    bool is_held_up;      /**< Where time is virtual: it goes on where no process runs any more. */
    uint64_t delay;       /**< Where time is virtual: how much later than in the record lines come. */
    bool has_lost;        /**< The first loss that was wanted has come. */
    uint64_t last_moment; /**< Where time is virtual: of the last line, once that was played. */
} player;

enum {
    LOOK_AGAIN_US = 50000,
    LOOK_SOON_US = 100,
    FIRST_TIME_US = 1000000, /**< Virtual time begins no earlier. */
    TIME_BEHIND_US = 1000000 /**< So long virtual time goes on behind the last line. */
};

void player_note_open(void) {
    player.opens++;
    player_note_active();
}

void player_note_active(void) {
    player.active_us = now_us();
}

static uint64_t moment_from(size_t at) {
    while (at < record.action_count && !record.actions[at].is_timed)
        at++;
    return at < record.action_count ? record.actions[at].step.now : step_moment();
}

/* Where time is virtual and programs took some before the first line, all lines are as much later. */
static void take_delay(void) {
    uint64_t first = moment_from(player.next), now = step_moment();
    if (settings.is_virtual && player.next == record.before_open)
        player.delay = now > first ? now - first : 0;
}

static void play(const struct action *action) {
    struct actor *actor = action->actor;
    inputplay_step_t step = action->step;
    inputplay_reply reply;
    if (action->is_timed)
        set_line_moment(step.now + player.delay);
    step.now = step_moment();
    step.client = actor->client;
    if (actor->device->is_gone)
        return;
    device_step(actor->device, &step, &reply);
    if (reply.reply == INPUTPLAY_OPENED) {
        actor->client = reply.client;
        history_note_actor(actor->device, actor->name, reply.client);
    }
}

static bool is_report(const inputplay_step_t *step) {
    return step->step == INPUTPLAY_INJECT && step->type == EV_SYN && step->code == SYN_REPORT;
}

/* Plays the lines up to the end of a frame; false where none is left. */
static bool play_frame(void) {
    size_t from = player.next;
    while (player.next < record.action_count) {
        const struct action *action = &record.actions[player.next++];
        play(action);
        if (is_report(&action->step))
            break;
    }
    return player.next > from;
}

void player_begin(void) {
    while (player.next < record.before_open)
        play(&record.actions[player.next++]);
}

static void refresh_all(void) {
    for (int i = 0; i < device_count; i++)
        clients_refresh(&devices[i]);
}

static bool may_begin(void) {
    return player.opens >= settings.wanted_opens;
}

/* (what nobody reads is looked at again: its process may come to rest) */
uint64_t rest_at(void) {
    if (!may_begin())
        return UINT64_MAX;
    return is_all_read() ? player.active_us + settings.quiet_us : now_us() + LOOK_AGAIN_US;
}

static void play_frames(void) {
    if (!player.has_lost && is_loss_due()) {
        while (play_frame() && !has_client_lost())
            ;
        player.has_lost = true;
    } else {
        for (unsigned long i = 0; i < settings.frames && play_frame(); i++)
            ;
    }
    refresh_all();
}

/* (To some programs a time of 0 is none.) */
void player_begin_time(void) {
    uint64_t first = moment_from(0);
    if (settings.is_virtual)
        virtual_begin(first > FIRST_TIME_US ? first : FIRST_TIME_US, devices[0].ahead[0],
                      devices[0].ahead[1]);
}

/* The moment up to which time may go on before something else comes: the next line, or behind the last one
 * the end. */
static uint64_t next_moment(void) {
    bool has_lines = player.next < record.action_count;
    if (ending_has_begun() || (has_lines && !may_begin()))
        return UINT64_MAX - 1;
    take_delay();
    if (has_lines)
        return moment_from(player.next) + player.delay;
    if (!player.last_moment)
        player.last_moment = step_moment();
    return player.last_moment + TIME_BEHIND_US;
}

/* What comes next where all wait: a moment that a program waits for, or frames. False where nothing does. */
static bool go_on(void) {
    /* (one that ran until now may have said so by a message) */
    player.is_held_up = settings.is_virtual && (is_any_running() || connection_is_pending());
    if (player.is_held_up)
        return false;
    if (settings.is_virtual && wake_before(next_moment()))
        return true;
    bool has_frames = may_begin() && player.next < record.action_count;
    if (has_frames)
        play_frames();
    return has_frames;
}

bool player_wait(pid_t process) {
    if (!is_by_frames())
        return false;
    player.is_held_up = false;
    while (all_processes_wait() && go_on())
        ;
    if (may_begin() && !player.is_held_up && all_processes_wait())
        ending_begin();
    return process && ending_ends(process);
}

/* A client's read found nothing: 0 where frames came and it is to look again, or a negative errno. */
static int wait_in_read(struct client *client) {
    bool blocks = !is_nonblocking(client), waits = blocks || client->found_nothing;
    struct process *process = process_of(client->owner);
    client->found_nothing = true; /* (who asks twice in a row waits, as one who blocks) */
    if (waits && process)
        process->is_waiting = true;
    if (waits && player_wait(client->owner))
        return -EINTR;
    /* (where nothing came the shim of one who blocks waits for the byte, and asks again) */
    return blocks && client->has_byte ? 0 : -EAGAIN;
}

void player_note_read(struct client *client) {
    client->found_nothing = false; /* (a read that finds nothing is how some programs wait) */
    player_note_active();
}

int player_read(struct client *client, int (*take)(struct client *, void *, size_t), void *to,
                size_t length) {
    for (;;) {
        int done = take(client, to, length);
        if (!done)
            done = wait_in_read(client);
        if (done)
            return done;
    }
}

/* When the next line is due. One without a moment comes with the line behind it. */
static uint64_t due_at(void) {
    size_t at = player.next;
    while (at < record.action_count && !record.actions[at].is_timed)
        at++;
    if (at == record.action_count)
        return now_us();
    uint64_t first = moment_from(0), moment = record.actions[at].step.now;
    return player.started_us + (uint64_t)((double)(moment > first ? moment - first : 0) / settings.speed);
}

static uint64_t earlier(uint64_t one, uint64_t other) {
    return one < other ? one : other;
}

static uint64_t play_due(void) {
    while (player.next < record.action_count) {
        uint64_t at = due_at(), tick = repeats_play(), now = now_us();
        if (now < at || now >= tick)
            return earlier(at, tick);
        play(&record.actions[player.next++]);
        if (player.next == record.action_count || due_at() > now_us())
            refresh_all();
    }
    player.phase = BEHIND;
    return 0;
}

/* By frames most comes by requests; but a process may end, or ask nothing for long. */
static uint64_t turn_by_frames(void) {
    player_wait(0);
    uint64_t next = ending_signal_all();
    bool has_more = settings.is_virtual || (player.opens && !ending_has_begun());
    if (player.is_held_up)
        return earlier(next, now_us() + LOOK_SOON_US);
    return has_more ? earlier(next, now_us() + LOOK_AGAIN_US) : next;
}

static uint64_t turn_by_times(void) {
    uint64_t at = rest_at(), now = now_us();
    switch (player.phase) {
    case BEFORE:
        if (at > now)
            return at;
        player.phase = PLAYING;
        player.started_us = now;
        return 0;
    case PLAYING: return play_due();
    case BEHIND:
        if (at > now)
            return earlier(at, repeats_play());
        player.phase = OVER;
        ending_begin();
        return 0;
    case OVER: break;
    }
    return earlier(ending_signal_all(), settings.end == END_STAY ? repeats_play() : UINT64_MAX);
}

uint64_t player_turn(void) {
    return is_by_frames() ? turn_by_frames() : turn_by_times();
}
