/* Plays the record's lines: by their times, or so many frames wherever all programs wait. */
#ifndef INPUTPLAY_RUN_PLAYER_H
#define INPUTPLAY_RUN_PLAYER_H

#include "client.h"

#include <stdbool.h>
#include <stdint.h>
#include <sys/types.h>

/** Plays the lines that stand before the program's first open: its devices are as the record has them then. */
void player_begin(void);

/** Plays what is due. Gives the time at which it is to be called again (of now_us()), UINT64_MAX where only
 * requests matter. */
uint64_t player_turn(void);

/** A process is going to wait. Where all do, frames come. True where it is to end instead, by
 * ending_signal(). */
bool player_wait(pid_t process);

/** Takes what a client can read, and waits for it where nothing is there: how many bytes, or a negative
 * errno. `take` gives 0 where nothing is there. */
int player_read(struct client *client, int (*take)(struct client *, void *, size_t), void *to,
                size_t length);

/** A client's read found something. */
void player_note_read(struct client *client);

/** A file was opened. */
void player_note_open(void);

/** A program did something, so it is not at rest. */
void player_note_active(void);

/** Where programs have read all there is: the time at which they will have been at rest for long enough.
 * (player.c) */
uint64_t rest_at(void);

/** Plays the ticks of autorepeats that are due; gives when the next one is. (repeats.c) */
uint64_t repeats_play(void);

/** Plays frames until a program's client has lost events, or no line is left. (losses.c) */
bool has_client_lost(void);

/** Where time is virtual: has it go on to where a program waits up to, if that comes before this moment.
 * False where none does. (wakes.c) */
bool wake_before(uint64_t moment);

/** Begins virtual time, at the first line's moment, and at one second at least. */
void player_begin_time(void);

/** Whether the first loss that is wanted is to come now. (losses.c) */
bool is_loss_due(void);

#endif
