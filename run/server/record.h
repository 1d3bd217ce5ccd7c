/* The record that is played: its actors, and its lines as steps. */
#ifndef INPUTPLAY_RUN_RECORD_H
#define INPUTPLAY_RUN_RECORD_H

#include "device.h"

#include <stdbool.h>
#include <stddef.h>
#include <stdint.h>

/** An actor of the record. */
struct actor {
    char name[NAME_ROOM];
    struct device *device;
    bool is_source;
    bool is_program; /**< A program stands in for it, so its lines are left out. */
    uint32_t client; /**< The library's client that it opened last. */
};

/** A line of the record: a step of a source, or of a client that stands beside the programs. */
struct action {
    struct actor *actor;
    bool is_timed;
    inputplay_step_t step;
};

struct record {
    struct actor *actors;
    size_t actor_count;
    struct action *actions;
    size_t action_count;
    bool is_opened;     /**< A line opens the client that the program is. */
    size_t before_open; /**< So many actions stand before that line. */
};

extern struct record record;

/** Reads the record of the settings and makes its devices. What is wrong with it ends the server. */
void record_read(void);

/** Adds an action. */
void record_add(const struct action *action);

/** Adds the actions of an action line of a record, by its number. (actions.c) */
void actions_take(inputplay_handle_t *handle, uint32_t number);

/** The bytes of a file, with a NUL behind them. What cannot be read ends the server. (actions.c) */
uint8_t *file_bytes(const char *name, size_t *length);

#endif
