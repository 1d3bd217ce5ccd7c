/* A connection of a program's shim: takes its requests and answers them. */
#ifndef INPUTPLAY_RUN_CONNECTION_H
#define INPUTPLAY_RUN_CONNECTION_H

#include <poll.h>
#include <stdbool.h>
#include <stdint.h>
#include <sys/types.h>

enum connection_limit { CONNECTIONS = 128 };

struct connection {
    int descriptor;
    pid_t process;   /**< Who connected. */
    bool is_waiting; /**< Where time is virtual: an answer is due to it at a moment. */
    uint64_t until;  /**< That moment, or UINT64_MAX. */
};

extern struct connection connections[CONNECTIONS];
extern int connection_count;

/** A socket that programs connect to, in the folder of the run. */
int listen_for_programs(void);

/** Takes a new connection, and what it asks first. Where there are too many the oldest is closed. */
void connection_accept(int listening);

/** Whether a request has come that was not taken yet. */
bool connection_is_pending(void);

/** Answers one that waited: its moment has come. */
void connection_wake(struct connection *connection);

/** Takes a request and answers it; closes the connection at its end, or after rubbish. */
void connection_serve(int index);

#endif
