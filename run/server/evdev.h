/* What the files of an event node share: evdev.c opens, reads and writes; requests.c tells one ioctl from
 * another; queries.c answers those that make steps. */
#ifndef INPUTPLAY_RUN_EVDEV_H
#define INPUTPLAY_RUN_EVDEV_H

#include "client.h"

/** Makes a step of a client, now: 0, or a negative errno. */
int client_step(struct client *client, inputplay_step_t step, inputplay_reply *reply);

/** Makes a step of a client whose reply nobody needs. */
int client_ask(struct client *client, inputplay_step_t step);

/** The answer to an ioctl of an event node. (requests.c) */
int evdev_ioctl(struct client *client, struct ioctl_call *call);

/** Gives bytes as an answer, as many as the request has room for; gives how many. */
int answer_bytes(struct ioctl_call *call, const void *bytes, size_t length);

/** Answers a text with its NUL; there is none where it is empty. */
int answer_text(struct ioctl_call *call, const char *text);

/** Says on standard error, once of each number, that a request is not served; it is EINVAL. */
int refuse_request(const char *node, uint32_t number);

/* The requests that make steps. (queries.c) */
int get_state(struct client *client, struct ioctl_call *call, uint32_t step, unsigned type);
int get_slots(struct client *client, struct ioctl_call *call);
int get_axis(struct client *client, struct ioctl_call *call);
int set_axis(struct client *client, struct ioctl_call *call);
int get_mask(struct client *client, struct ioctl_call *call);
int set_mask(struct client *client, struct ioctl_call *call);
int set_clock(struct client *client, struct ioctl_call *call);
int set_repeat(struct client *client, struct ioctl_call *call);

#endif
