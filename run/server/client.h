/* An open file of a node: one client of a device. Several descriptors of several processes may share it. */
#ifndef INPUTPLAY_RUN_CLIENT_H
#define INPUTPLAY_RUN_CLIENT_H

#include "device.h"
#include "protocol.h"

#include <stdbool.h>
#include <stddef.h>
#include <stdint.h>
#include <sys/types.h>

enum client_limit { CLIENTS = 64, MASK_WORDS = MASK_BYTES / 8 };

struct client;

/** An ioctl: its number and its argument. */
struct ioctl_call {
    uint32_t number;
    bool is_set;       /**< Of an argument that is a value: it is not 0. */
    uint32_t value;    /**< That value. */
    uint8_t *bytes;    /**< What the argument points to; the answer's bytes replace it. There is room for
                          PAYLOAD_MAX. */
    uint32_t given;    /**< How many bytes the program gave. */
    uint32_t answered; /**< How many bytes go back. */
};

/** What a kind of node answers: 0 or more, or a negative errno. */
struct node_calls {
    int (*open)(struct client *client);
    int (*read)(struct client *client, void *to, size_t length);
    int (*write)(struct client *client, const void *from, size_t length);
    int (*ioctl)(struct client *client, struct ioctl_call *call);
    void (*close)(struct client *client);
};

extern const struct node_calls evdev_calls, joydev_calls, uinput_calls, timer_calls;

struct client {
    bool is_open; /**< The place is free where it is not. */
    enum node_kind kind;
    const struct node_calls *calls;
    struct device *device; /**< NULL where it is of /dev/uinput and has none. */
    uint32_t number;       /**< Of the library's client. */
    ino_t inode;           /**< Of the program's end: what a descriptor is known by. */
    pid_t owner;           /**< The process that asked last. */
    int peer;              /**< Our end of the pair. A byte waits in the program's while events do. */
    int brought;           /**< The program's end, while a request that brought it is answered; else -1. */
    bool has_byte;
    bool can_read, can_write;
    bool found_nothing; /**< Its last call was a read that found nothing. */
    bool has_read;      /**< It has read events at least once. */
    uint64_t masks[EV_CNT][MASK_WORDS];
};

extern struct client clients[CLIENTS];

/** Opens a client for a process: the program's end of the pair, which is to be sent to it, or a negative
 * errno. */
int client_open(int32_t node, uint32_t flags, pid_t process);

/** Closes a client and our end: its last descriptor has gone, or it has lost its device. */
void client_close(struct client *client);

/** Whose end a descriptor is, or NULL. */
struct client *client_of(int descriptor);

/** Whether the program's descriptor does not block. */
bool is_nonblocking(const struct client *client);

/** Puts the byte of a client, or takes it, by whether there is something to read. */
void client_show(struct client *client, bool has_events);

/** Looks at all clients of a device: which have something to read, and which have lost the device. */
void clients_refresh(struct device *device);

/** Looks for what waits for the owner of a device, which is asked for anew where it may have come.
 * (uinput.c) */
void owner_refresh(struct client *client);

/** Says where the program that opened /dev/uinput finds /sys, where that is another place. (uinput.c) */
void owner_take_root(const struct client *client, const char *root);

/** Closes the clients whose last descriptor has gone. */
void clients_reap(void);

#endif
