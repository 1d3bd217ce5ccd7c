#include "client.h"

#include "history.h"
#include "player.h"
#include "settings.h"

#include <errno.h>
#include <fcntl.h>
#include <poll.h>
#include <stdio.h>
#include <string.h>
#include <sys/socket.h>
#include <sys/stat.h>
#include <sys/un.h>
#include <unistd.h>

struct client clients[CLIENTS];

static const struct node_calls *const CALLS[NODE_KINDS] = {[NODE_EVENT] = &evdev_calls,
                                                           [NODE_JOYSTICK] = &joydev_calls,
                                                           [NODE_UINPUT] = &uinput_calls,
                                                           [NODE_TIMER] = &timer_calls};

/* Names our end of a pair, so that the shim of any process knows the other one by getpeername. */
static int name_peer(int peer, int32_t node) {
    static unsigned serial;
    struct sockaddr_un name = {.sun_family = AF_UNIX};
    char *text = name.sun_path + 1; /* (an abstract name begins with a NUL) */
    int length = snprintf(text, sizeof name.sun_path - 1, PEER_PREFIX "%016llx/%x/%x",
                          (unsigned long long)run_number(settings.folder), serial++, (unsigned)node);
    socklen_t size = (socklen_t)(offsetof(struct sockaddr_un, sun_path) + 1 + (size_t)length);
    return bind(peer, (struct sockaddr *)&name, size) ? -errno : 0;
}

/* A pair for a client: its own end and the program's. A byte that nobody reads waits in ours, so that the
 * program sees POLLERR beside POLLHUP when it is closed, as of a node whose device has gone. */
static int make_pair(struct client *client, int32_t node, int nonblocking) {
    int pair[2];
    struct stat status;
    if (socketpair(AF_UNIX, SOCK_STREAM | SOCK_CLOEXEC, 0, pair))
        return -errno;
    int error = name_peer(pair[1], node);
    if (error || fstat(pair[0], &status) || send(pair[0], "", 1, MSG_NOSIGNAL) != 1) {
        error = error ? error : -errno;
        close(pair[0]);
        close(pair[1]);
        return error;
    }
    fcntl(pair[0], F_SETFL, nonblocking);
    client->inode = status.st_ino;
    client->peer = pair[1];
    return pair[0];
}

static struct client *free_place(void) {
    for (int i = 0; i < CLIENTS; i++)
        if (!clients[i].is_open)
            return &clients[i];
    return NULL;
}

/* Whether there is such a node. */
static bool is_node(int32_t node) {
    if (node < 0 || node / DEVICES >= NODE_KINDS)
        return false;
    int device = device_of_node(node);
    switch (kind_of_node(node)) {
    case NODE_UINPUT: return node == maker_node();
    case NODE_TIMER: return settings.is_virtual;
    default: return device < device_count && !devices[device].is_gone;
    }
}

int client_open(int32_t node, uint32_t flags, pid_t process) {
    struct client *client = free_place();
    if (!is_node(node) || !client)
        return client ? -ENOENT : -EMFILE;
    enum node_kind kind = kind_of_node(node);
    struct device *device = kind >= NODE_UINPUT ? NULL : &devices[device_of_node(node)];
    const struct node_calls *calls = CALLS[kind];
    *client =
        (struct client){.kind = kind, .calls = calls, .device = device, .owner = process, .brought = -1};
    memset(client->masks, 0xff, sizeof client->masks);
    client->number = (uint32_t)device_of_node(node); /* (a timer's clock; a node's open says another) */
    client->can_read = (flags & O_ACCMODE) != O_WRONLY;
    client->can_write = (flags & O_ACCMODE) != O_RDONLY;
    int end = make_pair(client, node, (int)flags & O_NONBLOCK);
    if (end < 0)
        return end;
    int error = calls->open(client);
    if (error) {
        close(end);
        close(client->peer);
        return error;
    }
    client->is_open = true;
    if (device) {
        history_note_open(device, client->number, process);
        player_note_open();
    }
    return end;
}

void client_close(struct client *client) {
    if (!client->is_open)
        return;
    client->is_open = false;
    close(client->peer);
    client->calls->close(client);
}

struct client *client_of(int descriptor) {
    struct stat status;
    if (descriptor < 0 || fstat(descriptor, &status) || !S_ISSOCK(status.st_mode))
        return NULL;
    for (int i = 0; i < CLIENTS; i++)
        if (clients[i].is_open && clients[i].inode == status.st_ino)
            return &clients[i];
    return NULL;
}

bool is_nonblocking(const struct client *client) {
    return fcntl(client->brought, F_GETFL) & O_NONBLOCK;
}

/* The byte is taken back where the program asks: nothing that others do takes away what a client can see. */
void client_show(struct client *client, bool has_events) {
    char byte = 0;
    if (has_events && !client->has_byte) {
        client->has_byte = true;
        send(client->peer, &byte, 1, MSG_DONTWAIT | MSG_NOSIGNAL);
    } else if (!has_events && client->has_byte && client->brought >= 0) {
        client->has_byte = false;
        recv(client->brought, &byte, 1, MSG_DONTWAIT);
    }
}

/* Who can read already, and does not ask now, is not looked at: others take nothing away from it. */
static void refresh(struct client *client) {
    if (client->kind == NODE_UINPUT) {
        owner_refresh(client);
        return;
    }
    if (client->has_byte && client->brought < 0 && !client->device->is_gone)
        return;
    enum sight sight = device_sight(client->device, client->number);
    if (sight == SEES_NO_DEVICE)
        client_close(client); /* the program sees a hang-up, and what it asks from here on is ENODEV */
    else if (client->kind == NODE_EVENT)
        client_show(client, sight == SEES_EVENTS);
    else if (sight == SEES_EVENTS)
        client_show(client, true); /* (a joystick's records are not all of what is visible) */
}

void clients_refresh(struct device *device) {
    for (int i = 0; i < CLIENTS; i++)
        if (clients[i].is_open && clients[i].device == device)
            refresh(&clients[i]);
}

void clients_reap(void) {
    struct pollfd ends[CLIENTS];
    struct client *of[CLIENTS];
    nfds_t count = 0;
    for (int i = 0; i < CLIENTS; i++)
        if (clients[i].is_open) {
            of[count] = &clients[i];
            ends[count++] = (struct pollfd){.fd = clients[i].peer};
        }
    if (poll(ends, count, 0) <= 0)
        return;
    for (nfds_t i = 0; i < count; i++)
        if (ends[i].revents & (POLLHUP | POLLERR))
            client_close(of[i]);
}
