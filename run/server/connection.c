#include "connection.h"

#include "client.h"
#include "ending.h"
#include "failure.h"
#include "player.h"
#include "process.h"
#include "settings.h"

#include <errno.h>
#include <stdio.h>
#include <string.h>
#include <sys/socket.h>
#include <sys/stat.h>
#include <sys/un.h>
#include <unistd.h>

enum { BROUGHT = 4, BACKLOG = 64 };

/** The bytes behind a request, and behind its answer. */
static union payload {
    uint8_t bytes[PAYLOAD_MAX];
    uint64_t aligned;
} given, answered;

/** A request that came, and what goes back. */
struct exchange {
    struct request request;
    struct answer answer;
    const uint8_t *payload; /**< Of the answer. */
    int brought[BROUGHT];   /**< The program's descriptors. */
    int brought_count;
    int opened; /**< The descriptor that goes back, or -1. */
};

/** Room for the descriptors that a message brings. */
union control {
    char room[CMSG_SPACE(BROUGHT * sizeof(int))];
    struct cmsghdr aligned;
};

struct connection connections[CONNECTIONS];
int connection_count;

static int answer_ioctl(struct client *client, struct exchange *exchange) {
    const struct request *request = &exchange->request;
    struct ioctl_call call = {.number = request->number,
                              .is_set = request->flags,
                              .value = request->value,
                              .bytes = given.bytes,
                              .given = request->length};
    if (call.given < bytes_sent(call.number))
        return -EINVAL;
    int result = client->calls->ioctl(client, &call);
    exchange->payload = given.bytes;
    exchange->answer.length = result >= 0 ? call.answered : 0;
    return result;
}

static int answer_read(struct client *client, struct exchange *exchange) {
    size_t room = exchange->request.room < PAYLOAD_MAX ? exchange->request.room : PAYLOAD_MAX;
    int result = client->calls->read(client, answered.bytes, room);
    exchange->payload = answered.bytes;
    exchange->answer.length = result > 0 ? (uint32_t)result : 0;
    return result;
}

/* A request about an open file. One that is not known here was revoked or unplugged, or is of another run. */
static int answer_client(struct client *client, struct exchange *exchange) {
    if (!client)
        return -ENODEV;
    switch (exchange->request.kind) {
    case ASK_READ: return answer_read(client, exchange);
    case ASK_WRITE: return client->calls->write(client, given.bytes, exchange->request.length);
    default: return answer_ioctl(client, exchange);
    }
}

static int answer_open(struct exchange *exchange, pid_t process_id) {
    const struct request *request = &exchange->request;
    exchange->opened = client_open(request->node, request->flags, process_id);
    bool has_root = request->length && !given.bytes[request->length - 1];
    if (exchange->opened >= 0 && request->node == maker_node() && has_root)
        owner_take_root(client_of(exchange->opened), (const char *)given.bytes);
    return exchange->opened < 0 ? exchange->opened : 0;
}

static int answer_request(struct exchange *exchange, pid_t process_id) {
    const struct request *request = &exchange->request;
    struct client *client = client_of(exchange->brought_count ? exchange->brought[0] : -1);
    if (request->kind == ASK_OPEN)
        return answer_open(exchange, process_id);
    if (client) {
        client->owner = process_id;
        client->brought = exchange->brought[0];
    }
    int result = 0;
    if (request->kind != ASK_WAIT)
        result = answer_client(client, exchange);
    else if (player_wait(process_id))
        exchange->answer.signal = (uint32_t)ending_signal();
    if (result == -EINTR)
        exchange->answer.signal = (uint32_t)ending_signal();
    if (client)
        client->brought = -1;
    return result;
}

static bool is_request(const struct request *request, ssize_t length, int brought, int flags) {
    return length >= (ssize_t)sizeof *request && request->magic == PROTOCOL_MAGIC &&
           request->kind >= ASK_OPEN && request->kind <= ASK_BEGIN &&
           (size_t)length == sizeof *request + request->length && brought <= 1 &&
           !(flags & (MSG_TRUNC | MSG_CTRUNC));
}

enum receipt { GOT_REQUEST, GOT_NOTHING, GOT_RUBBISH };

/* Takes a message. The end of a connection is none that is a request. */
static enum receipt receive(int descriptor, struct exchange *exchange) {
    union control control;
    struct iovec parts[2] = {{&exchange->request, sizeof exchange->request}, {&given, sizeof given}};
    struct msghdr message = {
        .msg_iov = parts, .msg_iovlen = 2, .msg_control = &control, .msg_controllen = sizeof control};
    ssize_t length = recvmsg(descriptor, &message, MSG_DONTWAIT | MSG_CMSG_CLOEXEC);
    if (length < 0)
        return errno == EAGAIN || errno == EINTR ? GOT_NOTHING : GOT_RUBBISH;
    for (struct cmsghdr *part = CMSG_FIRSTHDR(&message); part; part = CMSG_NXTHDR(&message, part))
        if (part->cmsg_level == SOL_SOCKET && part->cmsg_type == SCM_RIGHTS) {
            exchange->brought_count = (int)((part->cmsg_len - CMSG_LEN(0)) / sizeof(int));
            memcpy(exchange->brought, CMSG_DATA(part), (size_t)exchange->brought_count * sizeof(int));
        }
    bool is_good = is_request(&exchange->request, length, exchange->brought_count, message.msg_flags);
    return is_good ? GOT_REQUEST : GOT_RUBBISH;
}

static bool send_answer(int descriptor, struct exchange *exchange) {
    union control control = {0};
    struct iovec parts[2] = {{&exchange->answer, sizeof exchange->answer},
                             {(void *)(uintptr_t)exchange->payload, exchange->answer.length}};
    struct msghdr message = {.msg_iov = parts, .msg_iovlen = 2};
    if (exchange->opened >= 0) {
        message.msg_control = &control;
        message.msg_controllen = CMSG_SPACE(sizeof(int));
        struct cmsghdr *part = CMSG_FIRSTHDR(&message);
        part->cmsg_level = SOL_SOCKET;
        part->cmsg_type = SCM_RIGHTS;
        part->cmsg_len = CMSG_LEN(sizeof(int));
        memcpy(CMSG_DATA(part), &exchange->opened, sizeof(int));
    }
    return sendmsg(descriptor, &message, MSG_DONTWAIT | MSG_NOSIGNAL) >= 0;
}

/* Where time is virtual a wait is answered later: at its moment, or where the program waits no longer. */
static bool is_virtual_wait(const struct request *request) {
    return settings.is_virtual && (request->kind >= ASK_CANCEL ||
                                   (request->kind == ASK_WAIT && request->length == sizeof(uint64_t)));
}

static void process_begins(pid_t id) {
    process_asks(id, false);
    process_is_answered(id);
}

static void serve_wait(struct connection *connection, bool is_cancelled) {
    if (is_cancelled) {
        if (connection->is_waiting) /* (else the answer is under way) */
            connection_wake(connection);
        return;
    }
    memcpy(&connection->until, given.bytes, sizeof connection->until);
    connection->is_waiting = true;
    process_asks(connection->process, true);
    process_is_answered(connection->process);
    player_wait(0);
}

/* False where the connection is to be closed. What was brought is closed before the answer: the program may
 * close its own then, and that is to be seen. */
static bool serve(struct connection *connection) {
    struct exchange exchange = {.opened = -1};
    enum receipt receipt = receive(connection->descriptor, &exchange);
    if (receipt == GOT_REQUEST && !exchange.brought_count && is_virtual_wait(&exchange.request)) {
        if (exchange.request.kind == ASK_BEGIN)
            process_begins(exchange.request.value ? (pid_t)exchange.request.value : connection->process);
        else
            serve_wait(connection, exchange.request.kind == ASK_CANCEL);
        return true;
    }
    if (receipt == GOT_REQUEST) {
        process_asks(connection->process, exchange.request.kind == ASK_WAIT);
        exchange.answer.result = answer_request(&exchange, connection->process);
        process_is_answered(connection->process);
    }
    for (int i = 0; i < exchange.brought_count; i++)
        close(exchange.brought[i]);
    bool is_good =
        receipt == GOT_NOTHING || (receipt == GOT_REQUEST && send_answer(connection->descriptor, &exchange));
    if (exchange.opened >= 0)
        close(exchange.opened);
    return is_good;
}

void connection_wake(struct connection *connection) {
    struct answer answer = {.result = 0};
    process_asks(connection->process, false);
    process_is_answered(connection->process);
    connection->is_waiting = false;
    send(connection->descriptor, &answer, sizeof answer, MSG_DONTWAIT | MSG_NOSIGNAL);
}

bool connection_is_pending(void) {
    struct pollfd lines[CONNECTIONS];
    for (int i = 0; i < connection_count; i++)
        lines[i] = (struct pollfd){.fd = connections[i].descriptor, .events = POLLIN};
    return poll(lines, (nfds_t)connection_count, 0) > 0;
}

static void drop(int index) {
    close(connections[index].descriptor);
    connection_count--;
    memmove(connections + index, connections + index + 1,
            (size_t)(connection_count - index) * sizeof connections[0]);
}

void connection_serve(int index) {
    if (!serve(&connections[index]))
        drop(index);
}

int listen_for_programs(void) {
    struct sockaddr_un name = {.sun_family = AF_UNIX};
    int descriptor = socket(AF_UNIX, SOCK_SEQPACKET | SOCK_CLOEXEC | SOCK_NONBLOCK, 0);
    int length = snprintf(name.sun_path, sizeof name.sun_path, "%s/" SOCKET_NAME, settings.folder);
    if (length >= (int)sizeof name.sun_path)
        fail("%s is too long for a socket's name", settings.folder);
    mode_t before = umask(0177); /* (the socket is the user's own: 0600) */
    if (descriptor < 0 || bind(descriptor, (struct sockaddr *)&name, sizeof name) ||
        listen(descriptor, BACKLOG))
        fail("%s: %s", name.sun_path, strerror(errno));
    umask(before);
    return descriptor;
}

void connection_accept(int listening) {
    int descriptor = accept4(listening, NULL, NULL, SOCK_CLOEXEC | SOCK_NONBLOCK);
    struct ucred who = {0};
    socklen_t length = sizeof who;
    if (descriptor < 0)
        return;
    getsockopt(descriptor, SOL_SOCKET, SO_PEERCRED, &who, &length);
    if (connection_count == CONNECTIONS)
        drop(0);
    connections[connection_count++] = (struct connection){.descriptor = descriptor, .process = who.pid};
}
