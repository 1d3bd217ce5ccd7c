/* inputplay-serve: owns the devices of a record, on one thread, and serves them to the programs that the shim
 * is loaded into. */
#include "client.h"
#include "connection.h"
#include "failure.h"
#include "history.h"
#include "moments.h"
#include "player.h"
#include "record.h"
#include "settings.h"

#include <poll.h>
#include <signal.h>
#include <stdio.h>
#include <sys/prctl.h>

static volatile sig_atomic_t is_over;

static void end_serving(int number) {
    is_over = number;
}

static struct timespec time_until(uint64_t next) {
    uint64_t now = now_us(), wait = next <= now ? 0 : next - now;
    if (wait > 1000000)
        wait = 1000000;
    return (struct timespec){.tv_sec = (time_t)(wait / 1000000), .tv_nsec = (long)(wait % 1000000) * 1000};
}

/* What may come: new programs, requests, and the ends of open files. They are looked at in this order, so
 * that a close which came before a request is seen when the request is. */
static nfds_t list_descriptors(struct pollfd *all, int listening) {
    nfds_t count = 0;
    all[count++] = (struct pollfd){.fd = listening, .events = POLLIN};
    for (int i = 0; i < connection_count; i++)
        all[count++] = (struct pollfd){.fd = connections[i].descriptor, .events = POLLIN};
    for (int i = 0; i < CLIENTS; i++)
        if (clients[i].is_open)
            all[count++] = (struct pollfd){.fd = clients[i].peer};
    return count;
}

static bool is_any_ready(const struct pollfd *files, nfds_t count) {
    for (nfds_t i = 0; i < count; i++)
        if (files[i].revents)
            return true;
    return false;
}

/* One turn: what is due is played, then what has come is answered. */
static void turn(int listening) {
    struct pollfd all[1 + CONNECTIONS + CLIENTS];
    struct timespec wait = time_until(player_turn());
    nfds_t count = list_descriptors(all, listening);
    int served = connection_count;
    sigset_t none;
    sigemptyset(&none);
    if (ppoll(all, count, &wait, &none) <= 0)
        return;
    if (is_any_ready(all + 1 + served, count - 1 - (nfds_t)served))
        clients_reap();
    for (int i = served - 1; i >= 0; i--)
        if (all[1 + i].revents)
            connection_serve(i);
    if (all[0].revents)
        connection_accept(listening);
}

/* SIGTERM comes where it waits, and nowhere else. */
static void take_signals(void) {
    struct sigaction on_end = {.sa_handler = end_serving};
    sigset_t end;
    sigemptyset(&end);
    sigaddset(&end, SIGTERM);
    sigprocmask(SIG_BLOCK, &end, NULL);
    sigaction(SIGTERM, &on_end, NULL);
    signal(SIGINT, SIG_IGN);
    signal(SIGPIPE, SIG_IGN);
}

int main(int count, char **words) {
    settings_take(count, words);
    take_signals();
    if (!settings.is_kept)
        prctl(PR_SET_PDEATHSIG, SIGTERM);
    if (inputplay_abi() != INPUTPLAY_ABI)
        fail("the library has another interface");
    record_read();
    player_begin_time();
    player_begin();
    int listening = listen_for_programs();
    puts("ready");
    fclose(stdout);
    while (!is_over)
        turn(listening);
    history_write();
    return 0;
}
