/* The job of crates/bench_turn in plain C: threads that make steps on one device, or on a device each.
 *
 * usage: plain_turn mutex|spin THREADS DEVICES STEPS IN_TURN
 *
 * A thread makes IN_TURN of its steps while it has the lock. Each device has a lock on cache lines of its own. A mutex is that of the C library. A spin lock is one word that a try
 * sets by a compare-exchange; after a try that fails the thread yields once, then twice, four times, up to 64 times. Nothing
 * here is proved.
 */
#define _GNU_SOURCE
#include "plain_device.h"

#include <pthread.h>
#include <sched.h>
#include <stdatomic.h>

enum { THREADS_MAX = 64, STEPS_MAX = 100000, MOST_RESTS = 64, KEY_A = 30, LINE = 64 };

typedef struct {
    _Alignas(LINE) pthread_mutex_t mutex;
    atomic_uint taken;
    _Alignas(LINE) Device *device;
} Shared;
typedef struct { pthread_t thread; Shared *shared; uint32_t steps, in_turn; } Job;

static int spins;

static void lock(Shared *s) {
    if (!spins) { pthread_mutex_lock(&s->mutex); return; }
    for (int rests = 1;; rests = rests < MOST_RESTS ? 2 * rests : rests) {
        unsigned is_free = 0;
        if (atomic_compare_exchange_strong_explicit(&s->taken, &is_free, 1, memory_order_acquire, memory_order_relaxed)) return;
        for (int i = 0; i < rests; i++) sched_yield();
    }
}

static void unlock(Shared *s) {
    if (spins) atomic_store_explicit(&s->taken, 0, memory_order_release);
    else pthread_mutex_unlock(&s->mutex);
}

/* Presses and releases the key, with a report behind each. */
static void *make_steps(void *of) {
    Job *job = of;
    for (uint32_t k = 0; k < job->steps; k += job->in_turn) {
        lock(job->shared);
        for (uint32_t i = 0; i < job->in_turn; i++) {
            Step s = { .tag = INJECT, .event = { EV_SYN, SYN_REPORT, 0 } };
            if ((k + i) % 2 == 0) s.event = (Event){ EV_KEY, KEY_A, (k + i) % 4 == 0 };
            step(job->shared->device, s, NULL, NULL);
        }
        unlock(job->shared);
    }
    return NULL;
}

static Shared *new_shared(void) {
    Shared *s = must(aligned_alloc(LINE, sizeof *s));
    memset(s, 0, sizeof *s);
    pthread_mutex_init(&s->mutex, NULL);
    s->device = new_device(16, 0);
    set_bit(s->device->key_codes, KEY_A, 1);
    return s;
}

/* A word's number from least to most; the program ends where it is none. */
static uint32_t number(const char *word, uint32_t least, uint32_t most) {
    char *end;
    unsigned long n = strtoul(word, &end, 10);
    if (*end || n < least || n > most) { puts("usage: plain_turn mutex|spin THREADS DEVICES STEPS IN_TURN"); exit(2); }
    return (uint32_t)n;
}

int main(int argc, char **argv) {
    static Job jobs[THREADS_MAX];
    static Shared *all[THREADS_MAX];
    if (argc != 6 || (strcmp(argv[1], "mutex") && strcmp(argv[1], "spin"))) number("", 1, 0);
    spins = !strcmp(argv[1], "spin");
    uint32_t threads = number(argv[2], 1, THREADS_MAX), devices = number(argv[3], 1, threads), entered = 0;
    uint32_t steps = number(argv[4], 0, STEPS_MAX);
    uint32_t in_turn = number(argv[5], 1, STEPS_MAX);
    if (threads / devices * steps > LOG || steps % in_turn) number("", 1, 0);
    for (uint32_t i = 0; i < devices; i++) all[i] = new_shared();
    for (uint32_t i = 0; i < threads; i++) {
        jobs[i] = (Job){ .shared = all[i % devices], .steps = steps, .in_turn = in_turn };
        if (pthread_create(&jobs[i].thread, NULL, make_steps, &jobs[i])) return 1;
    }
    for (uint32_t i = 0; i < threads; i++) pthread_join(jobs[i].thread, NULL);
    for (uint32_t i = 0; i < devices; i++) entered += all[i]->device->length;
    printf("threads %u devices %u steps %u entered %u\n", threads, devices, steps, entered);
    return 0;
}
