/*
 * Four threads use one device by one call at a time, under a lock; a fifth one frees it, and a record is made, played and freed
 * on three threads. With the word `unlocked` two threads make a call each without the lock, for who checks that a checker of
 * races finds them. It says where something else came.
 */
#include "inputplay.h"
#include "same.h"

#include <pthread.h>
#include <string.h>

enum { THREADS = 4, ROUNDS = 40, ABS_TYPE = 3, AXIS = 0, ROOM = 64 };

static const char *const PAD = "inputrecord 1\ndevice pad\ncap EV_KEY KEY_A\naxis ABS_X 0 0 999 0 0 0\nlog 2000\nsource s\n"
                               "do s event 5 EV_KEY KEY_A 1\n";
static const char *const REPORT = "device pad steps 1\nsource s calls 1 stop finished\n";

static pthread_mutex_t lock = PTHREAD_MUTEX_INITIALIZER;
static inputplay_handle_t device = INPUTPLAY_NOTHING, record = INPUTPLAY_NOTHING;
static int frames = 0;
static size_t report_len = 0;

static uint32_t open_client(void) {
    inputplay_step_t step;
    inputplay_reply_t reply;
    memset(&step, 0, sizeof step);
    step.step = INPUTPLAY_OPEN;
    SAME(INPUTPLAY_OK, inputplay_step(&device, &step, &reply, NULL, 0, NULL, 0));
    SAME(INPUTPLAY_OPENED, reply.reply);
    return reply.client;
}

/* A frame, whose value no frame had, and what the client reads then: that frame at least. */
static void frame_and_read(uint32_t client) {
    inputplay_event_t events[ROOM];
    uint32_t at, count = 0, why, visible = 0;
    SAME(INPUTPLAY_OK, inputplay_inject(&device, ABS_TYPE, AXIS, ++frames, 5, &at, &why));
    SAME(INPUTPLAY_OK, inputplay_inject(&device, 0, 0, 0, 5, &at, &why));
    SAME(INPUTPLAY_OK, inputplay_visible(&device, client, &visible));
    SAME(1, visible >= 2);
    SAME(INPUTPLAY_OK, inputplay_read(&device, client, events, ROOM, &at, &count, &why));
    SAME(visible < ROOM ? visible : ROOM, count);
}

static void *share(void *unused) {
    pthread_mutex_lock(&lock);
    uint32_t client = open_client();
    pthread_mutex_unlock(&lock);
    for (int i = 0; i < ROUNDS; i++) {
        pthread_mutex_lock(&lock);
        frame_and_read(client);
        pthread_mutex_unlock(&lock);
    }
    return unused;
}

static void *ask_without_a_lock(void *count) {
    inputplay_visible(&device, 0, (uint32_t *)count);
    return NULL;
}

static void *play(void *unused) {
    SAME(INPUTPLAY_OK, inputplay_record_play(&record, 0, &report_len));
    return unused;
}

static void *free_both(void *unused) {
    inputplay_free(&device);
    inputplay_free(&record);
    return unused;
}

/* Begins a thread and waits for its end. */
static void on_a_thread(void *(*work)(void *)) {
    pthread_t thread;
    SAME(0, pthread_create(&thread, NULL, work, NULL));
    SAME(0, pthread_join(thread, NULL));
}

static void unlocked(void) {
    pthread_t threads[2];
    uint32_t counts[2];
    open_client();
    for (int i = 0; i < 2; i++)
        SAME(0, pthread_create(&threads[i], NULL, ask_without_a_lock, &counts[i]));
    for (int i = 0; i < 2; i++)
        SAME(0, pthread_join(threads[i], NULL));
    inputplay_free(&device);
}

static void shared(void) {
    pthread_t threads[THREADS];
    size_t left = 0;
    for (int i = 0; i < THREADS; i++)
        SAME(0, pthread_create(&threads[i], NULL, share, NULL));
    for (int i = 0; i < THREADS; i++)
        SAME(0, pthread_join(threads[i], NULL));
    /* A client each, and two events and a read in each round. */
    SAME(INPUTPLAY_OK, inputplay_history(&device, 0, NULL, 0, &left));
    SAME(THREADS + 3 * THREADS * ROUNDS, left);
}

int main(int argc, char **argv) {
    const uint8_t *text = (const uint8_t *)PAD;
    uint8_t report[128];
    uint32_t line, cause;
    size_t left = 0;
    SAME(INPUTPLAY_OK, inputplay_device_new(text, strlen(PAD), 0, &device, &line, &cause));
    if (argc > 1 && !strcmp(argv[1], "unlocked")) {
        unlocked();
        return failures != 0;
    }
    shared();
    SAME(INPUTPLAY_OK, inputplay_record_new(text, strlen(PAD), &record, &line, &cause));
    on_a_thread(play);
    SAME(strlen(REPORT), report_len);
    SAME(INPUTPLAY_OK, inputplay_record_text(&record, 0, report, sizeof report, &left));
    SAME(0, memcmp(report, REPORT, report_len));
    on_a_thread(free_both);
    SAME(0, device.kind);
    SAME(0, record.kind);
    return failures != 0;
}
