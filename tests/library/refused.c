/*
 * Each allocation of each call that makes one is refused in turn: the call is made with less, or says so and leaves the handle
 * and what it keeps as before, and in the end all is freed. It is linked with --wrap for malloc, realloc and free. It says how many were refused.
 */
#include "inputplay.h"

#include <stdio.h>
#include <stdlib.h>
#include <string.h>

void *__real_malloc(size_t size);
void *__real_realloc(void *at, size_t size);
void __real_free(void *at);

static long blocks = 0, until_refused = -1;

static int is_refused(void) { return until_refused >= 0 && until_refused-- == 0; }

void *__wrap_malloc(size_t size) {
    void *at = is_refused() ? NULL : __real_malloc(size);
    blocks += at != NULL;
    return at;
}

void *__wrap_realloc(void *old, size_t size) {
    void *at = is_refused() ? NULL : __real_realloc(old, size);
    blocks += at != NULL && old == NULL;
    return at;
}

void __wrap_free(void *at) {
    blocks -= at != NULL;
    __real_free(at);
}

static const char *const TEXT = "inputrecord 2\ndevice pad\ncap EV_KEY KEY_A\naxis ABS_X 0 0 9 0 0 0\nslots 3\nlog 50\nsource s\n"
                                "client c\njoy j\ndo c open\ndo j open\ndo s stream keys\ndo c follow\ndo j read 5\n";
static const uint8_t KEY[48] = {1, 0, 0, 0, 0, 0, 0, 0, 0, 0, 0, 0, 0, 0, 0, 0, 1, 0, 30, 0, 1, 0, 0, 0, 1};

enum { DEVICE, DESCRIBED, START, RECORD, LOAD, MIGRATE, PLAY, CALLS };

static uint32_t call(int which, inputplay_handle_t *h) {
    uint32_t a, b, status;
    size_t len;
    static inputplay_description_t description;
    switch (which) {
    case DEVICE:
        return inputplay_device_new((const uint8_t *)TEXT, strlen(TEXT), 0, h, &a, &b);
    case DESCRIBED:
        return inputplay_device_of(&description, h, &a);
    case START:
        status = inputplay_reader_start(h, &a, &b);
        return b == 10 ? INPUTPLAY_NO_MEMORY : status;
    case RECORD:
        return inputplay_record_new((const uint8_t *)TEXT, strlen(TEXT), h, &a, &b);
    case MIGRATE:
        return inputplay_record_migrate(h, &len);
    case PLAY:
        return inputplay_record_play(h, 1, &len);
    default:
        return inputplay_record_load(h, 2, KEY, 48);
    }
}

/* What a handle has to keep before a call. */
static void prepare(int which, inputplay_handle_t *h) {
    if (which == START)
        call(DEVICE, h);
    if (which == LOAD || which == MIGRATE || which == PLAY)
        call(RECORD, h);
    if (which == PLAY) {
        call(LOAD, h);
        call(MIGRATE, h);
    }
}

/* How many bytes the text has that a handle keeps, if it keeps a record. */
static size_t text_len(inputplay_handle_t *h) {
    uint8_t none;
    size_t left = 0;
    inputplay_record_text(h, 0, &none, 0, &left);
    return left;
}

int main(void) {
    long refused = 0;
    for (int which = 0; which < CALLS; which++) {
        for (long n = 0;; n++) {
            inputplay_handle_t h = INPUTPLAY_NOTHING;
            prepare(which, &h);
            uint32_t kind = h.kind;
            void *at = h.at;
            long before = blocks;
            size_t len = text_len(&h);
            until_refused = n;
            uint32_t status = call(which, &h);
            int was_refused = until_refused < 0;
            until_refused = -1;
            /* A device keeps the room that it got before a later allocation was refused. */
            int same_blocks = which == START ? blocks >= before : blocks == before;
            /* A list that is refused the room for many asks for that of one, so a call may be made all the same. */
            int failed = was_refused && status != INPUTPLAY_OK;
            if (failed && (status != INPUTPLAY_NO_MEMORY || h.kind != kind || !same_blocks || text_len(&h) != len)) {
                printf("call %d, allocation %ld: status %u, kind %u, %ld blocks and %ld before\n", which, n, status, h.kind, blocks, before);
                return 1;
            }
            if (failed && kind != 0 && (at == NULL || call(which, &h) != INPUTPLAY_OK)) {
                printf("call %d, allocation %ld: what was kept is of no use\n", which, n);
                return 1;
            }
            inputplay_free(&h);
            if (blocks != 0 || (!failed && status != INPUTPLAY_OK)) {
                printf("call %d: status %u, %ld blocks are left\n", which, status, blocks);
                return 1;
            }
            if (!was_refused)
                break;
            refused += failed;
        }
    }
    printf("%ld calls were refused for want of memory\n", refused);
    return refused < 20;
}
