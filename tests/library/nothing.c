/*
 * NULL beside a count of 0 in each call that has one, a handle that is assigned nothing, and the texts of the header. It is C
 * and C++, and says where something else came.
 */
#include "inputplay.h"
#include "same.h"

#include <string.h>

static const char *const PAD = "inputrecord 2\ndevice pad\ncap EV_KEY KEY_A\nlog 9\nsource s\ndo s stream keys\n";

static void making(void) {
    inputplay_handle_t h = INPUTPLAY_NOTHING;
    uint32_t line = 77, cause = 77;
    SAME(INPUTPLAY_REFUSED, inputplay_device_new(NULL, 0, 0, &h, &line, &cause));
    SAME(1, line);
    SAME(INPUTPLAY_BAD_HEADER, cause);
    SAME(INPUTPLAY_REFUSED, inputplay_record_new(NULL, 0, &h, &line, &cause));
    SAME(1, line);
    SAME(INPUTPLAY_BAD_HEADER, cause);
}

static void of_a_device(inputplay_handle_t *h) {
    inputplay_step_t step;
    inputplay_reply_t reply;
    uint32_t at = 77, count = 77, why = 77;
    size_t left = 77;
    memset(&step, 0, sizeof step);
    step.step = INPUTPLAY_OPEN;
    SAME(INPUTPLAY_OK, inputplay_step(h, &step, &reply, NULL, 0, NULL, 0));
    SAME(INPUTPLAY_OPENED, reply.reply);
    step.step = INPUTPLAY_READ;
    SAME(INPUTPLAY_OK, inputplay_step(h, &step, &reply, NULL, 0, NULL, 0));
    step.count = 1;
    SAME(INPUTPLAY_BAD_ARGUMENT, inputplay_step(h, &step, &reply, NULL, 0, NULL, 0));
    SAME(INPUTPLAY_OK, inputplay_inject_all(h, NULL, 0, &at, &count));
    SAME(0, count);
    SAME(INPUTPLAY_OK, inputplay_read(h, 0, NULL, 0, &at, &count, &why));
    SAME(0, count);
    SAME(0, why);
    SAME(INPUTPLAY_OK, inputplay_history(h, 0, NULL, 0, &left));
    SAME(1, left > 0);
    SAME(INPUTPLAY_OK, inputplay_feedback(h, NULL, 0, &at, &count, &why));
    SAME(0, count);
    count = 77;
    SAME(INPUTPLAY_OK, inputplay_readable(h, NULL, 0, &count));
    SAME(0, count);
}

static void of_a_record(inputplay_handle_t *h) {
    uint32_t role = 77, device = 77;
    size_t len = 77, left = 77;
    SAME(INPUTPLAY_OK, inputplay_record_load(h, 0, NULL, 0));
    SAME(INPUTPLAY_OK, inputplay_record_file(h, 0, NULL, 0, &len));
    SAME(4, len);
    SAME(INPUTPLAY_OK, inputplay_record_device(h, 0, NULL, 0, &len));
    SAME(3, len);
    SAME(INPUTPLAY_OK, inputplay_record_actor(h, 0, &role, &device, NULL, 0, &len));
    SAME(1, len);
    SAME(INPUTPLAY_OK, inputplay_record_events(h, 0, 0, NULL, 0, &left));
    SAME(0, left);
    SAME(INPUTPLAY_OK, inputplay_record_migrate(h, &len));
    SAME(INPUTPLAY_OK, inputplay_record_text(h, 0, NULL, 0, &left));
    SAME(len, left);
}

static void of_names(void) {
    uint16_t type = 77, code = 77;
    size_t len = 77;
    SAME(INPUTPLAY_BAD_ARGUMENT, inputplay_code_of(NULL, 0, &type, &code));
    SAME(77, code);
    SAME(INPUTPLAY_OK, inputplay_name_of(1, 30, NULL, 0, &len));
    SAME(5, len);
}

static void texts(void) {
    SAME(0, strcmp("the call was made", inputplay_status_text(INPUTPLAY_OK)));
    SAME(0, strcmp("the handle is in use", inputplay_status_text(INPUTPLAY_IN_USE)));
    SAME(0, strcmp("unknown status", inputplay_status_text(4)));
    SAME(0, strcmp("unknown status", inputplay_status_text(10)));
    SAME(0, strcmp("bad-line", inputplay_cause_text(INPUTPLAY_BAD_LINE)));
    SAME(0, strcmp("bad-stream", inputplay_cause_text(INPUTPLAY_LINE_BAD_STREAM)));
    SAME(0, strcmp("unknown cause", inputplay_cause_text(18)));
    SAME(0, strcmp("busy", inputplay_why_text(INPUTPLAY_BUSY)));
    SAME(0, strcmp("no cause", inputplay_why_text(0)));
    SAME(0, strcmp("unknown cause", inputplay_why_text(UINT32_MAX)));
}

int main(void) {
    inputplay_handle_t h = INPUTPLAY_NOTHING;
    const uint8_t *text = (const uint8_t *)PAD;
    uint32_t line, cause;
    making();
    SAME(INPUTPLAY_OK, inputplay_device_new(text, strlen(PAD), 0, &h, &line, &cause));
    of_a_device(&h);
    inputplay_free(&h);
    h = inputplay_nothing();
    SAME(INPUTPLAY_OK, inputplay_record_new(text, strlen(PAD), &h, &line, &cause));
    of_a_record(&h);
    inputplay_free(&h);
    inputplay_free(NULL);
    of_names();
    texts();
    return failures != 0;
}
