/* Requests (ioctl). What the kernel would read is sent with the number; what it would write comes back into
 * the program's memory. */
#include "shim.h"

#include <asm/termbits.h>
#include <errno.h>
#include <linux/joystick.h>
#include <stdarg.h>

enum { TEXT_MOST = 1024 };

/* How many bytes an answer may have. (What JSIOCGCORR and EVIOCGMTSLOTS write is not in their numbers.) */
static size_t answer_room(uint32_t number) {
    if (number == JSIOCGCORR)
        return ABS_CNT * sizeof(struct js_corr);
    if (is_by_value(number) || !(_IOC_DIR(number) & _IOC_READ))
        return 0;
    return _IOC_SIZE(number) > sizeof(uint32_t) ? _IOC_SIZE(number) : sizeof(uint32_t);
}

/* A mask stands where the program's struct says, so the struct is looked at here. */
static int mask_request(int descriptor, uint32_t number, const void *argument) {
    struct input_mask mask;
    if (!copy_from_program(&mask, argument, sizeof mask))
        return -EFAULT;
    char *codes = (char *)(uintptr_t)mask.codes_ptr;
    uint32_t kept = mask_bytes(mask.type), size = mask.codes_size;
    struct question question = {.request = {.kind = ASK_IOCTL, .number = number}, .brings = descriptor};
    question.sent[question.sent_count++] = (struct iovec){&mask, sizeof mask};
    if (number == (uint32_t)EVIOCSMASK)
        question.sent[question.sent_count++] = (struct iovec){codes, size < kept ? size : kept};
    else
        question.answer = (struct iovec){codes, size < PAYLOAD_MAX ? size : PAYLOAD_MAX};
    return ask(&question);
}

/* UI_SET_PHYS: a text, and no struct. */
static int text_request(int descriptor, uint32_t number, const char *argument) {
    char text[TEXT_MOST];
    long length = copy_text_from_program(text, argument, sizeof text);
    if (length < 0)
        return (int)length;
    struct question question = {
        .request = {.kind = ASK_IOCTL, .number = number}, .brings = descriptor, .sent_count = 1};
    question.sent[0] = (struct iovec){text, (size_t)length};
    return ask(&question);
}

static int node_request(int descriptor, uint32_t number, void *argument) {
    if (number == (uint32_t)EVIOCGMASK || number == (uint32_t)EVIOCSMASK)
        return mask_request(descriptor, number, argument);
    if (number == (uint32_t)UI_SET_PHYS)
        return text_request(descriptor, number, argument);
    if (number == TCGETS)
        return -EINVAL; /* (asked by who wants to know whether it is a terminal) */
    struct question question = {.request = {.kind = ASK_IOCTL, .number = number}, .brings = descriptor};
    question.request.flags = is_by_value(number) && argument;
    question.request.value = (uintptr_t)argument < UINT32_MAX ? (uint32_t)(uintptr_t)argument : UINT32_MAX;
    question.sent[0] = (struct iovec){argument, bytes_sent(number)};
    question.sent_count = bytes_sent(number) > 0;
    if (answer_room(number)) /* (else the argument is no place, and may be anything) */
        question.answer = (struct iovec){argument, answer_room(number)};
    return ask(&question);
}

/* Those that the kernel answers for any file, whatever it is. */
static bool is_of_any_file(uint32_t number) {
    return number == FIONBIO || number == FIOASYNC || number == FIOCLEX || number == FIONCLEX;
}

EXPORT int ioctl(int descriptor, unsigned long request, ...) {
    REAL(ioctl);
    va_list words;
    va_start(words, request);
    void *argument = va_arg(words, void *);
    va_end(words);
    uint32_t number = (uint32_t)request;
    if (node_of_descriptor(descriptor) < 0 || is_of_any_file(number))
        return real(descriptor, request, argument);
    return (int)with_errno(node_request(descriptor, number, argument));
}
