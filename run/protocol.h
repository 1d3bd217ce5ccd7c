/*
 * What a program's shim and the server say to each other.
 *
 * One request and one answer, each a message of a SOCK_SEQPACKET connection. A request about an open file
 * brings the program's descriptor along (SCM_RIGHTS). So the server knows which open file is meant by what
 * the descriptor is, in any process, and can take back the byte that says "events are there". The answer to
 * an open brings the new descriptor.
 */
#ifndef INPUTPLAY_RUN_PROTOCOL_H
#define INPUTPLAY_RUN_PROTOCOL_H

#include <linux/input.h>
#include <linux/uinput.h>
#include <stdbool.h>
#include <stdint.h>
#include <sys/ioctl.h>

/** The server's socket, in the folder of a run. */
#define SOCKET_NAME "socket"

/** The server's end of an open file is bound to the abstract name PEER_PREFIX RUN "/" SERIAL "/" NODE, each
 * in hexadecimal. */
#define PEER_PREFIX "inputplay-run/"

enum protocol_limit {
    PROTOCOL_MAGIC = 0x31504e49,
    PAYLOAD_MAX = 4096 * 24, /**< The most bytes behind a request or an answer. */
    DEVICES = 32,            /**< Devices of a run: those of the record, and those that programs make. */
    ANSWER_SECONDS = 5,      /**< A server that says nothing for so long is taken for dead. */
    MASK_BYTES = KEY_CNT / 8 /**< The longest mask of a client. */
};

/** What kind of file a node is. */
enum node_kind {
    NODE_EVENT = 0,
    NODE_JOYSTICK = 1,
    NODE_UINPUT = 2,
    NODE_TIMER = 3, /**< No file has it: timerfd_create() opens one, where time is virtual. */
    NODE_KINDS = 4
};

enum request_kind {
    ASK_OPEN = 1,  /**< node, flags: those of open(); payload, of /dev/uinput: where the folder sys of the
                      program stands  in truth. */
    ASK_READ = 2,  /**< room: how many bytes are wanted. */
    ASK_WRITE = 3, /**< The payload is what is written. */
    ASK_IOCTL = 4, /**< number; flags: 1 where its argument is a value and not 0; value: that value; payload:
                      what the kernel would read. */
    ASK_WAIT = 5,  /**< The program is going to wait; with a descriptor where it waits for one. Payload, where
                      time is virtual: a uint64_t, the moment up to which it waits, UINT64_MAX: for ever. The
                      answer comes at that moment then. */
    ASK_CANCEL = 6, /**< It waits no longer. Both have one answer together. */
    ASK_BEGIN = 7 /**< value: a process that begins, where time is virtual; 0: the one that asks. There is no
                     answer. */
};

struct request {
    uint32_t magic;
    uint32_t kind;
    int32_t node;
    uint32_t flags;
    uint32_t number;
    uint32_t length; /**< Of the payload. */
    uint32_t room;
    uint32_t value;
};

struct answer {
    int32_t result;  /**< As of the system call, or a negative errno. */
    uint32_t signal; /**< 0, or a signal that the program sends itself, since the record has ended. */
    uint32_t length; /**< Of the payload. */
    uint32_t reserved;
};

/** The file in the folder of a run that has the virtual clock. */
#define CLOCK_NAME "clock"

/** The virtual clock, in microseconds: the monotonic one, and how far the others are ahead of it. */
struct virtual_clock {
    uint64_t now, realtime_ahead, boottime_ahead;
};

/** What a virtual timer is set to, in microseconds. */
struct timer_setting {
    uint64_t value, interval;
    uint64_t is_absolute;
};

/** Requests of a virtual timer: it is set, and answers what it was set to before; it is asked for. */
#define TIMER_SET _IOWR('i', 1, struct timer_setting)
#define TIMER_GET _IOR('i', 2, struct timer_setting)

/** The number of a run in the names of its ends, by its folder (FNV-1a). */
static inline uint64_t run_number(const char *folder) {
    uint64_t number = UINT64_C(0xcbf29ce484222325);
    for (; *folder; folder++)
        number = (number ^ (uint8_t)*folder) * UINT64_C(0x100000001b3);
    return number;
}

/** The number of a node: of its kind and its device. */
static inline int32_t node_number(enum node_kind kind, int device) {
    return (int32_t)kind * DEVICES + device;
}

static inline enum node_kind kind_of_node(int32_t node) {
    return (enum node_kind)(node / DEVICES);
}

static inline int device_of_node(int32_t node) {
    return node % DEVICES;
}

/** The node by which programs make devices; there is one of a run. */
static inline int32_t maker_node(void) {
    return node_number(NODE_UINPUT, 0);
}

/** The node of virtual timers of a clock. */
static inline int32_t timer_node(int clock) {
    return node_number(NODE_TIMER, clock);
}

/** Whether an ioctl sets a bit of a device that is made (UI_SET_EVBIT and on). */
static inline bool is_bit_request(uint32_t number) {
    bool has_form = (number & ~(uint32_t)_IOC_NRMASK) == (UI_SET_EVBIT & ~(uint32_t)_IOC_NRMASK);
    return has_form && _IOC_NR(number) >= _IOC_NR(UI_SET_EVBIT) && _IOC_NR(number) <= _IOC_NR(UI_SET_PROPBIT);
}

/** Whether an ioctl's argument is a value, and no place. */
static inline bool is_by_value(uint32_t number) {
    return number == (uint32_t)EVIOCRMFF || number == (uint32_t)EVIOCGRAB ||
           number == (uint32_t)EVIOCREVOKE || is_bit_request(number);
}

/** How many bytes an ioctl reads where its argument points to. (The number of EVIOCGMTSLOTS does not say, and
 * UI_SET_PHYS reads a text.) */
static inline uint32_t bytes_sent(uint32_t number) {
    if (_IOC_TYPE(number) == 'E' && _IOC_NR(number) == _IOC_NR(EVIOCGMTSLOTS(0)) &&
        _IOC_DIR(number) == _IOC_READ)
        return sizeof(uint32_t);
    bool is_read = _IOC_DIR(number) & _IOC_WRITE || number == (uint32_t)EVIOCGMASK;
    bool is_text = number == (uint32_t)UI_SET_PHYS;
    return is_read && !is_text && !is_by_value(number) ? _IOC_SIZE(number) : 0;
}

/** How many bytes the kernel keeps of a client's mask of a type, or of the mask of types (EV_SYN); 0: there
 * is no such mask. */
static inline uint32_t mask_bytes(uint32_t type) {
    bool has_no_mask = (type > EV_SW && type < EV_LED) || type == EV_REP || type > EV_FF;
    return has_no_mask ? 0 : type == EV_KEY ? MASK_BYTES : type == EV_FF ? FF_CNT / 8 : 8;
}

#endif
