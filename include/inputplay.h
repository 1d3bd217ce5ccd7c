/**
 * @file inputplay.h
 * An input device and its reader, in memory.
 *
 * A device answers each call as evdev does: what it passes, queues, loses, grabs and masks. A reader stands beside it that
 * keeps a state and synchronises after a loss, as libevdev does. That each answer is the right one is proved; what C owes in
 * return is not checked, and is this:
 *
 * - A pointer is NULL only where the count beside it is 0, or at inputplay_free(). Each other is aligned and points to as much
 *   as the count says.
 * - Two pointers of one call never overlap.
 * - A handle begins as INPUTPLAY_NOTHING. It is not copied, and only the calls below change it.
 * - A handle is used by one call at a time. It may go from thread to thread, where each call is over before the next one
 *   begins, as under a lock. Two handles are used on two threads freely.
 * - inputplay_free() gives back what a handle keeps, once for each making. A second free does nothing.
 * - malloc(), realloc() and free() are those of one allocator, which any thread may call, and no call comes from a signal
 *   handler.
 *
 * Each call answers one of the statuses that its comment lists, and no other. After another one than INPUTPLAY_OK the handle
 * is as it was, and nothing is written but what the call says of it.
 *
 * Moments are microseconds, at most INPUTPLAY_MOMENT_MAX. Types, codes and values are those of <linux/input-event-codes.h>.
 */
#ifndef INPUTPLAY_H
#define INPUTPLAY_H

#include <stddef.h>
#include <stdint.h>

#ifdef __cplusplus
extern "C" {
#endif

/** The version of this interface. It rises when a struct, a number or a meaning changes; compare it with inputplay_abi(). */
#define INPUTPLAY_ABI 2

/** The greatest moment, in microseconds. */
#define INPUTPLAY_MOMENT_MAX UINT64_C(9000000000000000)

/** The most clients that a device has open at once. */
#define INPUTPLAY_CLIENTS_MAX 64u

/** The most events that one INPUTPLAY_READ may ask for. */
#define INPUTPLAY_READ_MAX 4096u

/** The most events that wait for the owner of a device. */
#define INPUTPLAY_FEEDBACK_MAX 15u

/** The most filters of a device. */
#define INPUTPLAY_FILTERS_MAX 8u

/** The client of a reader or a joystick client that has opened none. */
#define INPUTPLAY_NO_CLIENT UINT32_MAX

/** The number in place of a step's, of a line of a record that makes no step or more than one. No step has it. */
#define INPUTPLAY_NO_STEP UINT32_MAX

/** The statuses of calls. */
enum {
    INPUTPLAY_OK = 0,           /**< The call was made. */
    INPUTPLAY_REFUSED = 1,      /**< The text is no record, or no device has such a description. */
    INPUTPLAY_BAD_ARGUMENT = 2, /**< A number is none that the call has, or an array is too short. */
    INPUTPLAY_BAD_STREAM = 3,   /**< The bytes are no stream. */
    INPUTPLAY_NO_MEMORY = 5,    /**< Memory ran out. */
    INPUTPLAY_TOO_LONG = 7,     /**< The text is too long. */
    INPUTPLAY_BAD_HANDLE = 8,   /**< The handle keeps nothing, or something of another kind. */
    INPUTPLAY_IN_USE = 9        /**< The handle keeps something. */
};

/** Why a line of a record is refused, as docs/FORMATS.md has it. */
enum {
    INPUTPLAY_NOT_TEXT = 1,
    INPUTPLAY_BAD_HEADER = 2,
    INPUTPLAY_BAD_LINE = 3,
    INPUTPLAY_OUT_OF_PLACE = 4,
    INPUTPLAY_NO_ACTOR = 5,
    INPUTPLAY_BAD_COMMAND = 6,
    INPUTPLAY_BAD_WORD = 7,
    INPUTPLAY_TWICE = 8,
    INPUTPLAY_TOO_MANY_LINES = 9,
    INPUTPLAY_LINE_BAD_CODE = 10,
    INPUTPLAY_BAD_AXIS = 11,
    INPUTPLAY_BAD_SLOTS = 12,
    INPUTPLAY_BAD_HINT = 13,
    INPUTPLAY_BAD_LOG = 14,
    INPUTPLAY_BAD_OFFSET = 15,
    INPUTPLAY_BAD_FILTER = 16,
    INPUTPLAY_LINE_BAD_STREAM = 17 /**< It is of a stream, and comes of no text. */
};

/** The filters of a device, with the fields of inputplay_filter_t that each reads. */
enum {
    INPUTPLAY_EAT = 0,      /**< type, code: each event of them is eaten. */
    INPUTPLAY_NOREPEAT = 1, /**< each autorepeat is eaten. */
    INPUTPLAY_CHORD = 2,    /**< code, second: the holds of the second key that start while the first one is down are eaten. */
    INPUTPLAY_BOUNCE = 3    /**< code, micros: the holds of a key that start sooner after a release are eaten. */
};

/** The steps of a device, with the fields of inputplay_step_t that each reads. */
enum {
    INPUTPLAY_INJECT = 0,        /**< type, code, value, now: the driver injects an event. */
    INPUTPLAY_TICK = 1,          /**< now: the timer of the autorepeat may fire. */
    INPUTPLAY_OPEN = 2,          /**< a client is opened (open). */
    INPUTPLAY_CLOSE = 3,         /**< client (close). */
    INPUTPLAY_READ = 4,          /**< client, count: at most so many events are read (read). */
    INPUTPLAY_DISCARD = 5,       /**< client: what is visible is removed, unread. */
    INPUTPLAY_GET_KEYS = 6,      /**< client (EVIOCGKEY). */
    INPUTPLAY_GET_SWITCHES = 7,  /**< client (EVIOCGSW). */
    INPUTPLAY_GET_LEDS = 8,      /**< client (EVIOCGLED). */
    INPUTPLAY_GET_SOUNDS = 9,    /**< client (EVIOCGSND). */
    INPUTPLAY_GET_AXIS = 10,     /**< client, code (EVIOCGABS). */
    INPUTPLAY_SET_AXIS = 11,     /**< client, code, info (EVIOCSABS). */
    INPUTPLAY_GET_SLOTS = 12,    /**< client, code: one value of each slot (EVIOCGMTSLOTS). */
    INPUTPLAY_SYNC_SLOTS = 13,   /**< client: all values of all slots, 14 a slot. */
    INPUTPLAY_WRITE = 14,        /**< client, type, code, value, now (write). */
    INPUTPLAY_GRAB = 15,         /**< client (EVIOCGRAB 1). */
    INPUTPLAY_UNGRAB = 16,       /**< client (EVIOCGRAB 0). */
    INPUTPLAY_MASK = 17,         /**< client, type, code (the word of the mask), bits (EVIOCSMASK). */
    INPUTPLAY_CLOCK = 18,        /**< client, clock (0 realtime, 1 monotonic, 7 boottime), now (EVIOCSCLOCKID). */
    INPUTPLAY_REVOKE = 19,       /**< client (EVIOCREVOKE). */
    INPUTPLAY_INHIBIT = 20,      /**< now: the device is inhibited. */
    INPUTPLAY_UNINHIBIT = 21,    /**< the device is no longer inhibited. */
    INPUTPLAY_END = 22           /**< a source is done. */
};

/** The replies to steps, with the fields of inputplay_reply_t that each sets beside reply and at; all others are 0. */
enum {
    INPUTPLAY_DONE = 0,
    INPUTPLAY_OPENED = 1,      /**< client, count: the places of its ring. */
    INPUTPLAY_TOOK = 2,        /**< count: so many events stand at the front of the array. */
    INPUTPLAY_DISCARDED = 3,   /**< count. */
    INPUTPLAY_BITS = 4,        /**< words: bit i of the 768 for code i. */
    INPUTPLAY_AXIS = 5,        /**< info. */
    INPUTPLAY_CELLS = 6,       /**< count: so many values stand at the front of the array; slot: the one announced last. */
    INPUTPLAY_AGAIN = 7,       /**< count: how many sources are done (-EAGAIN). */
    INPUTPLAY_STEP_REFUSED = 8 /**< why. */
};

/** Why a step was refused. */
enum {
    INPUTPLAY_BAD_CLIENT = 1,
    INPUTPLAY_NO_DEVICE = 2,
    INPUTPLAY_BAD_KIND = 3,
    INPUTPLAY_BAD_CODE = 4,
    INPUTPLAY_BAD_INFO = 5,
    INPUTPLAY_BUSY = 6,
    INPUTPLAY_NOT_GRABBER = 7,
    INPUTPLAY_TOO_MANY = 8,
    INPUTPLAY_LOG_FULL = 9,
    INPUTPLAY_STEP_NO_MEMORY = 10
};

/** How the reader is asked for its next event. */
enum {
    INPUTPLAY_NORMAL = 0, /**< LIBEVDEV_READ_FLAG_NORMAL. */
    INPUTPLAY_SYNC = 1    /**< LIBEVDEV_READ_FLAG_SYNC. */
};

/** What the reader answers. */
enum {
    INPUTPLAY_NEXT_EVENT = 0,     /**< An event of the device (LIBEVDEV_READ_STATUS_SUCCESS). */
    INPUTPLAY_NEXT_DROPPED = 1,   /**< SYN_DROPPED: ask with INPUTPLAY_SYNC next (LIBEVDEV_READ_STATUS_SYNC). */
    INPUTPLAY_NEXT_SYNC = 2,      /**< A synthesised event, without a time and a place (LIBEVDEV_READ_STATUS_SYNC). */
    INPUTPLAY_NEXT_AGAIN = 3,     /**< Nothing is there (-EAGAIN). */
    INPUTPLAY_NEXT_SYNCED = 4,    /**< Nothing is left to synchronise (-EAGAIN). */
    INPUTPLAY_NEXT_NO_DEVICE = 5, /**< The client was revoked (-ENODEV). */
    INPUTPLAY_NEXT_CLOSED = 6,    /**< The client is not open. */
    INPUTPLAY_NEXT_FULL = 7       /**< The history is as long as it may be. */
};

/** What the joystick client answers. */
enum {
    INPUTPLAY_JOY_RECORD = 0,    /**< A record was handed out. */
    INPUTPLAY_JOY_FRAME = 1,     /**< A frame ended (SYN_REPORT). */
    INPUTPLAY_JOY_AGAIN = 2,     /**< Nothing is there (-EAGAIN). */
    INPUTPLAY_JOY_NO_DEVICE = 3, /**< The client was revoked (-ENODEV). */
    INPUTPLAY_JOY_CLOSED = 4,    /**< The client is not open. */
    INPUTPLAY_JOY_FULL = 5,      /**< The history is as long as it may be. */
    INPUTPLAY_JOY_MORE = 6       /**< Many calls were made and none gave an answer; the next read goes on. */
};

/** The roles of actors of a record (docs/FORMATS.md). */
enum {
    INPUTPLAY_SOURCE = 0,   /**< It injects events, as a driver does. */
    INPUTPLAY_CLIENT = 1,   /**< It reads by a reader. */
    INPUTPLAY_TAP = 2,      /**< It makes a client's calls one by one. */
    INPUTPLAY_JOYSTICK = 3, /**< It reads by a joystick client. */
    INPUTPLAY_OWNER = 4     /**< It takes what is sent to a device that was made by requests. */
};

/** The commands of action lines of a record, and the step of inputplay_line_t that each has (docs/RUNS.md, "Jobs"). */
enum {
    INPUTPLAY_DO_EVENT = 0,       /**< INPUTPLAY_INJECT. */
    INPUTPLAY_DO_TICK = 1,        /**< INPUTPLAY_TICK. */
    INPUTPLAY_DO_INHIBIT = 2,     /**< INPUTPLAY_INHIBIT. */
    INPUTPLAY_DO_UNINHIBIT = 3,   /**< INPUTPLAY_UNINHIBIT. */
    INPUTPLAY_DO_STREAM = 4,      /**< None: the events of inputplay_record_events() are injected. */
    INPUTPLAY_DO_STREAM16 = 5,    /**< None: likewise. */
    INPUTPLAY_DO_OPEN = 6,        /**< INPUTPLAY_OPEN; by a client or a joystick its start instead. */
    INPUTPLAY_DO_CLOSE = 7,       /**< INPUTPLAY_CLOSE. */
    INPUTPLAY_DO_GRAB = 8,        /**< INPUTPLAY_GRAB. */
    INPUTPLAY_DO_UNGRAB = 9,      /**< INPUTPLAY_UNGRAB. */
    INPUTPLAY_DO_REVOKE = 10,     /**< INPUTPLAY_REVOKE. */
    INPUTPLAY_DO_MASK = 11,       /**< INPUTPLAY_MASK. */
    INPUTPLAY_DO_CLOCK = 12,      /**< INPUTPLAY_CLOCK. */
    INPUTPLAY_DO_WRITE = 13,      /**< INPUTPLAY_WRITE. */
    INPUTPLAY_DO_SET_AXIS = 14,   /**< INPUTPLAY_SET_AXIS. */
    INPUTPLAY_DO_READ = 15,       /**< INPUTPLAY_READ; by a joystick so many records instead. */
    INPUTPLAY_DO_DISCARD = 16,    /**< INPUTPLAY_DISCARD. */
    INPUTPLAY_DO_KEYS = 17,       /**< INPUTPLAY_GET_KEYS. */
    INPUTPLAY_DO_SWITCHES = 18,   /**< INPUTPLAY_GET_SWITCHES. */
    INPUTPLAY_DO_LEDS = 19,       /**< INPUTPLAY_GET_LEDS. */
    INPUTPLAY_DO_SOUNDS = 20,     /**< INPUTPLAY_GET_SOUNDS. */
    INPUTPLAY_DO_SYNC_SLOTS = 21, /**< INPUTPLAY_SYNC_SLOTS. */
    INPUTPLAY_DO_AXIS = 22,       /**< INPUTPLAY_GET_AXIS. */
    INPUTPLAY_DO_SLOTS = 23,      /**< INPUTPLAY_GET_SLOTS. */
    INPUTPLAY_DO_NEXT = 24,       /**< None: inputplay_reader_next(), until it handed out so many events. */
    INPUTPLAY_DO_SKIP = 25,       /**< None: likewise, by INPUTPLAY_NORMAL alone. */
    INPUTPLAY_DO_FOLLOW = 26,     /**< None: inputplay_reader_next(), until nothing is there. */
    INPUTPLAY_DO_FORCE = 27,      /**< None: inputplay_reader_force_sync(). */
    INPUTPLAY_DO_FEEDBACK = 28    /**< None: inputplay_feedback() with room for so many events. */
};

/**
 * What is kept: a device with its reader and joystick client, or a record with its text. It begins as INPUTPLAY_NOTHING.
 */
typedef struct inputplay_handle_t {
    uint32_t kind; /**< 0 nothing, 1 a device, 2 a record. */
    void *at; /**< The library's own. */
} inputplay_handle_t;

/** A handle that keeps nothing, where a handle is declared: `inputplay_handle_t h = INPUTPLAY_NOTHING;`. */
#define INPUTPLAY_NOTHING { 0, NULL }

/**
 * The same, to assign: `h = inputplay_nothing();`. What h kept is freed before, or it is lost.
 *
 * @return a handle that keeps nothing
 */
static inline inputplay_handle_t inputplay_nothing(void) {
    inputplay_handle_t nothing = INPUTPLAY_NOTHING;
    return nothing;
}

/** An axis (struct input_absinfo). */
typedef struct inputplay_info_t {
    int32_t value; /**< Its value. */
    int32_t minimum; /**< The least one. */
    int32_t maximum; /**< The greatest one. */
    int32_t fuzz; /**< How small a change is that is filtered out. */
    int32_t flat; /**< What a joystick takes for the middle. */
    int32_t resolution; /**< Units a millimetre, or a radian. */
} inputplay_info_t;

/** A filter: its number, and what it takes. Fields that it does not read may have any value. */
typedef struct inputplay_filter_t {
    uint32_t filter; /**< From INPUTPLAY_EAT on. */
    uint32_t micros; /**< How long after a release, 1 to 1,000,000. */
    uint16_t type; /**< The type of what is eaten. */
    uint16_t code; /**< What is eaten, or the first key of a chord, or the key that bounces. */
    uint16_t second; /**< The second key of a chord. */
    uint16_t padding; /**< Not read. */
} inputplay_filter_t;

/**
 * What a device is, as evdev tells it: the words of bits are those of EVIOCGBIT, and the axes those of EVIOCGABS. Bit k of
 * word w is the code 64 * w + k. One of zeros is a device with EV_SYN alone.
 */
typedef struct inputplay_description_t {
    uint64_t types; /**< Types beside those of the codes, as EV_REP. EV_SYN is always there. */
    uint64_t keys[12]; /**< The codes of EV_KEY, from 1 on. */
    uint64_t relatives; /**< The codes of EV_REL. */
    uint64_t axes; /**< The codes of EV_ABS. */
    uint64_t miscs; /**< The codes of EV_MSC. */
    uint64_t switches; /**< The codes of EV_SW. */
    uint64_t leds; /**< The codes of EV_LED. */
    uint64_t sounds; /**< The codes of EV_SND. */
    inputplay_info_t infos[64]; /**< Each axis by its code. One whose bit is not set is not read. */
    uint32_t slots; /**< How many slots, 1 to 256; 0 for none. */
    uint32_t hint; /**< How many events a frame may gather, 2 to 512; 0 for 16. */
    uint32_t log; /**< How many steps the history may have, 1 to 8,388,608; 0 for 1,048,576. */
    uint32_t filter_count; /**< How many filters there are, at most INPUTPLAY_FILTERS_MAX. */
    uint64_t realtime; /**< How far the realtime clock is ahead of the moments. */
    uint64_t boottime; /**< How far the boottime clock is. */
    inputplay_filter_t filters[8]; /**< The filters, each of which is given what the one before it left. */
} inputplay_description_t;

/** A step: its number, and what it takes. Fields that it does not read may have any value, but now. */
typedef struct inputplay_step_t {
    uint32_t step; /**< From INPUTPLAY_INJECT on. */
    uint32_t client; /**< A client's number. */
    uint16_t type; /**< An event's type, or a mask's. */
    uint16_t code; /**< An event's code, or an axis, or which word of a mask. */
    int32_t value; /**< An event's value. */
    uint64_t now; /**< The moment. */
    uint32_t count; /**< How many events are read at most. */
    uint32_t clock; /**< 0, 1 or 7. */
    uint64_t bits; /**< A word of a mask. */
    inputplay_info_t info; /**< What an axis is set to. */
} inputplay_step_t;

/** A reply. `at` is the step's place in the history, or where it was not entered the history's length. */
typedef struct inputplay_reply_t {
    uint32_t reply; /**< From INPUTPLAY_DONE on. */
    uint32_t at; /**< A place in the history. */
    uint32_t client; /**< The number of the client that was opened. */
    uint32_t count; /**< How many there are. */
    int32_t slot; /**< The slot that was announced last. */
    uint32_t why; /**< Why the step was refused, from INPUTPLAY_BAD_CLIENT on. */
    uint64_t words[12]; /**< Bits. */
    inputplay_info_t info; /**< An axis. */
} inputplay_reply_t;

/** An event as a client reads it: when its frame ended, and the place in the history of the step that ended it. */
typedef struct inputplay_event_t {
    uint16_t type; /**< Its type. */
    uint16_t code; /**< Its code. */
    int32_t value; /**< Its value. */
    uint64_t time; /**< When its frame ended. */
    uint32_t place; /**< The place of the step that ended its frame. */
} inputplay_event_t;

/** An event with its moment. */
typedef struct inputplay_stamped_t {
    uint16_t type; /**< Its type. */
    uint16_t code; /**< Its code. */
    int32_t value; /**< Its value. */
    uint64_t now; /**< The moment. */
} inputplay_stamped_t;

/** A client of a device, as it stands. */
typedef struct inputplay_client_t {
    uint32_t clock; /**< By which its events have their times: 0 realtime, 1 monotonic, 7 boottime. */
    uint32_t revoked; /**< 1 where it was revoked, else 0. */
    uint32_t grabs; /**< 1 where it holds the grab, else 0. */
} inputplay_client_t;

/** The numbers of a device's description. */
typedef struct inputplay_limits_t {
    uint32_t slots; /**< How many slots it has. */
    uint32_t hint; /**< How many events a frame may gather. */
    uint32_t log; /**< How many steps its history may have. */
    uint32_t ring; /**< How many places the ring of a client has. */
    uint64_t realtime; /**< How far the realtime clock is ahead of the moments, in microseconds. */
    uint64_t boottime; /**< How far the boottime clock is ahead of them. */
} inputplay_limits_t;

/** The autorepeat of a device: its settings, and its timer. */
typedef struct inputplay_repeat_t {
    int32_t delay; /**< Milliseconds from a press to the first repeat (REP_DELAY). */
    int32_t period; /**< Milliseconds from one repeat to the next (REP_PERIOD). */
    uint32_t armed; /**< 1 where the timer is armed, else 0. */
    uint32_t key; /**< The key that it was last armed for; 0 before any. */
    uint64_t due; /**< The moment from which on an INPUTPLAY_TICK fires it; 0 where it is not armed. */
} inputplay_repeat_t;

/** How the buttons and axes of a joystick client stand: bit k of the 64 for button k, and the value of each axis. */
typedef struct inputplay_picture_t {
    uint64_t buttons; /**< Bit k for button k. */
    int16_t axes[64]; /**< The value of each axis. */
} inputplay_picture_t;

/** How much a record has. */
typedef struct inputplay_counts_t {
    uint32_t devices; /**< How many devices. */
    uint32_t actors; /**< How many actors. */
    uint32_t lines; /**< How many action lines. */
} inputplay_counts_t;

/** An action line of a record. */
typedef struct inputplay_line_t {
    uint32_t actor; /**< The number of its actor. */
    uint32_t command; /**< From INPUTPLAY_DO_EVENT on. */
    uint32_t count; /**< The number behind read, next, skip or feedback; 0 for other commands. */
    inputplay_step_t step; /**< The step that the command makes, with client 0, or INPUTPLAY_NO_STEP and zeros. */
} inputplay_line_t;

/* Before 30 November 2026 these structs had no _t. Their older names stand for sources of that time. */
typedef inputplay_handle_t inputplay_handle; /**< Its older name. */
typedef inputplay_info_t inputplay_info; /**< Its older name. */
typedef inputplay_reply_t inputplay_reply; /**< Its older name. */
typedef inputplay_event_t inputplay_event; /**< Its older name. */
typedef inputplay_stamped_t inputplay_stamped; /**< Its older name. */
typedef inputplay_picture_t inputplay_picture; /**< Its older name. */

/**
 * What a status says, for people.
 *
 * @param status the answer of a call
 *
 * @return a static string, also for a number that is no status
 */
static inline const char *inputplay_status_text(uint32_t status) {
    static const char *const texts[] = {
        "the call was made", "the text or the struct is refused", "bad argument", "the bytes are no stream", "unknown status",
        "out of memory", "unknown status", "the text is too long", "the handle keeps nothing of that kind",
        "the handle is in use",
    };
    return status < sizeof texts / sizeof *texts ? texts[status] : "unknown status";
}

/**
 * Why a line of a record is refused, in the word that the program prints: "bad-line" for INPUTPLAY_BAD_LINE.
 *
 * @param cause what inputplay_device_new() or inputplay_record_new() wrote
 *
 * @return a static string, also for 0 and for a number that is no cause
 */
static inline const char *inputplay_cause_text(uint32_t cause) {
    static const char *const texts[] = {
        "no cause", "not-text", "bad-header", "bad-line", "out-of-place", "no-actor", "bad-command", "bad-word", "twice",
        "too-many", "bad-code", "bad-axis", "bad-slots", "bad-hint", "bad-log", "bad-offset", "bad-filter", "bad-stream",
    };
    return cause < sizeof texts / sizeof *texts ? texts[cause] : "unknown cause";
}

/**
 * Why a step was refused, in the word that the program prints: "busy" for INPUTPLAY_BUSY.
 *
 * @param why what a call wrote, or a reply has
 *
 * @return a static string, also for 0 and for a number that is no cause
 */
static inline const char *inputplay_why_text(uint32_t why) {
    static const char *const texts[] = {
        "no cause", "bad-client", "no-device", "bad-kind", "bad-code", "bad-info", "busy", "not-grabber", "too-many",
        "log-full", "no-memory",
    };
    return why < sizeof texts / sizeof *texts ? texts[why] : "unknown cause";
}

/**
 * The version of the library that is linked.
 *
 * @return the version of the library's interface, to be compared with INPUTPLAY_ABI before any other call.
 */
uint32_t inputplay_abi(void);

/**
 * Makes the device of a record's text that has this number, from 0, with a history that is empty and a reader that has not
 * started. The actors and the actions of the text are not used.
 *
 * @param text the text of the record
 * @param text_len how many bytes it has, at most 16 MiB
 * @param number which device of the text, from 0
 * @param[in,out] handle one that keeps nothing
 * @param[out] line the first line of the text that has no meaning, from 1; 0 where the answer is not INPUTPLAY_REFUSED
 * @param[out] cause why it has none, by INPUTPLAY_NOT_TEXT and those behind it; 0 likewise
 *
 * @return INPUTPLAY_OK, INPUTPLAY_REFUSED, INPUTPLAY_BAD_ARGUMENT (there is no such device), INPUTPLAY_TOO_LONG,
 * INPUTPLAY_IN_USE or INPUTPLAY_NO_MEMORY
 */
uint32_t inputplay_device_new(const uint8_t *text, size_t text_len, uint32_t number, inputplay_handle_t *handle,
                              uint32_t *line, uint32_t *cause);

/**
 * Makes the device that a struct describes. It is that of a text with the same lines, and is refused for the same causes:
 *
 * - INPUTPLAY_LINE_BAD_CODE: a bit of a type that no device has, of key 0, or of a code above its type's greatest;
 * - INPUTPLAY_BAD_AXIS: a fuzz that is not in 0 to 2^30, a value other than 0 of a multi-touch axis, or a fuzz of ABS_MT_SLOT
 *   or ABS_MT_TRACKING_ID;
 * - INPUTPLAY_BAD_SLOTS, INPUTPLAY_BAD_HINT, INPUTPLAY_BAD_LOG, INPUTPLAY_BAD_OFFSET: a number out of its range;
 * - INPUTPLAY_BAD_FILTER: more than INPUTPLAY_FILTERS_MAX filters, a number that is no filter's, or microseconds that are not
 *   in 1 to 1,000,000; INPUTPLAY_LINE_BAD_CODE: a filter of such a code, or of a chord of one key twice.
 *
 * Where there are more than one, it is the first in this order; of filters that are refused the first one counts. Of axes
 * whose values belong to slots the value that EVIOCGABS answers need not be 0, and is to be cleared. With slots a device has
 * ABS_MT_SLOT and ABS_MT_TRACKING_ID, too; where their bits are not set they go from 0 to the last slot and to 65,535.
 *
 * @param description what the device is
 * @param[in,out] handle one that keeps nothing
 * @param[out] cause why there is no such device; 0 where the answer is not INPUTPLAY_REFUSED
 *
 * @return INPUTPLAY_OK, INPUTPLAY_REFUSED, INPUTPLAY_IN_USE or INPUTPLAY_NO_MEMORY
 */
uint32_t inputplay_device_of(const inputplay_description_t *description, inputplay_handle_t *handle, uint32_t *cause);

/**
 * Makes a step on a device. A step that the device refuses is no status: the answer is INPUTPLAY_OK, and the reply is
 * INPUTPLAY_STEP_REFUSED or INPUTPLAY_AGAIN.
 *
 * @param[in,out] handle a device's
 * @param step the step
 * @param[out] reply its reply
 * @param[out] events room for the events that an INPUTPLAY_READ reads
 * @param event_count for how many there is room: at least for as many as are asked for
 * @param[out] cells room for the values of slots
 * @param cell_count for how many there is room: for 14 a slot where slots are asked for
 *
 * @return INPUTPLAY_OK, INPUTPLAY_BAD_HANDLE, or INPUTPLAY_BAD_ARGUMENT: no step has this number or this clock, the moment is
 * too late, an array is too short, or more than INPUTPLAY_READ_MAX events are asked for
 */
uint32_t inputplay_step(inputplay_handle_t *handle, const inputplay_step_t *step, inputplay_reply_t *reply,
                        inputplay_event_t *events, size_t event_count, int32_t *cells, size_t cell_count);

/**
 * Injects one event.
 *
 * @param[in,out] handle a device's
 * @param type the event's type
 * @param code its code
 * @param value its value
 * @param now the moment
 * @param[out] at the place of the step, or the history's length where it was refused
 * @param[out] why 0, or why the step was refused: INPUTPLAY_LOG_FULL
 *
 * @return INPUTPLAY_OK, INPUTPLAY_BAD_HANDLE or INPUTPLAY_BAD_ARGUMENT: the moment is too late
 */
uint32_t inputplay_inject(inputplay_handle_t *handle, uint16_t type, uint16_t code, int32_t value, uint64_t now, uint32_t *at,
                          uint32_t *why);

/**
 * Injects events, each at its own moment, as many of them as the history has room for. They follow each other in the history.
 *
 * @param[in,out] handle a device's
 * @param events the events
 * @param event_count how many there are, at most INPUTPLAY_READ_MAX
 * @param[out] from the place of the first one, which is the history's length before it
 * @param[out] count how many were entered
 *
 * @return INPUTPLAY_OK, INPUTPLAY_BAD_HANDLE or INPUTPLAY_BAD_ARGUMENT: a moment is too late, or there are too many; then none
 * is entered
 */
uint32_t inputplay_inject_all(inputplay_handle_t *handle, const inputplay_stamped_t *events, size_t event_count, uint32_t *from,
                              uint32_t *count);

/**
 * A client reads events, as many as are there and fit (read). It is an INPUTPLAY_READ that costs less.
 *
 * @param[in,out] handle a device's
 * @param client the client
 * @param[out] events room for the events
 * @param event_count for how many there is room, at most INPUTPLAY_READ_MAX
 * @param[out] at the place of the read, or the history's length where it was not entered
 * @param[out] count how many events stand at the front of the array. Where it is 0 and `why` is 0 nothing was there (-EAGAIN),
 * or there was no room
 * @param[out] why 0, or why the read was refused
 *
 * @return INPUTPLAY_OK, INPUTPLAY_BAD_HANDLE or INPUTPLAY_BAD_ARGUMENT: there is room for more
 */
uint32_t inputplay_read(inputplay_handle_t *handle, uint32_t client, inputplay_event_t *events, size_t event_count,
                        uint32_t *at, uint32_t *count, uint32_t *why);

/**
 * Copies the steps that the device accepted, from a place on, as many as fit. What clients read is not kept.
 *
 * @param[in,out] handle a device's
 * @param from the place of the first one, from 0
 * @param[out] steps room for the steps
 * @param step_count for how many there is room
 * @param[out] left how many there are from there on
 *
 * @return INPUTPLAY_OK, INPUTPLAY_BAD_HANDLE or INPUTPLAY_BAD_ARGUMENT: the device accepted fewer
 */
uint32_t inputplay_history(inputplay_handle_t *handle, size_t from, inputplay_step_t *steps, size_t step_count, size_t *left);

/**
 * The owner of the device takes the first of the events that wait for it (a read of /dev/uinput): what clients wrote to its
 * lights, sounds and settings. The last INPUTPLAY_FEEDBACK_MAX wait.
 *
 * @param[in,out] handle a device's
 * @param[out] events room for the events, which have no time and no place
 * @param event_count for how many there is room; as many are taken as fit
 * @param[out] at the history's length
 * @param[out] count how many were taken
 * @param[out] full 1 where as many calls are kept as the history may have steps; then nothing changes. Else 0
 *
 * @return INPUTPLAY_OK or INPUTPLAY_BAD_HANDLE
 */
uint32_t inputplay_feedback(inputplay_handle_t *handle, inputplay_event_t *events, size_t event_count, uint32_t *at,
                            uint32_t *count, uint32_t *full);

/**
 * How many events a client could read now: as many as an INPUTPLAY_READ would take that asks for enough. Of a client that was
 * revoked they are counted too, though its reads are refused. No call from here to inputplay_device_repeat() is a step: each
 * looks at the device and enters nothing.
 *
 * @param[in,out] handle a device's
 * @param client the client
 * @param[out] count how many
 *
 * @return INPUTPLAY_OK, INPUTPLAY_BAD_HANDLE or INPUTPLAY_BAD_ARGUMENT: the client is not open
 */
uint32_t inputplay_visible(inputplay_handle_t *handle, uint32_t client, uint32_t *count);

/**
 * The open clients that could read something now (poll): those of which inputplay_visible() tells 1 and more.
 *
 * @param[in,out] handle a device's
 * @param[out] clients room for their numbers, which ascend; as many are written as fit
 * @param client_count for how many there is room; INPUTPLAY_CLIENTS_MAX is enough
 * @param[out] count how many there are in all
 *
 * @return INPUTPLAY_OK or INPUTPLAY_BAD_HANDLE
 */
uint32_t inputplay_readable(inputplay_handle_t *handle, uint32_t *clients, size_t client_count, uint32_t *count);

/**
 * How a client stands: its clock, whether it was revoked, and whether it holds the grab.
 *
 * @param[in,out] handle a device's
 * @param client the client
 * @param[out] state how it stands
 *
 * @return INPUTPLAY_OK, INPUTPLAY_BAD_HANDLE or INPUTPLAY_BAD_ARGUMENT: the client is not open
 */
uint32_t inputplay_client(inputplay_handle_t *handle, uint32_t client, inputplay_client_t *state);

/**
 * A word of one of a client's masks (EVIOCGMASK), as an INPUTPLAY_MASK sets it: bit k is 1 where the client admits the code
 * 64 times the word and k. The mask of EV_SYN is that of the types.
 *
 * @param[in,out] handle a device's
 * @param client the client
 * @param type the type: one to EV_SW, EV_LED or EV_SND
 * @param word which word: from 0 to 11 of EV_KEY, and 0 of all others
 * @param[out] bits the word
 *
 * @return INPUTPLAY_OK, INPUTPLAY_BAD_HANDLE or INPUTPLAY_BAD_ARGUMENT: the client is not open, the type has no mask, or the
 * mask has no such word
 */
uint32_t inputplay_client_mask(inputplay_handle_t *handle, uint32_t client, uint16_t type, uint16_t word, uint64_t *bits);

/**
 * What the device supports (EVIOCGBIT): the codes of a type, or of EV_SYN its types.
 *
 * @param[in,out] handle a device's
 * @param type the type
 * @param[out] words bit i of the 768 for code i, or for type i; all 0 of a type that the device does not support
 *
 * @return INPUTPLAY_OK or INPUTPLAY_BAD_HANDLE
 */
uint32_t inputplay_device_bits(inputplay_handle_t *handle, uint16_t type, uint64_t words[12]);

/**
 * What is on: keys that are down, or switches, LEDs or sounds. It is what the device has, and not what a client was told. No
 * queue loses an event by it, as one does by an INPUTPLAY_GET_KEYS.
 *
 * @param[in,out] handle a device's
 * @param type EV_KEY, EV_SW, EV_LED or EV_SND
 * @param[out] words bit i of the 768 for code i
 *
 * @return INPUTPLAY_OK, INPUTPLAY_BAD_HANDLE or INPUTPLAY_BAD_ARGUMENT: another type
 */
uint32_t inputplay_device_state(inputplay_handle_t *handle, uint16_t type, uint64_t words[12]);

/**
 * An axis, as an INPUTPLAY_GET_AXIS tells it (EVIOCGABS): of ABS_MT_SLOT the value is the slot that was announced last, and of
 * another axis of slots it is 0.
 *
 * @param[in,out] handle a device's
 * @param code the code
 * @param[out] info the axis; zeros where the device does not have it
 *
 * @return INPUTPLAY_OK, INPUTPLAY_BAD_HANDLE or INPUTPLAY_BAD_ARGUMENT: the code is above ABS_MAX
 */
uint32_t inputplay_device_axis(inputplay_handle_t *handle, uint16_t code, inputplay_info_t *info);

/**
 * The value of a slot on an axis, as an INPUTPLAY_GET_SLOTS tells it (EVIOCGMTSLOTS). ABS_MT_TRACKING_ID is -1 where the slot
 * has no contact. No queue loses an event by it.
 *
 * @param[in,out] handle a device's
 * @param slot the slot, from 0
 * @param code the code of an axis of slots
 * @param[out] value its value
 *
 * @return INPUTPLAY_OK, INPUTPLAY_BAD_HANDLE or INPUTPLAY_BAD_ARGUMENT: the device has no such slot, or the code is none from
 * ABS_MT_TOUCH_MAJOR to ABS_MT_TOOL_Y
 */
uint32_t inputplay_device_slot(inputplay_handle_t *handle, uint32_t slot, uint16_t code, int32_t *value);

/**
 * The numbers of the device's description.
 *
 * @param[in,out] handle a device's
 * @param[out] limits the numbers
 *
 * @return INPUTPLAY_OK or INPUTPLAY_BAD_HANDLE
 */
uint32_t inputplay_device_limits(inputplay_handle_t *handle, inputplay_limits_t *limits);

/**
 * The autorepeat: the settings as they are now (EVIOCGREP), and when the timer is due. An INPUTPLAY_TICK at that moment or
 * later fires it, and one before does nothing.
 *
 * @param[in,out] handle a device's
 * @param[out] repeat the settings and the timer
 *
 * @return INPUTPLAY_OK or INPUTPLAY_BAD_HANDLE
 */
uint32_t inputplay_device_repeat(inputplay_handle_t *handle, inputplay_repeat_t *repeat);

/**
 * Opens a client for the device's reader and asks for its whole state (libevdev_set_fd). An older client of the reader is not
 * closed. No call of the reader or of the joystick client takes what waits for the device's owner.
 *
 * @param[in,out] handle a device's
 * @param[out] client the reader's client then
 * @param[out] why 0, or why a call was refused. Where that was the open the reader is as before; else it has the new client,
 * and synchronises first
 *
 * @return INPUTPLAY_OK or INPUTPLAY_BAD_HANDLE
 */
uint32_t inputplay_reader_start(inputplay_handle_t *handle, uint32_t *client, uint32_t *why);

/**
 * The reader's next event (libevdev_next_event).
 *
 * @param[in,out] handle a device's
 * @param mode INPUTPLAY_NORMAL or INPUTPLAY_SYNC
 * @param[out] event the event, where the answer has one; else it stays
 * @param[out] told which answer it is, from INPUTPLAY_NEXT_EVENT on
 *
 * @return INPUTPLAY_OK, INPUTPLAY_BAD_HANDLE or INPUTPLAY_BAD_ARGUMENT: there is no such mode
 */
uint32_t inputplay_reader_next(inputplay_handle_t *handle, uint32_t mode, inputplay_event_t *event, uint32_t *told);

/**
 * Makes the reader synchronise before its next event (LIBEVDEV_READ_FLAG_FORCE_SYNC).
 *
 * @param[in,out] handle a device's
 *
 * @return INPUTPLAY_OK or INPUTPLAY_BAD_HANDLE
 */
uint32_t inputplay_reader_force_sync(inputplay_handle_t *handle);

/**
 * What the reader knows of a key, a switch, an LED (1 or 0) or an axis (libevdev_fetch_event_value). It is what the events
 * that were handed out say, and not what the device has.
 *
 * @param[in,out] handle a device's
 * @param type the type
 * @param code the code
 * @param[out] value what it knows
 *
 * @return INPUTPLAY_OK, INPUTPLAY_BAD_HANDLE or INPUTPLAY_BAD_ARGUMENT: another type, a code above the type's greatest, or an
 * axis whose values belong to slots
 */
uint32_t inputplay_reader_value(inputplay_handle_t *handle, uint16_t type, uint16_t code, int32_t *value);

/**
 * What the reader knows of a slot (libevdev_fetch_slot_value). ABS_MT_TRACKING_ID is -1 where it has no contact.
 *
 * @param[in,out] handle a device's
 * @param slot the slot, from 0
 * @param code the code of an axis of slots
 * @param[out] value what it knows
 *
 * @return INPUTPLAY_OK, INPUTPLAY_BAD_HANDLE or INPUTPLAY_BAD_ARGUMENT: the device has no such slot, or the code is none from
 * ABS_MT_TOUCH_MAJOR to ABS_MT_TOOL_Y
 */
uint32_t inputplay_reader_slot_value(inputplay_handle_t *handle, uint32_t slot, uint16_t code, int32_t *value);

/**
 * How the reader stands.
 *
 * @param[in,out] handle a device's
 * @param[out] client its client, or INPUTPLAY_NO_CLIENT
 * @param[out] phase 0 plain, 1 it synchronises first, 2 it hands out synthesised events
 * @param[out] slot the current slot (libevdev_get_current_slot)
 *
 * @return INPUTPLAY_OK or INPUTPLAY_BAD_HANDLE
 */
uint32_t inputplay_reader_state(inputplay_handle_t *handle, uint32_t *client, uint32_t *phase, int32_t *slot);

/**
 * A call on the device that the reader made in its last start or next, in order, those answered -EAGAIN left out.
 *
 * @param[in,out] handle a device's
 * @param index which call, from 0; there are at most 64
 * @param[out] step the step
 * @param[out] reply its reply, without the events and values that were read
 *
 * @return INPUTPLAY_OK, INPUTPLAY_BAD_HANDLE or INPUTPLAY_BAD_ARGUMENT: it made fewer
 */
uint32_t inputplay_reader_call(inputplay_handle_t *handle, size_t index, inputplay_step_t *step, inputplay_reply_t *reply);

/**
 * Opens a client for the device's joystick client (an open of /dev/input/js0) and asks for its whole state. After it a startup
 * is handed out: how each button and axis stands.
 *
 * @param[in,out] handle a device's
 * @param[out] client as for inputplay_reader_start()
 * @param[out] why likewise
 *
 * @return INPUTPLAY_OK or INPUTPLAY_BAD_HANDLE
 */
uint32_t inputplay_joy_start(inputplay_handle_t *handle, uint32_t *client, uint32_t *why);

/**
 * The joystick client's next record or answer (a read of one struct js_event).
 *
 * @param[in,out] handle a device's
 * @param[out] record where a record was handed out the bytes of the struct js_event; else they stay
 * @param[out] told which answer it is, from INPUTPLAY_JOY_RECORD on
 * @param[out] place the place in the history of the step that ended a frame; 0 at another answer
 *
 * @return INPUTPLAY_OK or INPUTPLAY_BAD_HANDLE
 */
uint32_t inputplay_joy_read(inputplay_handle_t *handle, uint8_t record[8], uint32_t *told, uint32_t *place);

/**
 * How the buttons and axes stand, as the records since the last startup began tell.
 *
 * @param[in,out] handle a device's
 * @param[out] picture how they stand
 *
 * @return INPUTPLAY_OK or INPUTPLAY_BAD_HANDLE
 */
uint32_t inputplay_joy_picture(inputplay_handle_t *handle, inputplay_picture_t *picture);

/**
 * Makes a record of its text. Its stream lines have no events until inputplay_record_load() gives them.
 *
 * @param text as for inputplay_device_new()
 * @param text_len likewise
 * @param[in,out] handle likewise
 * @param[out] line likewise
 * @param[out] cause likewise
 *
 * @return INPUTPLAY_OK, INPUTPLAY_REFUSED, INPUTPLAY_TOO_LONG, INPUTPLAY_IN_USE or INPUTPLAY_NO_MEMORY
 */
uint32_t inputplay_record_new(const uint8_t *text, size_t text_len, inputplay_handle_t *handle, uint32_t *line,
                              uint32_t *cause);

/**
 * Gives a `stream` or `stream16` line the bytes of its file.
 *
 * @param[in,out] handle a record's
 * @param line which action line it is, counted from 0 over the lines that begin with `do`
 * @param bytes the bytes
 * @param byte_count how many there are
 *
 * @return INPUTPLAY_OK, INPUTPLAY_BAD_HANDLE, INPUTPLAY_BAD_ARGUMENT (the line takes no stream), INPUTPLAY_BAD_STREAM or
 * INPUTPLAY_NO_MEMORY
 */
uint32_t inputplay_record_load(inputplay_handle_t *handle, uint32_t line, const uint8_t *bytes, size_t byte_count);

/**
 * Copies the name of the file that a `stream` or `stream16` line names, as many bytes as fit, without a NUL behind it.
 *
 * @param[in,out] handle a record's
 * @param line as for inputplay_record_load()
 * @param[out] out room for the bytes
 * @param out_len for how many there is room
 * @param[out] len how many bytes the name has
 *
 * @return INPUTPLAY_OK, INPUTPLAY_BAD_HANDLE or INPUTPLAY_BAD_ARGUMENT: the line takes no stream
 */
uint32_t inputplay_record_file(inputplay_handle_t *handle, uint32_t line, uint8_t *out, size_t out_len, size_t *len);

/**
 * Plays the record on this thread, and keeps its report as the record's text: the text that `inputplay` prints of it. The
 * record stays as it is, and may be played again. A `stream` or `stream16` line whose bytes inputplay_record_load() was not
 * given has no events. That is no refusal here, where the program ends with status 3. That a history was full, which is
 * status 6 of the program, is told by the report alone.
 *
 * @param[in,out] handle a record's
 * @param history 0, or another number for the steps of each device too (`--history`)
 * @param[out] len how many bytes the report has
 *
 * @return INPUTPLAY_OK, INPUTPLAY_BAD_HANDLE or INPUTPLAY_NO_MEMORY
 */
uint32_t inputplay_record_play(inputplay_handle_t *handle, uint32_t history, size_t *len);

/**
 * Makes the record's text in the newest version (`--migrate`), and keeps it as the record's text. The record stays as it is.
 *
 * @param[in,out] handle a record's
 * @param[out] len how many bytes the text has
 *
 * @return INPUTPLAY_OK, INPUTPLAY_BAD_HANDLE or INPUTPLAY_NO_MEMORY
 */
uint32_t inputplay_record_migrate(inputplay_handle_t *handle, size_t *len);

/**
 * Copies the text that was made of a record last, from a byte on, as many bytes as fit. A record of which none was made has an
 * empty one.
 *
 * @param[in,out] handle a record's
 * @param from the first byte, from 0
 * @param[out] out room for the bytes
 * @param out_len for how many there is room
 * @param[out] left how many bytes there are from there on
 *
 * @return INPUTPLAY_OK, INPUTPLAY_BAD_HANDLE or INPUTPLAY_BAD_ARGUMENT: the text has fewer bytes
 */
uint32_t inputplay_record_text(inputplay_handle_t *handle, size_t from, uint8_t *out, size_t out_len, size_t *left);

/**
 * How many devices, actors and action lines a record has.
 *
 * @param[in,out] handle a record's
 * @param[out] counts how many
 *
 * @return INPUTPLAY_OK or INPUTPLAY_BAD_HANDLE
 */
uint32_t inputplay_record_counts(inputplay_handle_t *handle, inputplay_counts_t *counts);

/**
 * Copies the name of a device of a record, as many bytes as fit, without a NUL behind it. With the record's text and the
 * number inputplay_device_new() makes this device.
 *
 * @param[in,out] handle a record's
 * @param device which device, from 0
 * @param[out] out room for the bytes
 * @param out_len for how many there is room
 * @param[out] len how many bytes the name has, at most 32
 *
 * @return INPUTPLAY_OK, INPUTPLAY_BAD_HANDLE or INPUTPLAY_BAD_ARGUMENT: the record has no such device
 */
uint32_t inputplay_record_device(inputplay_handle_t *handle, uint32_t device, uint8_t *out, size_t out_len, size_t *len);

/**
 * What an actor of a record is, and its name. Actors are counted over the whole record, in the order of their lines.
 *
 * @param[in,out] handle a record's
 * @param actor which actor, from 0
 * @param[out] role its role, from INPUTPLAY_SOURCE on
 * @param[out] device the number of its device
 * @param[out] out as for inputplay_record_device()
 * @param out_len likewise
 * @param[out] len likewise
 *
 * @return INPUTPLAY_OK, INPUTPLAY_BAD_HANDLE or INPUTPLAY_BAD_ARGUMENT: the record has no such actor
 */
uint32_t inputplay_record_actor(inputplay_handle_t *handle, uint32_t actor, uint32_t *role, uint32_t *device, uint8_t *out,
                                size_t out_len, size_t *len);

/**
 * What an action line of a record says. Where its step has a number other than INPUTPLAY_NO_STEP, inputplay_step() makes it
 * with the actor's client: of a tap the one that it opened last, of a client its reader's, of a joystick its joystick
 * client's, and INPUTPLAY_NO_CLIENT before there is one.
 *
 * Two commands do more than their step. A client opens by inputplay_reader_start(), a joystick by inputplay_joy_start(). A
 * joystick reads by inputplay_joy_read(), until it was handed so many records or an answer ends the line.
 *
 * @param[in,out] handle a record's
 * @param line as for inputplay_record_load()
 * @param[out] out what it says
 *
 * @return INPUTPLAY_OK, INPUTPLAY_BAD_HANDLE or INPUTPLAY_BAD_ARGUMENT: the record has no such line
 */
uint32_t inputplay_record_line(inputplay_handle_t *handle, uint32_t line, inputplay_line_t *out);

/**
 * Copies the events that inputplay_record_load() gave a `stream` or `stream16` line, from a place on, as many as fit. Before
 * it gave them the line has none.
 *
 * @param[in,out] handle a record's
 * @param line as for inputplay_record_load()
 * @param from the place of the first one, from 0
 * @param[out] events room for the events
 * @param event_count for how many there is room
 * @param[out] left how many there are from there on
 *
 * @return INPUTPLAY_OK, INPUTPLAY_BAD_HANDLE or INPUTPLAY_BAD_ARGUMENT: the line takes no stream, or it has fewer events
 */
uint32_t inputplay_record_events(inputplay_handle_t *handle, uint32_t line, size_t from, inputplay_stamped_t *events,
                                 size_t event_count, size_t *left);

/**
 * The type and the code that have a name, as EV_KEY and 30 for KEY_A. These are the names that a record may have: 272 of
 * those of <linux/input-event-codes.h>, one a code.
 *
 * Of EV_KEY they are the keys KEY_ESC to KEY_KPDOT, KEY_102ND to KEY_F12, KEY_KPENTER to KEY_DELETE, KEY_MUTE to KEY_KPEQUAL,
 * KEY_PAUSE, KEY_LEFTMETA to KEY_COMPOSE and KEY_F13 to KEY_F24; and the buttons BTN_0 to BTN_9, BTN_LEFT to
 * BTN_TASK, BTN_TRIGGER to BTN_BASE6, BTN_SOUTH to BTN_THUMBR, BTN_TOOL_PEN to BTN_TOOL_LENS and BTN_TOUCH to
 * BTN_TOOL_QUADTAP. Of EV_SW they are SW_LID to SW_KEYPAD_SLIDE, of the other types all but REL_RESERVED, ABS_PROFILE and
 * ABS_RESERVED. Other codes have no name here, and no code has a second one: there is no BTN_A, and no BTN_MOUSE.
 *
 * @param name the name
 * @param name_len how many bytes it has
 * @param[out] type the type
 * @param[out] code the code
 *
 * @return INPUTPLAY_OK or INPUTPLAY_BAD_ARGUMENT: no code has the name
 */
uint32_t inputplay_code_of(const uint8_t *name, size_t name_len, uint16_t *type, uint16_t *code);

/**
 * Copies the name of a code, as many bytes as fit, without a NUL behind it.
 *
 * @param type the type
 * @param code the code
 * @param[out] out room for the bytes
 * @param out_len for how many there is room
 * @param[out] len how many bytes the name has
 *
 * @return INPUTPLAY_OK or INPUTPLAY_BAD_ARGUMENT: the code has no name
 */
uint32_t inputplay_name_of(uint16_t type, uint16_t code, uint8_t *out, size_t out_len, size_t *len);

/**
 * Gives back what a handle keeps, and leaves INPUTPLAY_NOTHING. In C and C++ it does nothing with NULL; whoever calls the
 * symbol itself, as another language does, passes a handle.
 *
 * @param[in,out] handle any handle, or NULL
 */
void inputplay_free(inputplay_handle_t *handle);

/**
 * What the name of inputplay_free() stands for in a call.
 *
 * @param[in,out] handle any handle, or NULL
 */
static inline void inputplay_free_any(inputplay_handle_t *handle) {
    if (handle)
        inputplay_free(handle);
}

#define inputplay_free(handle) inputplay_free_any(handle)

#ifdef __cplusplus
}
#endif
#endif
