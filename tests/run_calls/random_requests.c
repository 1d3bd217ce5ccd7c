/* Requests at random on the nodes of a played device, and on /dev/uinput: random_requests COUNT SEED, run by
 * tools/run. Numbers, sizes and places are at random, among them places that are not there. Nothing may crash,
 * and what is right is answered afterwards. */
#include "check.h"

#include <fcntl.h>
#include <linux/input.h>
#include <linux/joystick.h>
#include <linux/uinput.h>
#include <stdbool.h>
#include <stdint.h>
#include <string.h>
#include <sys/ioctl.h>
#include <sys/mman.h>
#include <unistd.h>

enum { FILES = 6, ROOM = 1 << 17, PAGE = 4096 };

static uint64_t state;
static unsigned char *room; /* ROOM bytes, and behind them a page that is not there */
static int files[FILES];
static unsigned long answered, refused;

static uint32_t random_below(uint32_t end) {
    state = state * UINT64_C(6364136223846793005) + UINT64_C(1442695040888963407);
    return (uint32_t)(state >> 33) % end;
}

static uint32_t random_number(void) {
    return random_below(1u << 16) << 16 | random_below(1u << 16);
}

/* A place: in memory, before its end, behind it, nowhere. */
static void *place(void) {
    switch (random_below(12)) {
    case 0: return NULL;
    case 1: return room + ROOM;
    case 2: return room + ROOM - random_below(256);
    case 3: return (void *)(uintptr_t)random_number();
    case 4: return (void *)(UINTPTR_MAX - random_below(PAGE));
    default: return room + random_below(ROOM / 2);
    }
}

static const uint32_t KNOWN[] = {
    EVIOCGVERSION,    EVIOCGID,         EVIOCGREP,     EVIOCSREP,     EVIOCGKEYCODE, EVIOCSKEYCODE,
    EVIOCGKEYCODE_V2, EVIOCSKEYCODE_V2, EVIOCGNAME(0), EVIOCGPHYS(0), EVIOCGUNIQ(0), EVIOCGPROP(0),
    EVIOCGMTSLOTS(0), EVIOCGKEY(0),     EVIOCGLED(0),  EVIOCGSND(0),  EVIOCGSW(0),   EVIOCGBIT(0, 0),
    EVIOCGABS(0),     EVIOCSABS(0),     EVIOCSFF,      EVIOCRMFF,     EVIOCGEFFECTS, EVIOCGRAB,
    EVIOCGMASK,       EVIOCSMASK,       EVIOCSCLOCKID, JSIOCGVERSION, JSIOCGAXES,    JSIOCGBUTTONS,
    JSIOCGNAME(0),    JSIOCSCORR,       JSIOCGCORR,    JSIOCGAXMAP,   JSIOCGBTNMAP,
};

/* What a maker of devices is asked. */
static const uint32_t MADE[] = {
    UI_DEV_SETUP,   UI_ABS_SETUP,   UI_SET_EVBIT,  UI_SET_KEYBIT, UI_SET_RELBIT,   UI_SET_ABSBIT,
    UI_SET_MSCBIT,  UI_SET_LEDBIT,  UI_SET_SNDBIT, UI_SET_SWBIT,  UI_SET_FFBIT,    UI_SET_PROPBIT,
    UI_SET_PHYS,    UI_DEV_CREATE,  UI_DEV_CREATE, UI_DEV_CREATE, UI_DEV_DESTROY,  UI_GET_SYSNAME(64),
    UI_GET_VERSION, UI_SET_EVBIT,   UI_SET_KEYBIT, UI_SET_ABSBIT, UI_BEGIN_FF_UPLOAD,
};

/* A number: a known one, of another size or of a code behind it; or any. */
static uint32_t request_number(void) {
    uint32_t number = random_below(3) ? KNOWN[random_below(sizeof KNOWN / sizeof KNOWN[0])]
                                      : MADE[random_below(sizeof MADE / sizeof MADE[0])];
    if (random_below(10) == 0)
        return random_number();
    if (random_below(3) == 0)
        number = (number & ~((uint32_t)_IOC_SIZEMASK << _IOC_SIZESHIFT)) |
                 random_below(1u << random_below(15)) << _IOC_SIZESHIFT;
    return random_below(3) ? number : number + random_below(64);
}

/* A struct that points elsewhere, so that its inner place is at random too. */
static void *mask_request(void) {
    struct input_mask *mask = (struct input_mask *)(void *)room;
    mask->type = random_below(3) ? random_below(40) : random_number();
    mask->codes_size = random_below(3) ? 8 * random_below(16) : random_below(1 << 16);
    mask->codes_ptr = (uintptr_t)place();
    return mask;
}

static long request_once(int file) {
    uint32_t number = request_number();
    void *argument = place();
    bool is_mask = number == (uint32_t)EVIOCGMASK || number == (uint32_t)EVIOCSMASK;
    if (number == (uint32_t)EVIOCGRAB)
        argument = (void *)(uintptr_t)random_below(2);
    /* (the bits of a device that is made are numbers) */
    if (number >= (uint32_t)UI_SET_EVBIT && number <= (uint32_t)UI_SET_PROPBIT && random_below(8))
        argument = (void *)(uintptr_t)random_below(32);
    return ioctl(file, number, is_mask && random_below(4) ? mask_request() : argument);
}

static void reopen(int *file) {
    static const char *const paths[] = {"/dev/input/event0", "/dev/input/event1", "/dev/input/js0",
                                        "/dev/input/event2", "/dev/input/event3", "/dev/uinput", "/dev/uinput"};
    close(*file);
    *file = open(paths[random_below(sizeof paths / sizeof paths[0])], (int)random_below(3) | O_NONBLOCK);
}

static void once(void) {
    int *file = &files[random_below(FILES)];
    uint32_t kind = random_below(100);
    long result = 0;
    if (kind < 2 || *file < 0)
        reopen(file);
    else if (kind < 10)
        result = read(*file, place(), random_below(1u << random_below(17)));
    else if (kind < 16)
        result = write(*file, place(), random_below(1u << random_below(12)));
    else if (kind < 17 && random_below(10) == 0)
        result = ioctl(*file, EVIOCREVOKE, 0);
    else
        result = request_once(*file);
    *(result < 0 ? &refused : &answered) += 1;
}

int main(int count, char **words) {
    long wanted = count > 1 ? atol(words[1]) : 1000;
    int version;
    state = count > 2 ? strtoul(words[2], NULL, 10) : 1;
    room = mmap(NULL, ROOM + PAGE, PROT_READ | PROT_WRITE, MAP_PRIVATE | MAP_ANONYMOUS, -1, 0);
    mprotect(room + ROOM, PAGE, PROT_NONE);
    memset(files, -1, sizeof files);
    for (long i = 0; i < wanted; i++) {
        for (int k = 0; k < 8 && random_below(4) == 0; k++)
            room[random_below(ROOM)] = (unsigned char)random_below(256);
        once();
    }
    for (int i = 0; i < FILES; i++)
        close(files[i]);
    int file = open("/dev/input/event0", O_RDWR | O_NONBLOCK);
    CHECK(file >= 0 && ioctl(file, EVIOCGVERSION, &version) == 0 && version == EV_VERSION);
    printf("%ld requests: %lu answered, %lu refused\n", wanted, answered, refused);
    return all_told();
}
