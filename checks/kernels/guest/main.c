/* The first process of a machine that plays records: it reads them from a file beside it, plays each in a
 * process of its own, says to the second serial line what came, and turns the machine off. */
#define _GNU_SOURCE
#include "guest.h"

#include <errno.h>
#include <fcntl.h>
#include <stdio.h>
#include <stdlib.h>
#include <string.h>
#include <sys/mount.h>
#include <sys/reboot.h>
#include <sys/stat.h>
#include <sys/syscall.h>
#include <sys/wait.h>
#include <termios.h>
#include <time.h>
#include <unistd.h>

/* uinput takes times of the last ten seconds: a record that is not played in real time begins so long ago. */
static const long long BEFORE = 8000000;
static const char *const MODULES[] = {"/evdev.ko", "/uinput.ko", "/joydev.ko"};

static struct device devices[MOST_DEVICES];
static struct actor actors[MOST_ACTORS];
static int device_count, actor_count;
static bool in_real_time, is_begun;
static long long base;

void give_up(const char *what)
{
    printf("gave up: %s: %s\n", what, strerror(errno));
    fflush(stdout);
    _exit(3);
}

long long microseconds(int clock)
{
    struct timespec now;
    clock_gettime(clock, &now);
    return now.tv_sec * 1000000LL + now.tv_nsec / 1000;
}

long long base_time(void)
{
    return base;
}

void wait_until(long long moment)
{
    long long left;
    while (in_real_time && (left = base + moment - microseconds(CLOCK_MONOTONIC)) > 0)
        usleep((useconds_t)(left > 500000 ? 500000 : left));
}

void say_status(int status)
{
    printf("= %d\n", status);
}

void say_event(const struct input_event *event)
{
    long long time = (long long)event->input_event_sec * 1000000 + (long long)event->input_event_usec;
    printf("%lld %d %d %d\n", time, event->type, event->code, event->value);
}

/* How far a clock is ahead of the monotonic one, by the least of some measures. */
static long long ahead(int clock)
{
    long long least = 1000000, found = 0;
    for (int i = 0; i < 50; i++) {
        long long before = microseconds(CLOCK_MONOTONIC), there = microseconds(clock);
        long long after = microseconds(CLOCK_MONOTONIC);
        if (after - before < least) {
            least = after - before;
            found = there - (before + after) / 2;
        }
    }
    return found;
}

static void begin(void)
{
    is_begun = true;
    base = microseconds(CLOCK_MONOTONIC) - (in_real_time ? 0 : BEFORE);
    printf("base %lld %lld %lld\n", base, ahead(CLOCK_REALTIME), ahead(CLOCK_BOOTTIME));
}

/* A line `do ACTOR STEP NUMBER ..`. */
static void act(struct words words)
{
    struct actor *actor = &actors[words.of[0]];
    memmove(words.of, words.of + 1, sizeof words.of - sizeof words.of[0]);
    if (!is_begun)
        begin();
    if (!strcmp(words.name, "event"))
        inject(actor->device, words.of);
    else if (!strcmp(words.name, "wait")) {
        wait_until(words.of[0]);
        say_status(0);
    } else if (strstr(words.name, "inhibit")) {
        wait_until(words.of[0]);
        inhibit(actor->device, !strcmp(words.name, "inhibit"));
    } else if (!strcmp(words.name, "feedback"))
        read_feedback(actor->device, (size_t)words.of[0]);
    else if (actor->role == JOY)
        do_joystick_step(actor, &words);
    else if (!do_reader_step(actor, &words) && !do_step(actor, &words))
        give_up(words.name);
}

static void describe(struct words words)
{
    if (!strcmp(words.name, "device"))
        device_count++;
    else if (!strcmp(words.name, "bit"))
        set_bit_of(&devices[device_count - 1], (int)words.of[0], (int)words.of[1]);
    else if (!strcmp(words.name, "abs"))
        set_axis_of(&devices[device_count - 1], words.of);
    else if (!strcmp(words.name, "actor"))
        actors[actor_count++] =
            (struct actor){.role = (enum role)words.of[0], .device = &devices[device_count - 1], .fd = -1};
    else if (strcmp(words.name, "make"))
        give_up(words.name);
    else if (!make_device(&devices[device_count - 1])) {
        printf("refused %d\n", device_count - 1);
        fflush(stdout);
        _exit(0);
    }
}

static struct words words_of(char *line)
{
    struct words words = {.count = 0};
    char *rest = NULL, *word = strtok_r(line, " ", &rest);
    bool is_act = word && !strcmp(word, "do");
    words.name = is_act ? strtok_r(NULL, " ", &rest) : word ? word : "";
    while ((word = strtok_r(NULL, " ", &rest)) && words.count < MOST_WORDS)
        words.of[words.count++] =
            (long long)(word[0] == '-' ? strtoll(word, NULL, 10) : (long long)strtoull(word, NULL, 10));
    return words;
}

static void play(char *text)
{
    char *rest = NULL;
    alarm(60);
    for (char *line = strtok_r(text, "\n", &rest); line; line = strtok_r(NULL, "\n", &rest)) {
        bool is_act = !strncmp(line, "do ", 3);
        struct words words = words_of(line);
        if (!strcmp(words.name, "live"))
            in_real_time = true;
        else if (is_act)
            act(words);
        else
            describe(words);
    }
    fflush(stdout);
    _exit(0);
}

static void play_in_a_process(const char *name, char *text)
{
    int status = 0;
    printf("record %s\n", name);
    fflush(stdout);
    pid_t child = fork();
    if (!child)
        play(text);
    waitpid(child, &status, 0);
    printf("ended %d\n", status);
}

/* The records are told apart by lines `record NAME`. */
static void play_all(char *text)
{
    static const char MARK[] = "record ";
    char *at = strstr(text, MARK);
    while (at) {
        char *name = at + sizeof MARK - 1, *line = strchr(name, '\n');
        char *next = strstr(line, "\nrecord ");
        *line = '\0';
        if (next)
            *next++ = '\0';
        play_in_a_process(name, line + 1);
        at = next;
    }
}

static char *contents(const char *path)
{
    struct stat about;
    int fd = open(path, O_RDONLY);
    if (fd < 0 || fstat(fd, &about))
        give_up(path);
    char *text = calloc((size_t)about.st_size + 1, 1);
    for (ssize_t at = 0, size; text && (size = read(fd, text + at, (size_t)(about.st_size - at))) > 0;)
        at += size;
    close(fd);
    return text;
}

static void set_up_machine(void)
{
    struct termios raw;
    mount("proc", "/proc", "proc", 0, NULL);
    mount("sys", "/sys", "sysfs", 0, NULL);
    mount("dev", "/dev", "devtmpfs", 0, NULL);
    int line = open("/dev/ttyS1", O_RDWR);
    tcgetattr(line, &raw);
    cfmakeraw(&raw);
    tcsetattr(line, TCSANOW, &raw);
    dup2(line, STDOUT_FILENO);
    for (size_t i = 0; i < sizeof MODULES / sizeof MODULES[0]; i++) {
        int module = open(MODULES[i], O_RDONLY);
        if (module < 0 || syscall(SYS_finit_module, module, "", 0))
            give_up(MODULES[i]);
        close(module);
    }
}

int main(void)
{
    static char buffer[1 << 16];
    set_up_machine();
    setvbuf(stdout, buffer, _IOFBF, sizeof buffer);
    while (microseconds(CLOCK_MONOTONIC) < BEFORE + 1500000)
        usleep(100000);
    play_all(contents("/records"));
    printf("all\n");
    fflush(stdout);
    tcdrain(STDOUT_FILENO);
    reboot(RB_POWER_OFF);
    return 0;
}
