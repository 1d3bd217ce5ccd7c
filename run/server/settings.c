#include "settings.h"

#include "failure.h"

#include <errno.h>
#include <getopt.h>
#include <limits.h>
#include <stdio.h>
#include <stdlib.h>
#include <string.h>

struct settings settings = {
    .speed = 1, .quiet_us = 100000, .patience_us = 3000000, .wanted_opens = 1, .first_loss = -1};

static const char USAGE[] =
    "usage: inputplay-serve --folder FOLDER [OPTIONS] RECORD\n"
    "Owns the devices of RECORD and serves them to the programs that libinputplay-run.so is loaded into.\n"
    "tools/run starts it, and its --help has the options. It writes the line `ready` when programs may "
    "begin,\n"
    "and SIGTERM ends it.\n";

enum {
    FOLDER,
    HISTORY,
    AS,
    FRAMES,
    SPEED,
    END,
    CLOCK,
    JOYSTICKS,
    REPEATS,
    QUIET,
    PATIENCE,
    FIRST,
    CLIENTS,
    FIRST_LOSS,
    VIRTUAL,
    KEEP,
    HELP
};

static const struct option OPTIONS[] = {
    {"folder", required_argument, NULL, FOLDER},
    {"history", required_argument, NULL, HISTORY},
    {"as", required_argument, NULL, AS},
    {"frames", required_argument, NULL, FRAMES},
    {"speed", required_argument, NULL, SPEED},
    {"end", required_argument, NULL, END},
    {"clock", required_argument, NULL, CLOCK},
    {"joysticks", no_argument, NULL, JOYSTICKS},
    {"repeats", no_argument, NULL, REPEATS},
    {"quiet", required_argument, NULL, QUIET},
    {"patience", required_argument, NULL, PATIENCE},
    {"first", required_argument, NULL, FIRST},
    {"clients", required_argument, NULL, CLIENTS},
    {"first-loss", required_argument, NULL, FIRST_LOSS},
    {"virtual", no_argument, NULL, VIRTUAL},
    {"keep", no_argument, NULL, KEEP},
    {"help", no_argument, NULL, HELP},
    {NULL, 0, NULL, 0},
};

static unsigned long number_of(const char *what, const char *text, unsigned long most) {
    char *end;
    errno = 0;
    unsigned long number = strtoul(text, &end, 10);
    if (text[0] < '0' || text[0] > '9' || *end || errno || number > most)
        fail("--%s %s is no number up to %lu", what, text, most);
    return number;
}

static double speed_of(const char *text) {
    char *end;
    double speed = strtod(text, &end);
    if (*end || end == text || !(speed > 0) || speed > 1e9)
        fail("--speed %s is no number above 0", text);
    return speed;
}

static enum ending ending_of(const char *text) {
    static const char *const names[] = {"stay", "gone", "int", "term"};
    for (int i = 0; i < 4; i++)
        if (!strcmp(text, names[i]))
            return (enum ending)i;
    fail("--end %s is none of stay, gone, int and term", text);
}

static bool is_record_clock(const char *text) {
    if (strcmp(text, "now") && strcmp(text, "record"))
        fail("--clock %s is neither now nor record", text);
    return text[0] == 'r';
}

static void take_number(int option, const char *name, const char *text) {
    switch (option) {
    case FRAMES: settings.frames = number_of(name, text, ULONG_MAX / 2); break;
    case QUIET: settings.quiet_us = 1000 * number_of(name, text, 1000000000); break;
    case PATIENCE: settings.patience_us = 1000 * number_of(name, text, 1000000000); break;
    case FIRST: settings.first_number = (int)number_of(name, text, 900); break;
    case CLIENTS: settings.wanted_opens = (int)number_of(name, text, 1000); break;
    case FIRST_LOSS: settings.first_loss = (long)number_of(name, text, 8388608); break;
    default: break;
    }
}

static void take(int option, const char *name, const char *text) {
    switch (option) {
    case FOLDER: settings.folder = text; break;
    case HISTORY: settings.history = text; break;
    case AS: settings.actor = text; break;
    case SPEED: settings.speed = speed_of(text); break;
    case END: settings.end = ending_of(text); break;
    case CLOCK: settings.is_record_clock = is_record_clock(text); break;
    case JOYSTICKS: settings.has_joysticks = true; break;
    case REPEATS: settings.has_repeats = true; break;
    case VIRTUAL: settings.is_virtual = true; break;
    case KEEP: settings.is_kept = true; break;
    case HELP: fputs(USAGE, stdout); exit(0);
    default: take_number(option, name, text); break;
    }
}

void settings_take(int count, char **words) {
    int option, at = 0;
    while ((option = getopt_long(count, words, "", OPTIONS, &at)) >= 0) {
        if (option == '?')
            fail("see inputplay-serve --help");
        take(option, OPTIONS[at].name, optarg);
    }
    if (optind + 1 != count || !settings.folder)
        fail("one RECORD and --folder are wanted; see inputplay-serve --help");
    settings.record = words[optind];
    settings.is_record_clock |= settings.is_virtual;
    if ((settings.first_loss >= 0 || settings.is_virtual) && !is_by_frames())
        settings.frames = 1;
}
