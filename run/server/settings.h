/* What a run was asked for, by the words of the server's command. */
#ifndef INPUTPLAY_RUN_SETTINGS_H
#define INPUTPLAY_RUN_SETTINGS_H

#include <stdbool.h>
#include <stdint.h>

/** What comes behind the last line of the record. */
enum ending { END_STAY, END_GONE, END_INTERRUPT, END_TERMINATE };

struct settings {
    const char *record;  /**< The file that is played. */
    const char *folder;  /**< The folder of the run, with the socket and the files that stand for nodes. */
    const char *history; /**< Where the history goes, or NULL. */
    const char *actor;   /**< The program is this actor of the record; "*": all that read; NULL: none. */
    unsigned long
        frames; /**< So many frames come where all programs wait; 0: lines come at the record's times. */
    double speed;
    enum ending end;
    bool is_record_clock; /**< Events have the record's times, and not the clock's. */
    bool is_virtual;      /**< The record's moments are the time that programs see. */
    bool is_kept;         /**< It outlives the program that started it. */
    bool has_joysticks;
    bool has_repeats;
    uint64_t quiet_us;    /**< Playing begins where programs have asked nothing for so long. */
    uint64_t patience_us; /**< By frames: a program that has asked nothing for so long is taken to wait. */
    int first_number;     /**< The number of the first node. */
    int wanted_opens;     /**< Playing begins when so many files have been opened. */
    long first_loss; /**< By frames: from this place of a history on events are lost once; -1: none is wanted.
                      */
};

extern struct settings settings;

/** Whether frames come where programs wait. */
static inline bool is_by_frames(void) {
    return settings.frames > 0;
}

/** Takes the settings from the words of the command. A wrong word ends the server. */
void settings_take(int count, char **words);

#endif
