/*
 * Plays a record, and prints its report, as the program does.
 *
 *     gcc -Iinclude examples/c/play_record.c out/library/libinputplay.a -o play_record
 *     cd examples && ../play_record --history views.rec
 *
 * The files of its streams are looked for in the present folder. The exit status is that of the call that was refused: 1 where
 * the text is no record, and 5 where memory ran out. It is 3 where a file is no stream, and where one cannot be read.
 */
#include "inputplay.h"

#include <stdio.h>
#include <stdlib.h>
#include <string.h>

/* The bytes of a file, or NULL where they cannot be read. */
static uint8_t *bytes_of(const char *name, size_t *len) {
    FILE *file = fopen(name, "rb");
    if (!file)
        return NULL;
    long size = fseek(file, 0, SEEK_END) ? -1 : ftell(file);
    uint8_t *bytes = size < 0 ? NULL : (uint8_t *)malloc((size_t)size + 1);
    rewind(file);
    *len = bytes ? fread(bytes, 1, (size_t)size, file) : 0;
    if (bytes && *len != (size_t)size) {
        free(bytes);
        bytes = NULL;
    }
    fclose(file);
    return bytes;
}

/* Gives an action line the bytes of the file that it names, if it takes a stream. */
static uint32_t load(inputplay_handle_t *record, uint32_t line) {
    char name[4096];
    size_t name_len, len;
    if (inputplay_record_file(record, line, (uint8_t *)name, sizeof name, &name_len) != INPUTPLAY_OK)
        return INPUTPLAY_OK;
    if (name_len >= sizeof name)
        return INPUTPLAY_BAD_STREAM;
    name[name_len] = 0;
    uint8_t *bytes = bytes_of(name, &len);
    if (!bytes)
        return INPUTPLAY_BAD_STREAM;
    uint32_t status = inputplay_record_load(record, line, bytes, len);
    free(bytes);
    return status;
}

/* Gives each action line its stream. There are fewer action lines than lines. */
static uint32_t load_all(inputplay_handle_t *record, const uint8_t *text, size_t len) {
    uint32_t status = INPUTPLAY_OK, line = 0;
    for (size_t i = 0; status == INPUTPLAY_OK && i < len; i++)
        if (text[i] == '\n')
            status = load(record, line++);
    return status;
}

/* Prints the text that was made of a record, piece by piece. */
static void print_text(inputplay_handle_t *record) {
    uint8_t piece[4096];
    size_t from = 0, left;
    while (inputplay_record_text(record, from, piece, sizeof piece, &left) == INPUTPLAY_OK && left > 0)
        from += fwrite(piece, 1, left < sizeof piece ? left : sizeof piece, stdout);
}

int main(int count, char **words) {
    int history = count == 3 && !strcmp(words[1], "--history");
    inputplay_handle_t record = INPUTPLAY_NOTHING;
    uint32_t line = 0, cause = 0;
    size_t len;
    if (count != 2 + history || inputplay_abi() != INPUTPLAY_ABI) {
        fputs("usage: play_record [--history] FILE\n", stderr);
        return 2;
    }
    uint8_t *text = bytes_of(words[1 + history], &len);
    if (!text)
        return 3;
    uint32_t status = inputplay_record_new(text, len, &record, &line, &cause);
    if (status == INPUTPLAY_OK)
        status = load_all(&record, text, len);
    if (status == INPUTPLAY_OK)
        status = inputplay_record_play(&record, (uint32_t)history, &len);
    if (status == INPUTPLAY_OK)
        print_text(&record);
    else if (status == INPUTPLAY_REFUSED)
        fprintf(stderr, "play_record: line %u: %s\n", line, inputplay_cause_text(cause));
    else
        fprintf(stderr, "play_record: %s\n", inputplay_status_text(status));
    inputplay_free(&record);
    free(text);
    return (int)status;
}
