#include "failure.h"

#include <stdarg.h>
#include <stdio.h>
#include <unistd.h>

enum { FAILED = 126 };

static void say_all(const char *format, va_list words) {
    char text[1024];
    int length = snprintf(text, sizeof text, "inputplay-run: ");
    vsnprintf(text + length, sizeof text - (size_t)length, format, words);
    fprintf(stderr, "%s\n", text);
}

void say(const char *format, ...) {
    va_list words;
    va_start(words, format);
    say_all(format, words);
    va_end(words);
}

void fail(const char *format, ...) {
    va_list words;
    va_start(words, format);
    say_all(format, words);
    va_end(words);
    _exit(FAILED);
}
