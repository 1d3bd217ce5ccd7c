/*
 * Who the devices of a record are. Comments right behind a device's line say it, each one line of this form:
 *
 *     # name: TEXT
 *     # phys: TEXT
 *     # uniq: TEXT
 *     # id: BUS VENDOR PRODUCT VERSION      (four numbers of hexadecimal digits)
 *     # properties: NAME ..                 (as INPUT_PROP_BUTTONPAD)
 */
#include "device.h"
#include "steps.h"

#include <stdio.h>
#include <string.h>

enum { LINE_ROOM = 1024 };

static const struct {
    const char *name;
    unsigned bit;
} PROPERTIES[] = {
    {"INPUT_PROP_POINTER", INPUT_PROP_POINTER},
    {"INPUT_PROP_DIRECT", INPUT_PROP_DIRECT},
    {"INPUT_PROP_BUTTONPAD", INPUT_PROP_BUTTONPAD},
    {"INPUT_PROP_SEMI_MT", INPUT_PROP_SEMI_MT},
    {"INPUT_PROP_TOPBUTTONPAD", INPUT_PROP_TOPBUTTONPAD},
    {"INPUT_PROP_POINTING_STICK", INPUT_PROP_POINTING_STICK},
    {"INPUT_PROP_ACCELEROMETER", INPUT_PROP_ACCELEROMETER},
};

static void take_properties(struct identity *identity, char *names) {
    char *rest = NULL;
    for (char *name = strtok_r(names, " \t", &rest); name; name = strtok_r(NULL, " \t", &rest))
        for (size_t i = 0; i < sizeof PROPERTIES / sizeof PROPERTIES[0]; i++)
            if (!strcmp(name, PROPERTIES[i].name))
                identity->properties[PROPERTIES[i].bit / 8] |= (uint8_t)(1u << PROPERTIES[i].bit % 8);
}

static void take_id(struct identity *identity, const char *numbers) {
    unsigned bus, vendor, product, version;
    if (sscanf(numbers, "%4x %4x %4x %4x", &bus, &vendor, &product, &version) == 4)
        identity->id =
            (struct input_id){(uint16_t)bus, (uint16_t)vendor, (uint16_t)product, (uint16_t)version};
}

/* What stands behind a comment's sign and a word, or NULL. */
static char *behind(char *line, const char *word) {
    line += strspn(line, " \t");
    if (*line != '#')
        return NULL;
    line += 1 + strspn(line + 1, " \t");
    size_t length = strlen(word);
    return strncmp(line, word, length) ? NULL : line + length + strspn(line + length, " \t");
}

static void take_comment(struct identity *identity, char *line) {
    char *text;
    if ((text = behind(line, "name:")))
        snprintf(identity->name, sizeof identity->name, "%.*s", TEXT_ROOM - 1, text);
    else if ((text = behind(line, "phys:")))
        snprintf(identity->phys, sizeof identity->phys, "%.*s", TEXT_ROOM - 1, text);
    else if ((text = behind(line, "uniq:")))
        snprintf(identity->uniq, sizeof identity->uniq, "%.*s", TEXT_ROOM - 1, text);
    else if ((text = behind(line, "id:")))
        take_id(identity, text);
    else if ((text = behind(line, "properties:")))
        take_properties(identity, text);
}

static bool is_device_line(const char *line) {
    line += strspn(line, " \t");
    line += *line == 'u';
    return !strncmp(line, "device", 6) && (line[6] == ' ' || line[6] == '\t');
}

/* A line without its line feed and a carriage return at its end; gives where the next one begins. */
static size_t line_at(const char *text, size_t length, size_t from, char *line) {
    const char *end = memchr(text + from, '\n', length - from);
    size_t size = end ? (size_t)(end - text) - from : length - from;
    size_t kept = size < LINE_ROOM ? size : LINE_ROOM - 1;
    memcpy(line, text + from, kept);
    kept -= kept && line[kept - 1] == '\r';
    line[kept] = 0;
    return from + size + 1;
}

void identities_take(const char *text, size_t length) {
    struct device *next = devices, *present = NULL;
    char line[LINE_ROOM];
    for (size_t from = 0; from < length;) {
        from = line_at(text, length, from, line);
        if (is_device_line(line) && next < devices + device_count)
            present = next++;
        else if (!behind(line, ""))
            present = NULL;
        else if (present)
            take_comment(&present->identity, line);
    }
}

static void write_text(FILE *file, const char *what, const char *text) {
    if (text[0])
        fprintf(file, "# %s: %s\n", what, text);
}

static void write_properties(FILE *file, const struct identity *identity) {
    const char *before = "# properties:";
    for (size_t i = 0; i < sizeof PROPERTIES / sizeof PROPERTIES[0]; i++)
        if (identity->properties[PROPERTIES[i].bit / 8] >> PROPERTIES[i].bit % 8 & 1) {
            fprintf(file, "%s %s", before, PROPERTIES[i].name);
            before = "";
        }
    if (!before[0])
        fputc('\n', file);
}

void write_identity(FILE *file, const struct device *device) {
    const struct identity *identity = &device->identity;
    const struct input_id *id = &identity->id;
    if (strcmp(identity->name, device->record_name))
        write_text(file, "name", identity->name);
    write_text(file, "phys", identity->phys);
    write_text(file, "uniq", identity->uniq);
    if (id->bustype || id->vendor || id->product || id->version)
        fprintf(file, "# id: %04x %04x %04x %04x\n", id->bustype, id->vendor, id->product, id->version);
    write_properties(file, identity);
}
