/*
 * Prepares a lesson at a desk: plan FILE. Stores a small lesson as a session file under that
 * name, then runs the same bytes and prints the line of each event: ordinal, kind, refusal,
 * m, x, y. A lesson of your own goes into prepare().
 *
 * Exit status: 0 the lesson was stored and run, 1 it was refused, 2 it could not be stored
 * or the lines could not be written. A pipe that nobody reads any more ends it by SIGPIPE,
 * unless that signal is ignored.
 */
#include <errno.h>
#include <stdio.h>
#include <string.h>

#include "irga.h"

enum { ACCEPTED = 0, REFUSED = 1, TROUBLE = 2 };

/* Records of 24 bytes: so much room, and how many bytes of it are taken. */
struct records {
    uint8_t *bytes;
    size_t room, length;
};

/*
 * Zero before anything is put: so are the bytes that no kind has and the fields that one lacks.
 * The last record of each is for one too many: a lesson that has it is refused with 14.
 */
static uint8_t sheet_bytes[(IRGA_SHEETS_MAX + 1) * IRGA_RECORD_BYTES];
static uint8_t event_bytes[(IRGA_EVENTS_MAX + 1) * IRGA_RECORD_BYTES];
static struct records sheets = {sheet_bytes, sizeof sheet_bytes, 0};
static struct records events = {event_bytes, sizeof event_bytes, 0};

static uint8_t file[IRGA_FILE_MAX];
static uint8_t lines[IRGA_LINES_MAX];

/* The file's numbers are little-endian, whatever the machine's own are. */
static void put(uint8_t *place, uint32_t number) {
    int byte;
    for (byte = 0; byte < 4; byte++)
        place[byte] = (uint8_t)(number >> 8 * byte);
}

static uint8_t *next(struct records *to) {
    if (to->length < to->room)
        to->length += IRGA_RECORD_BYTES;
    return to->bytes + to->length - IRGA_RECORD_BYTES;
}

static void add_sheet(int32_t a1, int32_t a2, int32_t a3, uint32_t t0, uint32_t k) {
    uint8_t *sheet = next(&sheets);
    put(sheet + IRGA_SHEET_A1, (uint32_t)a1);
    put(sheet + IRGA_SHEET_A2, (uint32_t)a2);
    put(sheet + IRGA_SHEET_A3, (uint32_t)a3);
    put(sheet + IRGA_SHEET_T0, t0);
    put(sheet + IRGA_SHEET_K, k);
}

static uint8_t *add(enum irga_kind kind) {
    uint8_t *event = next(&events);
    event[IRGA_EVENT_KIND] = (uint8_t)kind;
    return event;
}

/* Dry air at 1,013 hPa and 25 degrees Celsius: its e is 0 and need not be put. */
static void add_sample(int32_t raw) {
    uint8_t *event = add(IRGA_SAMPLE);
    put(event + IRGA_EVENT_RAW, (uint32_t)raw);
    put(event + IRGA_EVENT_P, 101300);
    put(event + IRGA_EVENT_T, 29815);
}

/* Three readings against a dry reference gas of 1,000 umol/mol, and their area. */
static void prepare(void) {
    add_sheet(150000000, 5000000, 5000000, 29815, 200000000);
    put(add(IRGA_LOAD) + IRGA_EVENT_C, 0);
    put(add(IRGA_REFERENCE) + IRGA_EVENT_C, 1000000000);
    add(IRGA_START);
    add_sample(0);
    add_sample(10000000);
    add_sample(0);
    add(IRGA_STOP);
    add(IRGA_AREA);
}

static int refused(const char *what, uint8_t status) {
    fprintf(stderr, "plan: %s: refused %u\n", what, (unsigned)status);
    return REFUSED;
}

static int trouble(const char *what, const char *name) {
    fprintf(stderr, "plan: cannot %s %s%s%s\n", what, name, errno != 0 ? ": " : "",
            errno != 0 ? strerror(errno) : "");
    return TROUBLE;
}

static int store(const char *name, size_t length) {
    FILE *to;
    int stored;
    errno = 0;
    if ((to = fopen(name, "wb")) == NULL)
        return trouble("open", name);
    stored = fwrite(file, 1, length, to) == length;
    /* A full disk may show only when the last bytes leave. */
    if (fclose(to) != 0 || !stored)
        return trouble("write", name);
    return ACCEPTED;
}

static int print_lines(size_t length) {
    size_t written;
    uint8_t status = irga_lines(file, length, lines, sizeof lines, &written);
    if (status != IRGA_ACCEPTED)
        return refused("the run", status);
    errno = 0;
    if (fwrite(lines, 1, written, stdout) != written || fflush(stdout) != 0)
        return trouble("write", "the lines");
    return ACCEPTED;
}

int main(int count, char **words) {
    size_t length;
    uint8_t status;
    int stored;
    if (count != 2) {
        fprintf(stderr, "usage: plan FILE\n");
        return TROUBLE;
    }
    prepare();
    status = irga_write(sheets.bytes, sheets.length, events.bytes, events.length, file, sizeof file,
                        &length);
    if (status != IRGA_ACCEPTED)
        return refused("the lesson", status);
    stored = store(words[1], length);
    return stored == ACCEPTED ? print_lines(length) : stored;
}
