/*
 * Prints what draws a lesson on a chart recorder: recorder KIND LOW HIGH CHANNEL [SESSION], from
 * standard input without a name. KIND is voltage or current, LOW and HIGH are the ends of the
 * scale in pmol/mol (10^6 of them are 1 umol/mol), CHANNEL is a number from 0 to 15. One line for
 * each accepted sample, with its event's ordinal in the session: the word for its wet value, in
 * hexadecimal, and the code that it holds. A box would send the word. What was refused has no
 * line: examples/readings.c tells it.
 *
 * Exit status: 0 the file was accepted, 1 it was refused, or the scale or the channel was, 2 the
 * arguments are not as above, the file could not be read or the lines could not be written. A
 * pipe that nobody reads any more ends it by SIGPIPE, unless that signal is ignored.
 */
#include <errno.h>
#include <stdio.h>
#include <stdlib.h>
#include <string.h>

#include "irga.h"

enum { ACCEPTED = 0, REFUSED = 1, TROUBLE = 2 };

/* One byte more than any session has: a longer file fills it, and cannot pass for a session. */
static uint8_t file[IRGA_FILE_MAX + 1];
static uint8_t answers[IRGA_ANSWERS_MAX];

/* A pen: its channel, and the scale that it draws on. */
struct pen {
    uint8_t kind;
    int64_t low, high;
    uint32_t channel;
};

static int usage(void) {
    fprintf(stderr, "usage: recorder voltage|current LOW HIGH CHANNEL [SESSION]\n"
                    "LOW and HIGH are whole numbers of pmol/mol, CHANNEL is 0 to 15\n");
    return TROUBLE;
}

static int trouble(const char *what, const char *name) {
    fprintf(stderr, "recorder: cannot %s %s%s%s\n", what, name, errno != 0 ? ": " : "",
            errno != 0 ? strerror(errno) : "");
    return TROUBLE;
}

static int refused(const char *name, uint8_t status, const char *meaning) {
    fprintf(stderr, "recorder: %s: refused %u, %s\n", name, (unsigned)status, meaning);
    return REFUSED;
}

/* A whole number that a long long holds and nothing after it; 0 if the word is none. */
static int number(const char *word, int64_t *to) {
    char *end;
    errno = 0;
    *to = strtoll(word, &end, 10);
    return errno == 0 && end != word && *end == '\0';
}

static int read_pen(char **words, struct pen *pen) {
    int64_t channel;
    int current = strcmp(words[0], "current") == 0;
    if (!current && strcmp(words[0], "voltage") != 0)
        return 0;
    if (!number(words[1], &pen->low) || !number(words[2], &pen->high) ||
        !number(words[3], &channel) || channel < 0 || channel > UINT32_MAX)
        return 0;
    pen->kind = current ? IRGA_CURRENT : IRGA_VOLTAGE;
    pen->channel = (uint32_t)channel;
    return 1;
}

/* The doubles of a reading are whole numbers, so that nothing is lost by the cast. */
static uint8_t print_sample(const struct pen *pen, unsigned long ordinal, double wet) {
    uint16_t word;
    int16_t code;
    uint8_t channel;
    uint8_t status =
        irga_pack(pen->kind, (int64_t)wet, pen->low, pen->high, pen->channel, &word);
    if (status == IRGA_ACCEPTED)
        status = irga_unpack(pen->kind, word, &code, &channel);
    if (status == IRGA_ACCEPTED)
        printf("%lu: word %04X, code %d on channel %u\n", ordinal, (unsigned)word, code,
               (unsigned)channel);
    return status;
}

/* Of a scale and a channel that are within their limits every wet value has a word. */
static uint8_t try_pen(const struct pen *pen) {
    uint16_t word;
    return irga_pack(pen->kind, pen->low, pen->low, pen->high, pen->channel, &word);
}

static int print_lesson(const struct pen *pen, const char *name, size_t length) {
    size_t written, at;
    double wet, dry, signal;
    uint8_t status = irga_run(file, length, answers, sizeof answers, &written);
    if (status != IRGA_ACCEPTED)
        return refused(name, status, "header or length not as the format says");
    for (at = 0; at < written; at += IRGA_RECORD_BYTES) {
        if (irga_reading(answers + at, IRGA_RECORD_BYTES, &wet, &dry, &signal) != IRGA_ACCEPTED)
            continue;
        status = print_sample(pen, (unsigned long)(at / IRGA_RECORD_BYTES) + 1, wet);
        if (status != IRGA_ACCEPTED)
            return refused(name, status, "a reading that cannot be drawn");
    }
    /* A full disk may show only when the last line leaves. */
    errno = 0;
    if (fflush(stdout) != 0 || ferror(stdout))
        return trouble("write", "the words");
    return ACCEPTED;
}

int main(int count, char **words) {
    const char *name = count == 6 ? words[5] : "standard input";
    struct pen pen;
    FILE *in = stdin;
    size_t length;
    uint8_t status;
    if (count < 5 || count > 6 || !read_pen(words + 1, &pen))
        return usage();
    if ((status = try_pen(&pen)) != IRGA_ACCEPTED)
        return refused("the scale or the channel", status,
                       "LOW is to be below HIGH, both within 4000000000 of 0, and CHANNEL 0 to 15");
    if (count == 6 && (in = fopen(name, "rb")) == NULL)
        return trouble("open", name);
    errno = 0;
    length = fread(file, 1, sizeof file, in);
    if (ferror(in))
        return trouble("read", name);
    if (in != stdin)
        fclose(in);
    return print_lesson(&pen, name, length);
}
