/*
 * Runs a lesson and prints its readings: readings [SESSION], from standard input without
 * a name. One line for each accepted sample and area and for each refused event, with the
 * event's ordinal in the session; a sample that is over range has beside it which limit it
 * passes, and what to turn.
 *
 * Exit status: 0 the file was accepted, 1 it was refused, 2 it could not be read or the
 * lines could not be written. A pipe that nobody reads any more ends it by SIGPIPE, unless
 * that signal is ignored.
 */
#include <errno.h>
#include <stdio.h>
#include <string.h>

#include "irga.h"

enum { ACCEPTED = 0, REFUSED = 1, TROUBLE = 2 };

/* One byte more than any session has: a longer file fills it, and cannot pass for a session. */
static uint8_t file[IRGA_FILE_MAX + 1];
static uint8_t answers[IRGA_ANSWERS_MAX];
static uint8_t grounds[IRGA_GROUNDS_MAX];

static const char *const meanings[] = {
    [IRGA_ACCEPTED] = "accepted",
    [IRGA_NO_SHEET] = "no sheet loaded, or its index is not in the file",
    [IRGA_SHEET_LIMITS] = "the sheet is outside its limits",
    [IRGA_ZERO_RANGE] = "the zero is outside its range",
    [IRGA_CYLINDER_RANGE] = "the cylinder is outside its range",
    [IRGA_NO_SPAN] = "no span setting serves",
    [IRGA_INPUT_LIMITS] = "signal, pressure, temperature or vapour pressure outside limits",
    [IRGA_BELOW_ZERO] = "the signal is too far below zero",
    [IRGA_OVER_RANGE] = "over range",
    [IRGA_NO_REFERENCE_SIGNAL] = "no signal reads the reference cylinder",
    [IRGA_NOT_NOW] = "not in this mode, or not at this point of an integration",
    [IRGA_MALFORMED_EVENT] = "unknown kind, or a byte that must be zero and is not",
    [IRGA_MALFORMED_FILE] = "header or length not as the format says",
    [IRGA_OUTPUT_TOO_SHORT] = "the output is too short",
};

static const char *meaning(unsigned refusal) {
    size_t known = sizeof meanings / sizeof meanings[0];
    return refusal < known ? meanings[refusal] : "unknown refusal";
}

/* Of a sample that is over range: the limit that it passes, and where to look. */
static const char *const advice[] = {
    [IRGA_GROUND_SIGNAL] = "the signal is above 150,000,000 (15 V): set zero and span again "
                           "(span in absolute mode), against a reference look at its cylinder, "
                           "or dilute the gas",
    [IRGA_GROUND_K] = "the signal is not below the sheet's K: compare K with the printed sheet, "
                      "set zero and span again (span in absolute mode), or dilute the gas",
    [IRGA_GROUND_REDUCED] = "the signal at standard pressure is above 100,000,000 (10 V): look "
                            "at pressure and vapour pressure, set zero and span again (span in "
                            "absolute mode), against a reference look at its cylinder, or "
                            "dilute the gas",
    [IRGA_GROUND_WET] = "more than 3,000 umol/mol: dilute the gas; if it has less, look at "
                        "pressure, temperature and sheet, set zero and span again (span in "
                        "absolute mode), against a reference look at its cylinder",
};

static const char *what_to_turn(unsigned ground) {
    size_t known = sizeof advice / sizeof advice[0];
    return ground < known ? advice[ground] : "unknown ground";
}

static void print_refusal(unsigned long ordinal, unsigned refusal, unsigned ground) {
    printf("%lu: refused %u, %s", ordinal, refusal, meaning(refusal));
    if (ground != IRGA_GROUND_NONE)
        printf(", ground %u: %s", ground, what_to_turn(ground));
    printf("\n");
}

/*
 * 10^6 pmol/mol are 1 umol/mol, so six decimals show every pmol/mol. An area counts in
 * pmol/mol times 0.1 s, 10^7 to the umol/mol s: seven decimals. The quotients are rounded
 * doubles, but closer to the decimal figure than half of its last digit.
 */
static void print_sample(unsigned long ordinal, double wet, double dry) {
    printf("%lu: wet %.6f umol/mol, dry %.6f umol/mol\n", ordinal, wet / 1e6, dry / 1e6);
}

static void print_area(unsigned long ordinal, double area) {
    printf("%lu: area %.7f umol/mol s\n", ordinal, area / 1e7);
}

static void print_answer(unsigned long ordinal, const uint8_t *answer, unsigned ground) {
    unsigned refusal = answer[IRGA_ANSWER_REFUSAL];
    double wet, dry, signal, area;
    if (refusal == IRGA_ACCEPTED && answer[IRGA_ANSWER_KIND] == IRGA_SAMPLE) {
        refusal = irga_reading(answer, IRGA_RECORD_BYTES, &wet, &dry, &signal);
        if (refusal == IRGA_ACCEPTED)
            print_sample(ordinal, wet, dry);
    } else if (refusal == IRGA_ACCEPTED && answer[IRGA_ANSWER_KIND] == IRGA_AREA) {
        refusal = irga_area(answer, IRGA_RECORD_BYTES, &area);
        if (refusal == IRGA_ACCEPTED)
            print_area(ordinal, area);
    }
    if (refusal != IRGA_ACCEPTED)
        print_refusal(ordinal, refusal, ground);
}

static int trouble(const char *what, const char *name) {
    fprintf(stderr, "readings: cannot %s %s%s%s\n", what, name, errno != 0 ? ": " : "",
            errno != 0 ? strerror(errno) : "");
    return TROUBLE;
}

/* Fills the place for the file; 0 if reading failed, which leaves errno set. */
static int read_session(FILE *in, size_t *length) {
    errno = 0;
    *length = fread(file, 1, sizeof file, in);
    return !ferror(in);
}

static int print_lesson(const char *name, size_t length) {
    size_t written, at;
    uint8_t status = irga_run(file, length, answers, sizeof answers, &written);
    if (status == IRGA_ACCEPTED)
        status = irga_grounds(file, length, grounds, sizeof grounds, &written);
    if (status != IRGA_ACCEPTED) {
        fprintf(stderr, "readings: %s: refused %u, %s%s\n", name, (unsigned)status,
                meaning(status), length > IRGA_FILE_MAX ? "; it is too long" : "");
        return REFUSED;
    }
    /* A ground for each event. */
    for (at = 0; at < written; at++)
        print_answer((unsigned long)at + 1, answers + at * IRGA_RECORD_BYTES, grounds[at]);
    /* A full disk may show only when the last line leaves. */
    errno = 0;
    if (fflush(stdout) != 0 || ferror(stdout))
        return trouble("write", "the readings");
    return ACCEPTED;
}

int main(int count, char **words) {
    const char *name = count == 2 ? words[1] : "standard input";
    FILE *in = stdin;
    size_t length;
    if (count > 2) {
        fprintf(stderr, "usage: readings [SESSION]\n");
        return TROUBLE;
    }
    if (count == 2 && (in = fopen(name, "rb")) == NULL)
        return trouble("open", name);
    if (!read_session(in, &length))
        return trouble("read", name);
    if (in != stdin)
        fclose(in);
    return print_lesson(name, length);
}
