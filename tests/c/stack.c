/*
 * stack SESSION...: the most bytes of stack that irga_run, irga_lines, irga_page, irga_grounds,
 * irga_write, and irga_pack with irga_unpack took over the sessions, each in a line of its own;
 * irga_write makes each of them again from its records, and how many came out as they were is the
 * last line.
 * Each call runs on a stack of its own that was filled with one byte before; what still has that
 * byte was not touched. The few bytes that entering takes are counted too.
 */
#define _XOPEN_SOURCE 700
#include <stdio.h>
#include <string.h>
#include <ucontext.h>

#include "irga.h"

enum { STACK_BYTES = 1 << 18, PAINT = 0xA5 };

static uint8_t stack[STACK_BYTES], file[IRGA_FILE_MAX + 1], out[IRGA_PAGE_MAX];
static size_t length, written, made;
static ucontext_t here, there;

static void run(void) { irga_run(file, length, out, sizeof out, &written); }
static void lines(void) { irga_lines(file, length, out, sizeof out, &written); }
static void page(void) { irga_page(file, length, 1, out, sizeof out, &written); }
static void grounds(void) { irga_grounds(file, length, out, sizeof out, &written); }

/* A header of 16 bytes begins with the sheet count, at most 16, so that its first byte has it. */
static void plan(void) {
    const uint8_t *sheets = file + IRGA_HEADER_BYTES;
    size_t sheets_length = (size_t)file[0] * IRGA_RECORD_BYTES;
    const uint8_t *events = sheets + sheets_length;
    uint8_t status = irga_write(sheets, sheets_length, events, (size_t)(file + length - events),
                                out, sizeof out, &written);
    made += status == IRGA_ACCEPTED && written == length && memcmp(out, file, length) == 0;
}

/* A word for the session's length, so that it is not the same each time. */
static void record(void) {
    uint16_t word;
    int16_t code;
    uint8_t channel;
    irga_pack(IRGA_VOLTAGE, (int64_t)length, 0, IRGA_FILE_MAX, 3, &word);
    irga_unpack(IRGA_VOLTAGE, word, &code, &channel);
}

static void (*const calls[])(void) = {run, lines, page, grounds, plan, record};
enum { CALLS = sizeof calls / sizeof calls[0] };

static size_t taken_by(void (*call)(void)) {
    size_t untouched = 0;
    memset(stack, PAINT, sizeof stack);
    getcontext(&there);
    there.uc_stack.ss_sp = stack;
    there.uc_stack.ss_size = sizeof stack;
    there.uc_link = &here;
    makecontext(&there, call, 0);
    swapcontext(&here, &there);
    while (untouched < sizeof stack && stack[untouched] == PAINT)
        untouched++;
    return sizeof stack - untouched;
}

int main(int count, char **words) {
    size_t most[CALLS] = {0};
    int word, call;
    for (word = 1; word < count; word++) {
        FILE *in = fopen(words[word], "rb");
        if (in == NULL)
            return 1;
        length = fread(file, 1, sizeof file, in);
        fclose(in);
        for (call = 0; call < CALLS; call++) {
            size_t taken = taken_by(calls[call]);
            most[call] = taken > most[call] ? taken : most[call];
        }
    }
    for (call = 0; call < CALLS; call++)
        printf("%lu\n", (unsigned long)most[call]);
    printf("%lu\n", (unsigned long)made);
    return 0;
}
