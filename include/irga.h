/*
 * irga.h: the engine of an infrared CO2 analyser's teaching box, as a C library.
 *
 * A lesson is a session file: calibration sheets, then events (load a sheet, set the
 * zero, read a sample, ...); README.md has its bytes, under "The session file".
 * irga_run answers each event with a record of 24 bytes; irga_reading and irga_area take
 * the numbers out of such a record as doubles; irga_lines gives the same answers as text,
 * and irga_page the accepted samples as a page for the lab book. irga_grounds says of each
 * sample that is over range which limit it passes. irga_write makes a session file, so that a
 * lesson can be prepared in advance. irga_pack makes of a wet value the word that a chart
 * recorder's channel is sent, and irga_unpack takes such a word apart.
 *
 * The library is libhost.a, for x86-64 Linux, which `tools/build host` makes. It calls no
 * other library:
 *
 *     cc -std=c99 -Iinclude examples/readings.c target/staticlib/libhost.a -o readings
 *
 * examples/readings.c reads a session, examples/plan.c prepares one, examples/recorder.c prints
 * the words that draw one on a chart recorder.
 *
 * What holds for all nine functions:
 *
 * - No state is kept between calls and nothing is allocated. Any number of threads may
 *   call at once, as long as nothing that a call is lent is written by anyone else until
 *   it returns.
 * - A call takes less than 10,000 bytes of stack, as the tests measure it (it is not
 *   proved); give it 16 KiB.
 * - No pointer may be NULL, not even with a length of 0, and the places that are lent to
 *   one call may not overlap; a place of 0 bytes overlaps none.
 * - Files, records and outputs are bytes and need no alignment; size_t, double, uint16_t and
 *   int16_t objects have their usual one.
 * - Only the places named as written are written; a function reads no byte beyond the
 *   lengths that it is given.
 * - Numbers in files and answers are little-endian, signed ones in two's complement.
 */
#ifndef IRGA_H
#define IRGA_H

#include <stddef.h>
#include <stdint.h>

#ifdef __cplusplus
extern "C" {
#endif

/* A session file begins with a header of 16 bytes; sheets and events follow. */
#define IRGA_HEADER_BYTES 16
/* A sheet, an event and an answer have 24 bytes each. */
#define IRGA_RECORD_BYTES 24
/* A line of irga_lines has at most 72 bytes, its line feed included. */
#define IRGA_LINE_ROOM 72
/* Every line of irga_page has 72 columns and a line feed. */
#define IRGA_PAGE_LINE_BYTES 73

#define IRGA_SHEETS_MAX 16
#define IRGA_EVENTS_MAX 2700
/* The longest session file: 16 + 24 * 16 + 24 * 2700. */
#define IRGA_FILE_MAX 65200
/* An output of this size is long enough for any session: 24 * 2700 and 72 * 2700. */
#define IRGA_ANSWERS_MAX 64800
#define IRGA_LINES_MAX 194400
/* The same for irga_grounds, a byte for each of 2,700 events. */
#define IRGA_GROUNDS_MAX 2700
/*
 * The greatest length that a page can have: of 2,700 events one has to be the load, and each
 * of the 2,699 samples after it has a header line of its own, 2 * 73 * 2699.
 */
#define IRGA_PAGE_MAX 394054

/* How many sample lines may stand under a header line of irga_page: 1 to 999. */
#define IRGA_HEADER_EVERY_MIN 1
#define IRGA_HEADER_EVERY_MAX 999

/*
 * What a chart recorder takes: values and ends of a scale from -4,000,000,000 to
 * 4,000,000,000 pmol/mol, and channel numbers from 0 to 15.
 */
#define IRGA_RECORDER_MAX INT64_C(4000000000)
#define IRGA_RECORDER_CHANNEL_MAX 15

/* Where the fields of a sheet begin. Bytes 20 to 23 are zero. */
#define IRGA_SHEET_A1 0  /* i32 */
#define IRGA_SHEET_A2 4  /* i32 */
#define IRGA_SHEET_A3 8  /* i32 */
#define IRGA_SHEET_T0 12 /* u32 */
#define IRGA_SHEET_K 16  /* u32 */

/*
 * Where the fields of an event begin. Bytes 1 to 3 are zero, and so is every field that its
 * kind does not have: see enum irga_kind.
 */
#define IRGA_EVENT_KIND 0 /* u8: an enum irga_kind */
#define IRGA_EVENT_RAW 4  /* i32: the raw signal */
#define IRGA_EVENT_C 8    /* u32: the cylinder; of a load, the sheet's index from 0 */
#define IRGA_EVENT_P 12   /* u32: pressure */
#define IRGA_EVENT_T 16   /* u32: temperature */
#define IRGA_EVENT_E 20   /* u32: vapour pressure */

/* Where the fields of an answer begin. Bytes 2 and 3 are zero. */
#define IRGA_ANSWER_KIND 0    /* u8: the event's kind as it stood in the file */
#define IRGA_ANSWER_REFUSAL 1 /* u8: 0 if accepted, else an enum irga_refusal */
#define IRGA_ANSWER_M 4       /* u32: see enum irga_kind; 0 in a refusal */
#define IRGA_ANSWER_X 8       /* i64 */
#define IRGA_ANSWER_Y 16      /* i64 */

/*
 * The kinds of event, with the fields that each has, and what an accepted one answers; fields
 * of an answer that are not named are 0. Signals are in 100 nV, mole fractions and cylinders
 * in pmol/mol (10^6 of them are 1 umol/mol), pressures in Pa, temperatures in hundredths of a
 * kelvin.
 */
enum irga_kind {
    IRGA_LOAD = 1,      /* C: load a calibration sheet */
    IRGA_ZERO = 2,      /* raw: set the zero. x: the zero, a signal */
    IRGA_SPAN = 3,      /* raw, C, P, T, e: set the span. m: the span, in millionths */
    IRGA_REFERENCE = 4, /* C, e: read against a reference gas from now on */
    IRGA_ABSOLUTE = 5,  /* read against nothing from now on */
    IRGA_SAMPLE = 6,    /* raw, P, T, e: read a sample. m: reference signal, 0 in absolute mode;
                           x: wet; y: dry */
    IRGA_START = 7,     /* start an integration: of samples, one every 0.2 s. A new one begins,
                           also while one runs */
    IRGA_STOP = 8,      /* stop it */
    IRGA_AREA = 9,      /* m: readings counted; x: area, in pmol/mol times 0.1 s */
    IRGA_START_SHORT = 10 /* start an integration for a short chart: it closes by itself at its
                           6,000th reading, where that of IRGA_START does at its 600,000th; later
                           samples are answered and not counted. No session file is long enough
                           for either limit: in irga_run the two differ by the kind alone */
};

/* What a channel of a chart recorder is driven by. */
enum irga_channel_kind {
    IRGA_VOLTAGE = 0, /* codes -2048 to 2047, 2048 steps from low to high */
    IRGA_CURRENT = 1  /* codes 0 to 4095, 4096 steps from low to high */
};

/*
 * Why an event (1 to 11), a file (12) or an output (13) is refused, why nothing is written
 * of sheets and events (11, 14, 15), why a page is turned away (12, 16, 17), and why a chart
 * recorder gets no word (18).
 */
enum irga_refusal {
    IRGA_ACCEPTED = 0,
    IRGA_NO_SHEET = 1,             /* no sheet loaded, or its index not in the file */
    IRGA_SHEET_LIMITS = 2,         /* sheet outside its limits, or its zero bytes not zero */
    IRGA_ZERO_RANGE = 3,           /* zero beyond 20,000,000 on either side */
    IRGA_CYLINDER_RANGE = 4,       /* cylinder, or its vapour pressure, outside its range */
    IRGA_NO_SPAN = 5,              /* no span serves, or one below the lowest would */
    IRGA_INPUT_LIMITS = 6,         /* raw signal, pressure, temperature or vapour pressure
                                      outside its limits, the reference gas's included */
    IRGA_BELOW_ZERO = 7,           /* the rounded signal is below -2,000,000 */
    IRGA_OVER_RANGE = 8,           /* the signal or the mole fraction is over range: irga_grounds
                                      says by which limit */
    IRGA_NO_REFERENCE_SIGNAL = 9,  /* no signal reads the reference cylinder */
    IRGA_NOT_NOW = 10,             /* the event does not fit the mode or the integration */
    IRGA_MALFORMED_EVENT = 11,     /* unknown kind, or a byte of the event that must be zero
                                      and is not; in irga_write also a length that is no
                                      multiple of 24, or such a byte of a sheet */
    IRGA_MALFORMED_FILE = 12,      /* header or length not as the format says */
    IRGA_OUTPUT_TOO_SHORT = 13,    /* the output is shorter than the function asks */
    IRGA_TOO_MANY = 14,            /* more bytes than 16 sheets or 2,700 events have */
    IRGA_NO_ROOM = 15,             /* the buffer is shorter than the file that is to be
                                      written */
    IRGA_HEADER_INTERVAL = 16,     /* sample lines under a header line outside 1 to 999 */
    IRGA_PAGE_TOO_LONG = 17,       /* the buffer is shorter than the page */
    IRGA_RECORDER_LIMITS = 18      /* of a chart recorder: the value, an end of the scale or the
                                      channel outside its range, high not above low, or a kind
                                      that is no enum irga_channel_kind */
};

/*
 * What a sample that is answered with IRGA_OVER_RANGE is over range by: the first of these four
 * limits, in this order, that it passes. It may pass later ones too. The signal is the one that
 * is read: from raw, zero and span and, against a reference, with the reference signal. P and e
 * are the sample's. README.md says what to turn, under "Over range: what to turn".
 */
enum irga_ground {
    IRGA_GROUND_NONE = 0,    /* no sample, or one that has another answer */
    IRGA_GROUND_SIGNAL = 1,  /* the signal is above 150,000,000, which is 15 V */
    IRGA_GROUND_K = 2,       /* the signal is at the sheet's K or above it */
    IRGA_GROUND_REDUCED = 3, /* the signal reduced to standard pressure and dry air, 10,130,000
                                times the signal divided by 100 P + 57 e, rounded, is above
                                100,000,000, which is 10 V */
    IRGA_GROUND_WET = 4      /* the wet value would be above 3,000,000,000, which is
                                3,000 umol/mol */
};

/*
 * Runs a whole session from a fresh engine and writes one answer for each event.
 *
 * file, file_length   the session file; at most IRGA_FILE_MAX bytes can be accepted
 * out, out_length     where the answers go; 24 times the event count is enough, and
 *                     IRGA_ANSWERS_MAX bytes always are
 * written             gets the number of bytes written to out
 *
 * Returns IRGA_ACCEPTED, IRGA_MALFORMED_FILE or IRGA_OUTPUT_TOO_SHORT (out_length below
 * 24 times the event count; a malformed file is told first). An event that is refused
 * has its number in its own answer, and the run goes on. A sample against a reference
 * takes longest where P or T is another than in the sample before it: then the reference
 * signal is searched for.
 *
 * Touches: with 0, the first *written bytes of out, 24 times the event count, answer by
 * answer in the events' order; with 12 or 13, *written is 0. All other bytes of out stay.
 */
uint8_t irga_run(const uint8_t *file, size_t file_length,
                 uint8_t *out, size_t out_length, size_t *written);

/*
 * The same run as text, one line for each event: ordinal from 1, kind, refusal, m, x, y in
 * decimal, single spaces between them and a line feed behind them. No zero byte ends the text.
 *
 * file, file_length   the session file
 * out, out_length     where the text goes; 72 times the event count is enough, and
 *                     IRGA_LINES_MAX bytes always are
 * written             gets the length of the text
 *
 * Returns IRGA_ACCEPTED, IRGA_MALFORMED_FILE or IRGA_OUTPUT_TOO_SHORT (out_length below
 * 72 times the event count, however short the lines would be; a malformed file is told
 * first).
 *
 * Touches: with 0, the first *written bytes of out; with 12 or 13, *written is 0. All other
 * bytes of out stay.
 */
uint8_t irga_lines(const uint8_t *file, size_t file_length,
                   uint8_t *out, size_t out_length, size_t *written);

/*
 * The accepted samples of the same run as a page for the lab book, in ASCII: lines of 72
 * columns and a line feed. A sample's line has its event's ordinal in the session, from 1,
 * right-aligned in 6 columns; then wet, dry and wet less the reference cylinder in umol/mol,
 * with two decimals, each right-aligned in 14 columns; then spaces. In absolute mode the
 * last of the three is blank. Each figure is rounded by itself, as the engine rounds, to the
 * nearest hundredth, a half going away from zero: 0.005 is 0.01 and -0.005 is -0.01. So the
 * last is rounded from the unrounded difference: a wet value of 0.995 against a cylinder of
 * 1.00 is 1.00, and its difference -0.01. A figure that rounds to nothing is 0.00 without a
 * sign. A header line of the same columns (no, wet, dry, diff) stands before the first sample
 * line, and after every header_every of them if more follow. Without an accepted sample the
 * page is empty. No zero byte ends it.
 *
 * file, file_length   the session file
 * header_every        how many sample lines stand under a header line, 1 to 999
 * out, out_length     where the page goes; 146 times the event count is enough, and
 *                     IRGA_PAGE_MAX bytes always are
 * written             gets the length of the page, 73 times its lines
 *
 * Returns IRGA_ACCEPTED or, the first that applies: IRGA_MALFORMED_FILE,
 * IRGA_HEADER_INTERVAL (header_every outside 1 to 999) or IRGA_PAGE_TOO_LONG (out_length
 * below the length of the page).
 *
 * Touches: with 0, the first *written bytes of out; with 12, 16 or 17, *written is 0. All
 * other bytes of out stay.
 */
uint8_t irga_page(const uint8_t *file, size_t file_length, uint32_t header_every,
                  uint8_t *out, size_t out_length, size_t *written);

/*
 * For each sample of the same run that is over range, the limit that it passes, so that it is
 * known what to turn: one byte for each event, an enum irga_ground. The session is run for it,
 * as by irga_run.
 *
 * file, file_length   the session file
 * out, out_length     where the grounds go; the event count is enough, and IRGA_GROUNDS_MAX
 *                     bytes always are
 * written             gets the number of bytes written to out
 *
 * A byte is 1 to 4 exactly where irga_run answers the event with IRGA_OVER_RANGE, and names the
 * first limit that is passed, in the order of enum irga_ground; it is 0 for every other event,
 * accepted ones, those refused with another number, and all that are no samples.
 *
 * Returns IRGA_ACCEPTED, IRGA_MALFORMED_FILE or IRGA_OUTPUT_TOO_SHORT (out_length below the
 * event count; a malformed file is told first).
 *
 * Touches: with 0, the first *written bytes of out, as many as there are events, in their order;
 * with 12 or 13, *written is 0. All other bytes of out stay.
 */
uint8_t irga_grounds(const uint8_t *file, size_t file_length,
                     uint8_t *out, size_t out_length, size_t *written);

/*
 * The numbers of an accepted sample's answer, each the whole number exactly.
 *
 * answer, answer_length   an answer of irga_run; of more than 24 bytes the first 24 count
 * wet, dry                get the mole fractions of CO2 in the moist air and in the air
 *                         without its water vapour, in pmol/mol; 0 or below for a signal
 *                         below zero, as the noise of zero gas has it
 * signal                  gets the reference signal in 100 nV, 0 in absolute mode
 *
 * Returns IRGA_ACCEPTED; or the refusal that the answer holds, whatever its kind; or
 * IRGA_MALFORMED_EVENT for fewer than 24 bytes, for an accepted event of another kind, and
 * for a wet or dry value of 2^53 or more in size, which a double might not hold. Bytes 2
 * and 3 are not read.
 *
 * Touches: the three doubles if it returns 0, and nothing else.
 */
uint8_t irga_reading(const uint8_t *answer, size_t answer_length,
                     double *wet, double *dry, double *signal);

/*
 * The area of an accepted area's answer, the whole number exactly:
 * 2 (sum - first) - (n - 1)(first + last), over the wet values of all n readings. That is
 * every reading after the first for the 0.2 s before it, less the straight line from the
 * first to the last over these n - 1 periods. A flat line has no area: readings that are all
 * the same give 0, and so does a single one; a straight rise or fall gives last - first. An
 * area may be negative.
 *
 * answer, answer_length   an answer of irga_run; of more than 24 bytes the first 24 count
 * area                    gets the area in pmol/mol times 0.1 s (10^7 of them are
 *                         1 umol/mol s)
 *
 * Returns as irga_reading does, with an area for the sample.
 *
 * Touches: the double if it returns 0, and nothing else.
 */
uint8_t irga_area(const uint8_t *answer, size_t answer_length, double *area);

/*
 * Writes a session file: a header, then the sheets and the events as they are given.
 *
 * sheets, sheets_length   the sheets, 24 bytes each, none to IRGA_SHEETS_MAX of them; with
 *                         none, any pointer but NULL
 * events, events_length   the events, 24 bytes each, none to IRGA_EVENTS_MAX of them; the same
 * out, out_length         where the file goes; 16 + sheets_length + events_length bytes are
 *                         enough, and IRGA_FILE_MAX always are
 * written                 gets the length of the file
 *
 * Returns IRGA_ACCEPTED or, the first that applies:
 *   IRGA_TOO_MANY         sheets_length above 24 * IRGA_SHEETS_MAX or events_length above
 *                         24 * IRGA_EVENTS_MAX
 *   IRGA_MALFORMED_EVENT  a length that is no multiple of 24, an event of an unknown kind, or
 *                         a byte of a sheet or an event that must be zero and is not
 *   IRGA_NO_ROOM          out_length below 16 + sheets_length + events_length
 *
 * No limit of a number is looked at, nor whether a sheet with a load's index is there: such a
 * number is written as given, and a run of the file refuses the event that uses it.
 *
 * Touches: with 0, the first *written bytes of out, 16 + sheets_length + events_length; with
 * 11, 14 or 15, *written is 0. All other bytes of out stay.
 */
uint8_t irga_write(const uint8_t *sheets, size_t sheets_length,
                   const uint8_t *events, size_t events_length,
                   uint8_t *out, size_t out_length, size_t *written);

/*
 * The word that moves a chart recorder's pen to a value: the code in the low twelve bits, in
 * two's complement on a voltage channel, the channel number in the top four. It is a number: in
 * which order its bytes are sent is the host's matter.
 *
 * kind       an enum irga_channel_kind
 * value      the value to be drawn, in pmol/mol: a wet one, or any other in the range
 * low        the value at 0 V, or at 4 mA, in pmol/mol
 * high       the value at full scale, 5 V, 100 mV or 20 mA, in pmol/mol
 * channel    the channel's number, 0 to 15
 * word       gets the word, or 0
 *
 * The code of a voltage channel is 2048 (value - low) / (high - low), rounded to the nearest
 * whole number, a half going away from zero, and held within -2048 and 2047; of a current
 * channel it is 4096 (value - low) / (high - low), rounded in the same way and held within 0
 * and 4095. A code that is not held is within half a step of the exact ratio. A value off the
 * scale is accepted: from high on the code is held one step short of full scale; below low a
 * voltage channel goes on below 0 V, and a current channel stays at 4 mA.
 *
 * Returns IRGA_ACCEPTED; or IRGA_RECORDER_LIMITS where value, low or high is beyond
 * IRGA_RECORDER_MAX in size, high is not above low, channel is above
 * IRGA_RECORDER_CHANNEL_MAX, or kind is neither IRGA_VOLTAGE nor IRGA_CURRENT. No wet value of
 * irga_run is too large.
 *
 * Touches: *word, which is 0 with 18. That is also the word of code 0 on channel 0: look at the
 * status, and send nothing with 18.
 */
uint8_t irga_pack(uint8_t kind, int64_t value, int64_t low, int64_t high, uint32_t channel,
                  uint16_t *word);

/*
 * The code and the channel number that a word holds, whoever made it.
 *
 * kind       an enum irga_channel_kind: a word does not tell it
 * word       any word
 * code       gets the code: -2048 to 2047 of a voltage channel, 0 to 4095 of a current channel
 * channel    gets the channel's number, 0 to 15
 *
 * Returns IRGA_ACCEPTED, or IRGA_RECORDER_LIMITS for a kind that is neither IRGA_VOLTAGE nor
 * IRGA_CURRENT.
 *
 * Touches: *code and *channel if it returns 0, and nothing else.
 */
uint8_t irga_unpack(uint8_t kind, uint16_t word, int16_t *code, uint8_t *channel);

#ifdef __cplusplus
}
#endif

#endif
