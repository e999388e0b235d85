/* Neelukudam: times latch circuits. The interface for C and C++, on x86-64 Linux.
 *
 * Five calls. One makes a circuit image from a text that a person wrote; the other four take an image. Each answers every input: no byte of
 * an image or a text and no length of a buffer is forbidden, and a bad one is refused by a number.
 *
 * The image is of little-endian unsigned words of 32 bits. Header: version (1), cycle Tc, numbers k of phases, l of synchronizers and m of arcs,
 * byte offsets of the three tables, which follow without gaps (32, 32 + 8k, 32 + 8k + 24l; the image ends 16m bytes after the last).
 *   phase:        closing time e, active length T
 *   synchronizer: phase, kind (0 latch, 1 flip-flop), setup S, hold H, least delay, greatest delay
 *   arc:          from, to, least delay, greatest delay; ordered by "to", then by "from"
 * All are numbered from 0, and all times are whole ticks.
 *
 * The text has one line for each record, in this order, every line ended by a line feed, its fields parted by one space:
 *   tc N                  the cycle, once
 *   phase E T             closing time, active length
 *   latch P S H W         a latch: phase, setup, hold, its delay
 *   flop P S H W          a flip-flop; latches and flip-flops are numbered together
 *   arc FROM TO W         an arc and its delay
 * N to TO are numbers of 1 to 10 digits. W is a delay window without spaces: LO:HI, the least and the greatest. A+B is one delay after the other
 * and adds both ends; A|B is one or the other, and takes the lesser low and the greater high; + binds closer; round brackets group, at most
 * 16 deep. docs/RULES.md has it exactly.
 *
 * Memory. A buffer is a pointer and the number of its elements (not bytes). It is the caller's before, during and after a call; nothing is kept,
 * allocated or freed. A call reads within the length of the image or text and writes within a buffer's length, and only what is said below. A
 * refusal changes no byte of any buffer. What the caller must see to, as in every C call, since nothing can test it:
 *   - each pointer leads to that many elements, readable, and writable where it is not const;
 *   - each is aligned for its type: uint32_t at 4 bytes, int64_t at 8; bytes lie anywhere;
 *   - the image or text and the buffers of one call do not overlap, and nobody else writes them while the call runs.
 * NULL with length 0: the calls touch no element of an empty buffer, and the tests pass NULL for each. But the toolchain whose compiler
 * made this library states no rule for it; where that matters, pass the address of any object with length 0.
 *
 * Threads. There is no state: any number of calls may run at the same time, on the same image or text too. No call locks, blocks, makes a system
 * call or returns other than by its return. All of them end; the largest circuits take longest.
 *
 * What is proved. The five functions, as the source of crates/interface_c states them: that they never leave their memory, end, and give
 * what docs/PROMISES.md says. This file is not part of a proof; tests/link holds it to the library.
 */
#ifndef NEELUKUDAM_H
#define NEELUKUDAM_H

#include <stddef.h>
#include <stdint.h>

#ifdef __cplusplus
extern "C" {
#endif

/* Limits of an image, and so of what the calls can need. */
#define NEELUKUDAM_MOST_PHASES 16
#define NEELUKUDAM_MOST_SYNCHRONIZERS 512
#define NEELUKUDAM_MOST_ARCS 2048
#define NEELUKUDAM_MOST_IMAGE_BYTES 45216
#define NEELUKUDAM_MOST_REPORT_BYTES 48146

/* The longest text that neelukudam_image_from_text takes. */
#define NEELUKUDAM_MOST_TEXT_BYTES 32768

/* Numbers per synchronizer in the result buffer of neelukudam_timing, and the order in which they stand there. */
#define NEELUKUDAM_RESULTS 6
enum neelukudam_result {
    NEELUKUDAM_EARLY_DEPARTURE = 0,
    NEELUKUDAM_LATE_DEPARTURE = 1,
    NEELUKUDAM_EARLY_ARRIVAL = 2,
    NEELUKUDAM_LATE_ARRIVAL = 3,
    NEELUKUDAM_HOLD_SLACK = 4,
    NEELUKUDAM_SETUP_SLACK = 5
};

/* The mark: no arc leads in, so there is no arrival and no slack. Every other result is below 2^41 in size. */
#define NEELUKUDAM_NONE INT64_MAX

/* Bytes of stack that a call needs at most, rounded up from what tests/link/stack.c measures; the test fails where it measures more. The
 * frames are touched page by page, so a stack that is too small ends at its guard page. */
#define NEELUKUDAM_STACK_CHECK 8192
#define NEELUKUDAM_STACK_TIMING 49152
#define NEELUKUDAM_STACK_PATH 114688
#define NEELUKUDAM_STACK_REPORT 131072
#define NEELUKUDAM_STACK_IMAGE_FROM_TEXT 57344

/* Numbers of refusal. They are tested in this order, and the first that applies is given. With 6 to 9 comes the lowest record at fault, counted
 * from 0 in its table; with 15 the lowest line at fault, counted from 0; with the others the record is 0. A text is asked 15, then 3, 4 and 6 to 9
 * of the image that it writes, then 16. */
enum neelukudam_refusal {
    NEELUKUDAM_REFUSED_NOT = 0,
    NEELUKUDAM_REFUSED_HEADER = 1,       /* fewer than 32 bytes */
    NEELUKUDAM_REFUSED_VERSION = 2,      /* the version is not 1 */
    NEELUKUDAM_REFUSED_CYCLE = 3,        /* the cycle Tc is not 1 to 1,000,000,000 */
    NEELUKUDAM_REFUSED_COUNTS = 4,       /* not 1 to 16 phases, 0 to 512 synchronizers, 0 to 2,048 arcs */
    NEELUKUDAM_REFUSED_LAYOUT = 5,       /* an offset or the total length differs from the layout */
    NEELUKUDAM_REFUSED_PHASE = 6,        /* a phase has T or e above Tc, or e below the phase before, or is last with e not Tc */
    NEELUKUDAM_REFUSED_SYNCHRONIZER = 7, /* a synchronizer has phase not below k, kind above 1, S or H above Tc, least delay above
                                            greatest, or greatest above 1,000,000,000 */
    NEELUKUDAM_REFUSED_ARC = 8,          /* an arc has an end that is no synchronizer, least delay above greatest, or greatest above
                                            1,000,000,000 */
    NEELUKUDAM_REFUSED_ORDER = 9,        /* an arc does not come strictly after the one before, by "to", then by "from" */
    NEELUKUDAM_REFUSED_FEW_RESULTS = 10, /* timing: fewer than 6 numbers a synchronizer in the result buffer */
    NEELUKUDAM_REFUSED_FEW_ARCS = 11,    /* timing, path: fewer places in the arc buffer than synchronizers */
    NEELUKUDAM_REFUSED_NO_SUCH = 12,     /* path: there is no synchronizer of that number */
    NEELUKUDAM_REFUSED_NO_ARC_IN = 13,   /* path: no arc leads into that synchronizer */
    NEELUKUDAM_REFUSED_GROWING = 14,     /* path: the circuit has a growing loop */
    NEELUKUDAM_REFUSED_LINE = 15,        /* text: a line is off the grammar, out of its place or without its line feed; has a number above
                                            1,000,000,000, LO above HI, a window end above 1,000,000,000 or brackets too deep; or the text is
                                            empty or too long, and then the record is 0 */
    NEELUKUDAM_REFUSED_FEW_BYTES = 16    /* text: fewer bytes in the image buffer than the image has */
};

/* Is the image good? refusal 0: yes, and the four numbers are its header's. Otherwise the number of refusal (1 to 9) with its record, and the
 * four numbers are 0. */
typedef struct neelukudam_check_answer {
    uint32_t refusal;
    uint32_t record;
    uint32_t cycle;
    uint32_t phases;
    uint32_t synchronizers;
    uint32_t arcs;
} neelukudam_check_answer;

neelukudam_check_answer neelukudam_check(const uint8_t *image, size_t image_bytes);

/* Times the circuit. Three outcomes; a field that is not named for one is 0 in it.
 *   refusal above 0: refused (1 to 11), with the record.
 *   refusal 0 and loop_arcs above 0: a growing loop of that many arcs, each round adding gain ticks. The arcs' numbers stand at the front of
 *     arcs in order of travel, the first leaving the ring's lowest-numbered synchronizer. results stays. Where several rings grow, any may be shown.
 *   refusal 0 and loop_arcs 0: timed. missed_setups and missed_holds say how many checks are missed; at 6 * i + NEELUKUDAM_... of results stands
 *     that number of synchronizer i, in ticks. A check is met where its slack is 0 or more, or the mark. arcs stays.
 * Behind what is written a buffer stays as it was. results has 6 numbers a synchronizer, arcs one place a synchronizer, or more; 3,072 and 512
 * are enough for every image. */
typedef struct neelukudam_timing_answer {
    int64_t gain;
    uint32_t refusal;
    uint32_t record;
    uint32_t loop_arcs;
    uint32_t missed_setups;
    uint32_t missed_holds;
} neelukudam_timing_answer;

neelukudam_timing_answer neelukudam_timing(const uint8_t *image, size_t image_bytes, int64_t *results, size_t results_length, uint32_t *arcs,
                                           size_t arcs_length);

/* Over which arcs did the late arrival at a synchronizer come? refusal 0: from the synchronizer launch over so many arcs, whose numbers stand
 * at the front of the buffer in order of travel; the rest of it stays. Otherwise refused (1 to 9, 11 to 14), with the record. The buffer has
 * one place a synchronizer or more. */
typedef struct neelukudam_path_answer {
    uint32_t refusal;
    uint32_t record;
    uint32_t launch;
    uint32_t arcs;
} neelukudam_path_answer;

neelukudam_path_answer neelukudam_path(const uint8_t *image, size_t image_bytes, uint32_t synchronizer, uint32_t *arcs, size_t arcs_length);

/* The report as text, without a 0 at its end: returns how many bytes it has. They are written to the front of text if all of them fit, and
 * the rest of text stays; if not, nothing is written. NEELUKUDAM_MOST_REPORT_BYTES is enough for every image, and a first call with length 0 asks how
 * many are needed. */
size_t neelukudam_report(const uint8_t *image, size_t image_bytes, uint8_t *text, size_t text_bytes);

/* Makes the image of a written circuit. refusal 0: the image stands at the front of the buffer, image_bytes is its length, and the rest of the
 * buffer stays. Otherwise refused (15, then 3, 4, 6 to 9, then 16), with the record, and image_bytes is 0. With 15 the record is a line, counted
 * from 0: an editor counts from 1. NEELUKUDAM_MOST_IMAGE_BYTES are enough for every text. An image that was made is good: the other calls refuse it
 * by none of 1 to 9. */
typedef struct neelukudam_text_answer {
    uint32_t refusal;
    uint32_t record;
    uint32_t image_bytes;
} neelukudam_text_answer;

neelukudam_text_answer neelukudam_image_from_text(const uint8_t *text, size_t text_bytes, uint8_t *image, size_t image_length);

#ifdef __cplusplus
}
#endif

#endif
