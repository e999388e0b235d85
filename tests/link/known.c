/* The circuits P1 to P15 through the five calls, and every number of refusal. Run with the folder of the circuits as its word.
 *
 * What timing must give is read off the stored reports, which tests/circuits.py works out by itself; what circuits/README.md says of a circuit in
 * words stands here again. Round each buffer lie guard values, and what a call has no business to write is compared afterwards. The file is C99
 * and C++. */
#include <neelukudam.h>

#include <inttypes.h>
#include <stdio.h>
#include <stdlib.h>
#include <string.h>

static int passed, failed;
static const char *where = "";

static void expect(int holds, const char *what, int line) {
    if (holds) {
        passed++;
    } else {
        failed++;
        printf("known.c:%d: %s: not so: %s\n", line, where, what);
    }
}
#define EXPECT(what) expect((what) != 0, #what, __LINE__)

/* Buffers with a margin on both sides, all filled with a pattern. */
enum { MARGIN = 64, MOST = NEELUKUDAM_RESULTS * NEELUKUDAM_MOST_SYNCHRONIZERS };
static int64_t results_around[MARGIN + MOST + MARGIN], results_before[MARGIN + MOST + MARGIN];
static uint32_t arcs_around[MARGIN + MOST + MARGIN], arcs_before[MARGIN + MOST + MARGIN];
static uint8_t text_around[MARGIN + NEELUKUDAM_MOST_REPORT_BYTES + MARGIN], text_before[MARGIN + NEELUKUDAM_MOST_REPORT_BYTES + MARGIN];
static int64_t *const results = results_around + MARGIN;
static uint32_t *const arcs = arcs_around + MARGIN;
static uint8_t *const text = text_around + MARGIN;
static uint8_t made_around[MARGIN + NEELUKUDAM_MOST_IMAGE_BYTES + MARGIN], made_before[MARGIN + NEELUKUDAM_MOST_IMAGE_BYTES + MARGIN];
static uint8_t *const made = made_around + MARGIN; /* where images are made from texts */

static void fill(void) {
    size_t i;
    for (i = 0; i < sizeof results_around / sizeof *results_around; i++)
        results_around[i] = -(int64_t)(i + 1000) * 1000003;
    for (i = 0; i < sizeof arcs_around / sizeof *arcs_around; i++)
        arcs_around[i] = 0xf0000000u + (uint32_t)i;
    for (i = 0; i < sizeof text_around; i++)
        text_around[i] = (uint8_t)(i * 7 + 13);
    memcpy(results_before, results_around, sizeof results_around);
    memcpy(arcs_before, arcs_around, sizeof arcs_around);
    for (i = 0; i < sizeof made_around; i++)
        made_around[i] = (uint8_t)(i * 5 + 3);
    memcpy(text_before, text_around, sizeof text_around);
    memcpy(made_before, made_around, sizeof made_around);
}

/* Nothing but the first n elements has changed, the margins included. */
static int results_kept(size_t n) {
    return memcmp(results_around, results_before, MARGIN * sizeof *results) == 0 &&
           memcmp(results + n, results_before + MARGIN + n, (MOST - n + MARGIN) * sizeof *results) == 0;
}
static int arcs_kept(size_t n) {
    return memcmp(arcs_around, arcs_before, MARGIN * sizeof *arcs) == 0 &&
           memcmp(arcs + n, arcs_before + MARGIN + n, (MOST - n + MARGIN) * sizeof *arcs) == 0;
}
static int text_kept(size_t n) {
    return memcmp(text_around, text_before, MARGIN) == 0 &&
           memcmp(text + n, text_before + MARGIN + n, NEELUKUDAM_MOST_REPORT_BYTES - n + MARGIN) == 0;
}

static int made_kept(size_t n) {
    return memcmp(made_around, made_before, MARGIN) == 0 &&
           memcmp(made + n, made_before + MARGIN + n, NEELUKUDAM_MOST_IMAGE_BYTES - n + MARGIN) == 0;
}

/* A file; a string ends it, so that it can be read as one. */
static char folder[4000];
static size_t load(const char *name, const char *ending, uint8_t *to, size_t most) {
    char path[4200];
    FILE *file;
    size_t n;
    snprintf(path, sizeof path, "%s/%s.%s", folder, name, ending);
    file = fopen(path, "rb");
    if (!file) {
        printf("known: cannot read %s\n", path);
        exit(1);
    }
    n = fread(to, 1, most - 1, file);
    to[n] = 0;
    fclose(file);
    return n;
}

static uint8_t image[NEELUKUDAM_MOST_IMAGE_BYTES + 2];
static uint8_t stored[NEELUKUDAM_MOST_REPORT_BYTES + 1];
static size_t image_bytes, stored_bytes;

static uint32_t word(size_t at) {
    return (uint32_t)image[at] | (uint32_t)image[at + 1] << 8 | (uint32_t)image[at + 2] << 16 | (uint32_t)image[at + 3] << 24;
}
static void put(size_t at, uint32_t value) {
    int i;
    for (i = 0; i < 4; i++)
        image[at + (size_t)i] = (uint8_t)(value >> (8 * i));
}
static void open_circuit(const char *name) {
    where = name;
    image_bytes = load(name, "image", image, sizeof image);
    stored_bytes = load(name, "report", stored, sizeof stored);
}

/* The next field of the stored report, a dash being the mark. */
static const char *reading;
static int64_t field(void) {
    char *end;
    long long value;
    while (*reading == ' ' || *reading == '\n')
        reading++;
    if (*reading == '-' && (reading[1] == ' ' || reading[1] == '\n')) {
        reading++;
        return NEELUKUDAM_NONE;
    }
    value = strtoll(reading, &end, 10);
    reading = end;
    return value;
}

static void check_report(void) {
    size_t n;
    /* a buffer of its own length, and a longer one */
    fill();
    n = neelukudam_report(image, image_bytes, text, stored_bytes);
    EXPECT(n == stored_bytes && memcmp(text, stored, n) == 0 && text_kept(n));
    fill();
    n = neelukudam_report(image, image_bytes, text, NEELUKUDAM_MOST_REPORT_BYTES);
    EXPECT(n == stored_bytes && memcmp(text, stored, n) == 0 && text_kept(n));
    /* one byte too short, and none: only the length is told */
    fill();
    EXPECT(neelukudam_report(image, image_bytes, text, stored_bytes - 1) == stored_bytes);
    EXPECT(neelukudam_report(image, image_bytes, text, 0) == stored_bytes);
    EXPECT(neelukudam_report(image, image_bytes, NULL, 0) == stored_bytes);
    EXPECT(text_kept(0));
}

static void check_timing(size_t results_length, size_t arcs_length, uint32_t l) {
    neelukudam_timing_answer a;
    uint32_t i;
    fill();
    a = neelukudam_timing(image, image_bytes, results, results_length, arcs, arcs_length);
    EXPECT(a.refusal == 0 && a.record == 0);
    reading = (const char *)stored;
    if (strncmp(reading, "loop ", 5) == 0) {
        reading += 5;
        EXPECT(a.loop_arcs == field() && a.loop_arcs > 0);
        EXPECT(a.gain == field() && a.gain > 0);
        EXPECT(a.missed_setups == 0 && a.missed_holds == 0);
        for (i = 0; i < a.loop_arcs; i++)
            EXPECT(arcs[i] == field());
        EXPECT(arcs_kept(a.loop_arcs) && results_kept(0));
    } else {
        EXPECT(strncmp(reading, "timed ", 6) == 0);
        reading += 6;
        EXPECT(field() == l);
        EXPECT(a.loop_arcs == 0 && a.gain == 0);
        EXPECT(a.missed_setups == field());
        EXPECT(a.missed_holds == field());
        for (i = 0; i < l; i++) {
            int k, same = field() == i;
            for (k = 0; k < NEELUKUDAM_RESULTS; k++)
                same = same && results[NEELUKUDAM_RESULTS * i + (uint32_t)k] == field();
            EXPECT(same);
        }
        EXPECT(results_kept(NEELUKUDAM_RESULTS * l) && arcs_kept(0));
    }
}

/* All that holds of every good image. */
static void check_good(void) {
    neelukudam_check_answer c = neelukudam_check(image, image_bytes);
    neelukudam_timing_answer a;
    neelukudam_path_answer p;
    uint32_t l = word(12);
    EXPECT(c.refusal == 0 && c.record == 0);
    EXPECT(c.cycle == word(4) && c.phases == word(8) && c.synchronizers == l && c.arcs == word(16));
    check_timing(NEELUKUDAM_RESULTS * l, l, l);
    check_timing(MOST, MOST, l);
    check_report();
    fill();
    if (l > 0) {
        a = neelukudam_timing(image, image_bytes, results, NEELUKUDAM_RESULTS * l - 1, arcs, l - 1);
        EXPECT(a.refusal == NEELUKUDAM_REFUSED_FEW_RESULTS && a.record == 0 && a.loop_arcs == 0 && a.gain == 0);
        a = neelukudam_timing(image, image_bytes, NULL, 0, NULL, 0);
        EXPECT(a.refusal == NEELUKUDAM_REFUSED_FEW_RESULTS && a.missed_setups == 0 && a.missed_holds == 0);
        a = neelukudam_timing(image, image_bytes, results, NEELUKUDAM_RESULTS * l, arcs, l - 1);
        EXPECT(a.refusal == NEELUKUDAM_REFUSED_FEW_ARCS && a.record == 0);
        p = neelukudam_path(image, image_bytes, l, arcs, l - 1);
        EXPECT(p.refusal == NEELUKUDAM_REFUSED_FEW_ARCS && p.record == 0 && p.launch == 0 && p.arcs == 0);
    } else {
        a = neelukudam_timing(image, image_bytes, NULL, 0, NULL, 0);
        EXPECT(a.refusal == 0 && a.loop_arcs == 0 && a.missed_setups == 0 && a.missed_holds == 0);
        p = neelukudam_path(image, image_bytes, 0, NULL, 0);
        EXPECT(p.refusal == NEELUKUDAM_REFUSED_NO_SUCH && p.record == 0);
    }
    p = neelukudam_path(image, image_bytes, l, arcs, MOST);
    EXPECT(p.refusal == NEELUKUDAM_REFUSED_NO_SUCH && p.record == 0 && p.launch == 0 && p.arcs == 0);
    p = neelukudam_path(image, image_bytes, UINT32_MAX, arcs, MOST);
    EXPECT(p.refusal == NEELUKUDAM_REFUSED_NO_SUCH);
    EXPECT(results_kept(0) && arcs_kept(0));
}

/* A bad image: all four calls refuse it by the same number and record, and leave every byte. */
static void check_refused(uint32_t refusal, uint32_t record) {
    char line[64];
    size_t n, expected = (size_t)snprintf(line, sizeof line, "refused %" PRIu32 " %" PRIu32 "\n", refusal, record);
    neelukudam_check_answer c = neelukudam_check(image, image_bytes);
    neelukudam_timing_answer a;
    neelukudam_path_answer p;
    EXPECT(c.refusal == refusal && c.record == record);
    EXPECT(c.cycle == 0 && c.phases == 0 && c.synchronizers == 0 && c.arcs == 0);
    fill();
    a = neelukudam_timing(image, image_bytes, results, MOST, arcs, MOST);
    EXPECT(a.refusal == refusal && a.record == record);
    EXPECT(a.gain == 0 && a.loop_arcs == 0 && a.missed_setups == 0 && a.missed_holds == 0);
    p = neelukudam_path(image, image_bytes, 0, arcs, MOST);
    EXPECT(p.refusal == refusal && p.record == record && p.launch == 0 && p.arcs == 0);
    EXPECT(results_kept(0) && arcs_kept(0));
    EXPECT(neelukudam_report(image, image_bytes, text, expected - 1) == expected && text_kept(0));
    n = neelukudam_report(image, image_bytes, text, expected);
    EXPECT(n == expected && memcmp(text, line, n) == 0 && text_kept(n));
}

/* P1 with one word changed. */
static void check_damaged(const char *what, size_t at, uint32_t value, uint32_t refusal, uint32_t record) {
    open_circuit("p1");
    where = what;
    put(at, value);
    check_refused(refusal, record);
}

static void check_path(const char *name, uint32_t to, uint32_t launch, const uint32_t *way, uint32_t count) {
    neelukudam_path_answer p;
    open_circuit(name);
    fill();
    p = neelukudam_path(image, image_bytes, to, arcs, word(12));
    EXPECT(p.refusal == 0 && p.record == 0 && p.launch == launch && p.arcs == count);
    EXPECT(memcmp(arcs, way, count * sizeof *way) == 0 && arcs_kept(count));
}

static void check_no_path(const char *name, uint32_t to, uint32_t refusal) {
    neelukudam_path_answer p;
    open_circuit(name);
    fill();
    p = neelukudam_path(image, image_bytes, to, arcs, MOST);
    EXPECT(p.refusal == refusal && p.record == 0 && p.launch == 0 && p.arcs == 0 && arcs_kept(0));
}

/* One result of a circuit. */
static int64_t result(const char *name, uint32_t i, enum neelukudam_result which) {
    open_circuit(name);
    fill();
    neelukudam_timing(image, image_bytes, results, MOST, arcs, MOST);
    return results[NEELUKUDAM_RESULTS * i + (uint32_t)which];
}

/* The largest image: every count at its limit. Flip-flops on 16 phases, each fed by the first four. */
static void check_largest(void) {
    size_t at = 0;
    uint32_t i;
    const uint32_t k = NEELUKUDAM_MOST_PHASES, l = NEELUKUDAM_MOST_SYNCHRONIZERS, m = NEELUKUDAM_MOST_ARCS;
    const uint32_t header[] = {1, 1000000000, k, l, m, 32, 32 + 8 * k, 32 + 8 * k + 24 * l};
    neelukudam_check_answer c;
    neelukudam_timing_answer a;
    neelukudam_path_answer p;
    size_t n;
    where = "the largest image";
    for (i = 0; i < 8; i++, at += 4)
        put(at, header[i]);
    for (i = 0; i < k; i++, at += 8)
        put(at, i + 1 < k ? i : 1000000000), put(at + 4, 0);
    for (i = 0; i < l; i++, at += 24)
        put(at, i % k), put(at + 4, 1), put(at + 8, 0), put(at + 12, 0), put(at + 16, 0), put(at + 20, 1000000000);
    for (i = 0; i < m; i++, at += 16)
        put(at, i % 4), put(at + 4, i / 4), put(at + 8, 0), put(at + 12, 1000000000);
    image_bytes = at;
    EXPECT(at == NEELUKUDAM_MOST_IMAGE_BYTES);
    c = neelukudam_check(image, image_bytes);
    EXPECT(c.refusal == 0 && c.cycle == 1000000000 && c.phases == k && c.synchronizers == l && c.arcs == m);
    fill();
    a = neelukudam_timing(image, image_bytes, results, MOST, arcs, l);
    EXPECT(a.refusal == 0 && a.loop_arcs == 0 && results_kept(MOST) && arcs_kept(0));
    /* Tc + the source's greatest delay + the arc's - the shift, which is least from phase 3 to phases 4 and on: 511 is on phase 15 */
    EXPECT(results[NEELUKUDAM_RESULTS * 4 + NEELUKUDAM_LATE_ARRIVAL] == 3000000000 - 1);
    EXPECT(results[NEELUKUDAM_RESULTS * 511 + NEELUKUDAM_LATE_ARRIVAL] == 3000000000 - (1000000000 - 3));
    p = neelukudam_path(image, image_bytes, 4, arcs, l);
    EXPECT(p.refusal == 0 && p.launch == 3 && p.arcs == 1 && arcs[0] == 4 * 4 + 3 && arcs_kept(1));
    n = neelukudam_report(image, image_bytes, text, NEELUKUDAM_MOST_REPORT_BYTES);
    EXPECT(n > 12 * l && n <= NEELUKUDAM_MOST_REPORT_BYTES && memcmp(text, "timed 512 ", 10) == 0 && text[n - 1] == '\n' && text_kept(n));
}

/* The text of a circuit that is open gives its image. */
static uint8_t written[NEELUKUDAM_MOST_TEXT_BYTES + 2];

static void check_text(const char *name) {
    size_t n = load(name, "text", written, sizeof written);
    neelukudam_text_answer t;
    /* a buffer of the image's own length, and a longer one */
    fill();
    t = neelukudam_image_from_text(written, n, made, image_bytes);
    EXPECT(t.refusal == 0 && t.record == 0 && t.image_bytes == image_bytes);
    EXPECT(memcmp(made, image, image_bytes) == 0 && made_kept(image_bytes));
    fill();
    t = neelukudam_image_from_text(written, n, made, NEELUKUDAM_MOST_IMAGE_BYTES);
    EXPECT(t.refusal == 0 && t.record == 0 && t.image_bytes == image_bytes);
    EXPECT(memcmp(made, image, image_bytes) == 0 && made_kept(image_bytes));
    /* one byte too short, and none */
    fill();
    t = neelukudam_image_from_text(written, n, made, image_bytes - 1);
    EXPECT(t.refusal == NEELUKUDAM_REFUSED_FEW_BYTES && t.record == 0 && t.image_bytes == 0);
    t = neelukudam_image_from_text(written, n, NULL, 0);
    EXPECT(t.refusal == NEELUKUDAM_REFUSED_FEW_BYTES && t.record == 0 && t.image_bytes == 0);
    EXPECT(made_kept(0));
}

/* A bad text: refused, with room for an image and without, and every byte stays. */
static void check_bad_text(const char *what, const void *bytes, size_t n, uint32_t refusal, uint32_t record) {
    neelukudam_text_answer t;
    where = what;
    fill();
    t = neelukudam_image_from_text((const uint8_t *)bytes, n, made, NEELUKUDAM_MOST_IMAGE_BYTES);
    EXPECT(t.refusal == refusal && t.record == record && t.image_bytes == 0);
    t = neelukudam_image_from_text((const uint8_t *)bytes, n, NULL, 0);
    EXPECT(t.refusal == refusal && t.record == record && t.image_bytes == 0);
    EXPECT(made_kept(0));
}

static void check_bad_string(const char *string, uint32_t refusal, uint32_t record) {
    check_bad_text(string, string, strlen(string), refusal, record);
}

static void check_bad_texts(void) {
    char line[64];
    size_t n = load("bad_line", "text", written, sizeof written), bytes;
    load("bad_line", "report", stored, sizeof stored);
    snprintf(line, sizeof line, "refused %d %d\n", NEELUKUDAM_REFUSED_LINE, 3);
    where = "bad_line";
    EXPECT(strcmp(line, (const char *)stored) == 0);
    check_bad_text("bad_line", written, n, NEELUKUDAM_REFUSED_LINE, 3);

    check_bad_text("no text", NULL, 0, NEELUKUDAM_REFUSED_LINE, 0);
    check_bad_string("tc 100\nphase 100 40", NEELUKUDAM_REFUSED_LINE, 1);
    check_bad_string("tc 100\nphase 100 40\ntc 100\n", NEELUKUDAM_REFUSED_LINE, 2);
    check_bad_string("tc 0\nphase 100 40\n", NEELUKUDAM_REFUSED_CYCLE, 0);
    check_bad_string("tc 100\n", NEELUKUDAM_REFUSED_COUNTS, 0);
    check_bad_string("tc 100\nphase 50 40\nphase 99 40\n", NEELUKUDAM_REFUSED_PHASE, 1);
    check_bad_string("tc 100\nphase 100 40\nlatch 0 0 0 0:0\nflop 1 0 0 0:0\n", NEELUKUDAM_REFUSED_SYNCHRONIZER, 1);
    check_bad_string("tc 100\nphase 100 40\nlatch 0 0 0 0:0\narc 0 1 0:0\n", NEELUKUDAM_REFUSED_ARC, 0);
    check_bad_string("tc 100\nphase 100 40\nlatch 0 0 0 0:0\narc 0 0 0:0\narc 0 0 0:0\n", NEELUKUDAM_REFUSED_ORDER, 1);

    /* the longest text, and one byte more: a zero before the cycle */
    where = "the longest text";
    n = (size_t)snprintf((char *)written, sizeof written, "tc 001\nphase 1 0\nflop 0 0 0 0:0");
    for (; n + 5 <= NEELUKUDAM_MOST_TEXT_BYTES; n += 4)
        memcpy(written + n, "|0:7", 4);
    written[n++] = '\n';
    bytes = 32 + 8 + 24;
    fill();
    EXPECT(n == NEELUKUDAM_MOST_TEXT_BYTES);
    EXPECT(neelukudam_image_from_text(written, n, made, bytes).image_bytes == bytes && made_kept(bytes));
    EXPECT(made[bytes - 8] == 0 && made[bytes - 4] == 7);
    memmove(written + 4, written + 3, n - 3);
    check_bad_text("one byte too long", written, n + 1, NEELUKUDAM_REFUSED_LINE, 0);
}

int main(int argc, char **argv) {
    static const char *const names[] = {"p1", "p2", "p3", "p4", "p5", "p6", "p7", "p8", "p9", "p10", "p11", "p12", "p13", "p14", "p15"};
    static const uint32_t onward[] = {0, 1, 2}, back[] = {1, 0};
    neelukudam_timing_answer a;
    size_t i;
    if (argc != 2) {
        printf("usage: known FOLDER\n");
        return 2;
    }
    snprintf(folder, sizeof folder, "%s", argv[1]);

    /* the structs lie as the library's do */
    where = "layout";
    EXPECT(sizeof(neelukudam_check_answer) == 24 && offsetof(neelukudam_check_answer, arcs) == 20);
    EXPECT(sizeof(neelukudam_timing_answer) == 32 && offsetof(neelukudam_timing_answer, refusal) == 8);
    EXPECT(offsetof(neelukudam_timing_answer, missed_holds) == 24);
    EXPECT(sizeof(neelukudam_path_answer) == 16 && offsetof(neelukudam_path_answer, arcs) == 12);
    EXPECT(sizeof(neelukudam_text_answer) == 12 && offsetof(neelukudam_text_answer, image_bytes) == 8);
    EXPECT(NEELUKUDAM_NONE == 9223372036854775807);
    EXPECT(NEELUKUDAM_MOST_IMAGE_BYTES ==
           32 + 8 * NEELUKUDAM_MOST_PHASES + 24 * NEELUKUDAM_MOST_SYNCHRONIZERS + 16 * NEELUKUDAM_MOST_ARCS);

    for (i = 0; i < sizeof names / sizeof *names; i++) {
        open_circuit(names[i]);
        check_good();
        check_text(names[i]);
    }

    /* what circuits/README.md says in words */
    open_circuit("p2");
    fill();
    a = neelukudam_timing(image, image_bytes, results, MOST, arcs, MOST);
    EXPECT(a.loop_arcs == 2 && a.gain == 1 && arcs[0] == 1 && arcs[1] == 0);
    EXPECT(result("p1", 0, NEELUKUDAM_SETUP_SLACK) == 30 && result("p1", 1, NEELUKUDAM_HOLD_SLACK) == 30);
    EXPECT(result("p3", 1, NEELUKUDAM_SETUP_SLACK) == 0);
    EXPECT(result("p4", 1, NEELUKUDAM_LATE_ARRIVAL) == 100 && result("p4", 1, NEELUKUDAM_SETUP_SLACK) == -10);
    EXPECT(result("p4", 0, NEELUKUDAM_HOLD_SLACK) == 10 && result("p4", 1, NEELUKUDAM_HOLD_SLACK) == 30);
    EXPECT(result("p5", 0, NEELUKUDAM_EARLY_DEPARTURE) == 60 && result("p5", 0, NEELUKUDAM_LATE_DEPARTURE) == 60);
    EXPECT(result("p5", 1, NEELUKUDAM_EARLY_DEPARTURE) == 80 && result("p5", 1, NEELUKUDAM_LATE_DEPARTURE) == 80);
    EXPECT(result("p7", 1, NEELUKUDAM_SETUP_SLACK) == 2 && result("p7", 1, NEELUKUDAM_HOLD_SLACK) == 0);
    EXPECT(result("p7", 0, NEELUKUDAM_EARLY_ARRIVAL) == NEELUKUDAM_NONE && result("p7", 0, NEELUKUDAM_LATE_ARRIVAL) == NEELUKUDAM_NONE);
    EXPECT(result("p7", 0, NEELUKUDAM_HOLD_SLACK) == NEELUKUDAM_NONE && result("p7", 0, NEELUKUDAM_SETUP_SLACK) == NEELUKUDAM_NONE);
    EXPECT(result("p8", 1, NEELUKUDAM_HOLD_SLACK) == -1);
    EXPECT(result("p9", 1, NEELUKUDAM_LATE_ARRIVAL) == 90 && result("p9", 2, NEELUKUDAM_LATE_ARRIVAL) == 120);
    EXPECT(result("p9", 1, NEELUKUDAM_EARLY_ARRIVAL) == 60 && result("p9", 2, NEELUKUDAM_EARLY_ARRIVAL) == 60);
    EXPECT(result("p9", 1, NEELUKUDAM_SETUP_SLACK) == 10 && result("p9", 2, NEELUKUDAM_SETUP_SLACK) == -20);
    EXPECT(result("p11", 1, NEELUKUDAM_EARLY_ARRIVAL) == -35 && result("p11", 1, NEELUKUDAM_HOLD_SLACK) == -40);
    EXPECT(result("p12", 1, NEELUKUDAM_EARLY_ARRIVAL) == -35 && result("p12", 1, NEELUKUDAM_HOLD_SLACK) == -40);
    EXPECT(result("p13", 0, NEELUKUDAM_EARLY_ARRIVAL) == -35 && result("p13", 0, NEELUKUDAM_LATE_ARRIVAL) == -25);
    EXPECT(result("p13", 1, NEELUKUDAM_EARLY_ARRIVAL) == -25 && result("p13", 1, NEELUKUDAM_LATE_ARRIVAL) == 15);
    EXPECT(result("p14", 1, NEELUKUDAM_HOLD_SLACK) == -2 && result("p14", 2, NEELUKUDAM_SETUP_SLACK) == 17);
    EXPECT(result("p15", 1, NEELUKUDAM_HOLD_SLACK) == -2 && result("p15", 2, NEELUKUDAM_SETUP_SLACK) == 17);
    check_path("p6", 0, 0, back, 2);
    check_path("p9", 2, 0, onward, 2);
    check_path("p9", 1, 0, onward, 1);
    check_path("p11", 1, 0, onward, 1);
    check_path("p12", 1, 0, onward, 1);
    check_path("p14", 2, 2, onward, 3);
    check_path("p15", 2, 2, onward, 3);
    check_no_path("p7", 0, NEELUKUDAM_REFUSED_NO_ARC_IN);
    check_no_path("p9", 0, NEELUKUDAM_REFUSED_NO_ARC_IN);
    check_no_path("p2", 0, NEELUKUDAM_REFUSED_GROWING);
    check_no_path("p10", 0, NEELUKUDAM_REFUSED_NO_SUCH);

    /* P1, damaged: header at 0, phases at 32, synchronizers at 48, arcs at 96 */
    open_circuit("p1");
    where = "31 bytes";
    image_bytes = 31;
    check_refused(NEELUKUDAM_REFUSED_HEADER, 0);
    where = "no byte";
    image_bytes = 0;
    check_refused(NEELUKUDAM_REFUSED_HEADER, 0);
    where = "no image";
    fill();
    EXPECT(neelukudam_check(NULL, 0).refusal == NEELUKUDAM_REFUSED_HEADER);
    EXPECT(neelukudam_timing(NULL, 0, results, MOST, arcs, MOST).refusal == NEELUKUDAM_REFUSED_HEADER);
    EXPECT(neelukudam_path(NULL, 0, 0, arcs, MOST).refusal == NEELUKUDAM_REFUSED_HEADER);
    EXPECT(neelukudam_report(NULL, 0, NULL, 0) == 12 && results_kept(0) && arcs_kept(0));
    open_circuit("p1");
    where = "a byte too few";
    image_bytes -= 1;
    check_refused(NEELUKUDAM_REFUSED_LAYOUT, 0);
    where = "a byte too many";
    image_bytes += 2;
    check_refused(NEELUKUDAM_REFUSED_LAYOUT, 0);
    check_damaged("version 2", 0, 2, NEELUKUDAM_REFUSED_VERSION, 0);
    check_damaged("no cycle", 4, 0, NEELUKUDAM_REFUSED_CYCLE, 0);
    check_damaged("a cycle too long", 4, 1000000001, NEELUKUDAM_REFUSED_CYCLE, 0);
    check_damaged("no phase", 8, 0, NEELUKUDAM_REFUSED_COUNTS, 0);
    check_damaged("17 phases", 8, 17, NEELUKUDAM_REFUSED_COUNTS, 0);
    check_damaged("513 synchronizers", 12, 513, NEELUKUDAM_REFUSED_COUNTS, 0);
    check_damaged("2049 arcs", 16, 2049, NEELUKUDAM_REFUSED_COUNTS, 0);
    check_damaged("an offset", 24, 49, NEELUKUDAM_REFUSED_LAYOUT, 0);
    check_damaged("a phase too long", 36, 101, NEELUKUDAM_REFUSED_PHASE, 0);
    check_damaged("the last phase early", 40, 99, NEELUKUDAM_REFUSED_PHASE, 1);
    check_damaged("no such phase", 48, 2, NEELUKUDAM_REFUSED_SYNCHRONIZER, 0);
    check_damaged("kind 2", 76, 2, NEELUKUDAM_REFUSED_SYNCHRONIZER, 1);
    check_damaged("an arc from nowhere", 96, 2, NEELUKUDAM_REFUSED_ARC, 0);
    check_damaged("least above greatest", 120, 61, NEELUKUDAM_REFUSED_ARC, 1);
    check_damaged("arcs out of order", 116, 0, NEELUKUDAM_REFUSED_ORDER, 1);

    check_largest();
    check_bad_texts();

    printf("known: %d passed, %d failed\n", passed, failed);
    return failed != 0;
}
