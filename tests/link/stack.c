/* How much stack each call takes on the inputs that go deepest, held to the numbers of the header. A call runs on a thread whose stack
 * was painted; what is still painted afterwards was not used. An empty thread is measured too, and taken off. */
#define _POSIX_C_SOURCE 200809L
#include <neelukudam.h>

#include <pthread.h>
#include <stdio.h>
#include <stdlib.h>
#include <string.h>

enum { AREA = 8 << 20, PAINT = 0xa5, L = NEELUKUDAM_MOST_SYNCHRONIZERS };

static uint8_t image[NEELUKUDAM_MOST_IMAGE_BYTES];
static size_t image_bytes;
static int64_t results[NEELUKUDAM_RESULTS * L];
static uint32_t arcs[L];
static uint8_t text[NEELUKUDAM_MOST_REPORT_BYTES];
static char written[NEELUKUDAM_MOST_TEXT_BYTES + 1];
static size_t written_bytes;
static uint8_t made[NEELUKUDAM_MOST_IMAGE_BYTES];
static uint32_t outcome;

static void word(uint32_t value) {
    int i;
    for (i = 0; i < 4; i++)
        image[image_bytes++] = (uint8_t)(value >> (8 * i));
}

/* All latches on one phase, in a ring: arc i leads into latch i from the one before it. Each arc but the first takes the longest delay that there
 * is, so each latch departs because of the one before; the first arc decides whether the ring grows. */
static void ring(uint32_t first_arc) {
    uint32_t i;
    const uint32_t tc = 1000000000, offset = 32 + 8;
    image_bytes = 0;
    word(1), word(tc), word(1), word(L), word(L), word(32), word(offset), word(offset + 24 * L);
    word(tc), word(tc / 2);
    for (i = 0; i < L; i++)
        word(0), word(0), word(1), word(1), word(0), word(1);
    for (i = 0; i < L; i++)
        word((i + L - 1) % L), word(i), word(0), word(i == 0 ? first_arc : tc);
}

static void put(const char *line) { written_bytes += (size_t)sprintf(written + written_bytes, "%s", line); }

/* All flip-flops that there may be, and as many arcs as the longest text has room for. The delay of the last arc has brackets as deep as the word says.
 * Gives the number of arcs. */
static uint32_t write_text(int depth) {
    uint32_t i, side = 45;
    int k;
    char line[64];
    written_bytes = 0;
    put("tc 1\nphase 1 0\n");
    for (i = 0; i < L; i++)
        put("flop 0 0 0 0:0\n");
    for (i = 0; written_bytes + 80 <= NEELUKUDAM_MOST_TEXT_BYTES; i++) {
        snprintf(line, sizeof line, "arc %u %u 0:0\n", (unsigned)(i % side), (unsigned)(i / side));
        put(line);
    }
    snprintf(line, sizeof line, "arc %u %u ", (unsigned)(i % side), (unsigned)(i / side));
    put(line);
    for (k = 0; k < depth; k++)
        put("(");
    put("0:1|0:2+0:3");
    for (k = 0; k < depth; k++)
        put(")");
    put("\n");
    return i + 1;
}

static void *nothing(void *unused) { return unused; }
static void *check(void *unused) {
    outcome = neelukudam_check(image, image_bytes).refusal;
    return unused;
}
static void *timing(void *unused) {
    outcome = neelukudam_timing(image, image_bytes, results, sizeof results / sizeof *results, arcs, L).loop_arcs;
    return unused;
}
static void *path(void *unused) {
    outcome = neelukudam_path(image, image_bytes, 0, arcs, L).arcs;
    return unused;
}
static void *report(void *unused) {
    outcome = (uint32_t)neelukudam_report(image, image_bytes, text, sizeof text);
    return unused;
}

static void *image_from_text(void *unused) {
    neelukudam_text_answer t = neelukudam_image_from_text((const uint8_t *)written, written_bytes, made, sizeof made);
    outcome = t.refusal ? t.record : t.image_bytes;
    return unused;
}

/* Bytes from the top of the stack down to the lowest that changed. */
static size_t used(void *(*call)(void *)) {
    static unsigned char *area;
    pthread_attr_t attributes;
    pthread_t thread;
    size_t low = 0;
    if (!area) {
        void *got;
        if (posix_memalign(&got, 4096, AREA))
            exit(2);
        area = (unsigned char *)got;
    }
    memset(area, PAINT, AREA);
    if (pthread_attr_init(&attributes) || pthread_attr_setstack(&attributes, area, AREA) || pthread_create(&thread, &attributes, call, NULL) ||
        pthread_join(thread, NULL)) {
        printf("stack: cannot start a thread\n");
        exit(2);
    }
    pthread_attr_destroy(&attributes);
    while (low < AREA && area[low] == PAINT)
        low++;
    return AREA - low;
}

static int passed, failed;

static void hold(const char *name, void *(*call)(void *), uint32_t meant, size_t most) {
    size_t empty = used(nothing), n = used(call) - empty;
    int good = n <= most && outcome == meant;
    printf("stack: %s %zu bytes of %zu%s\n", name, n, most, good ? "" : outcome == meant ? ": MORE THAN THE HEADER SAYS" : ": ANOTHER OUTCOME");
    passed += good;
    failed += !good;
}

int main(void) {
    uint32_t m;
    ring(1000000000);
    hold("check", check, 0, NEELUKUDAM_STACK_CHECK);
    hold("timing, a loop", timing, L, NEELUKUDAM_STACK_TIMING);
    hold("report, a loop", report, (uint32_t)neelukudam_report(image, image_bytes, NULL, 0), NEELUKUDAM_STACK_REPORT);
    ring(0);
    hold("timing", timing, 0, NEELUKUDAM_STACK_TIMING);
    hold("path", path, L, NEELUKUDAM_STACK_PATH);
    hold("report", report, (uint32_t)neelukudam_report(image, image_bytes, NULL, 0), NEELUKUDAM_STACK_REPORT);
    m = write_text(16);
    hold("image from text", image_from_text, 32 + 8 + 24 * L + 16 * m, NEELUKUDAM_STACK_IMAGE_FROM_TEXT);
    m = write_text(17);
    hold("image from text, refused", image_from_text, 1 + L + m, NEELUKUDAM_STACK_IMAGE_FROM_TEXT);
    printf("stack: %d passed, %d failed\n", passed, failed);
    return failed != 0;
}
