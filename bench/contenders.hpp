// Who is timed. Each takes an image's bytes and gives the late departures of the synchronizers, or says that a ring grows.
#pragma once
#include <cstddef>
#include <cstdint>

struct TimingAnswer {
    int64_t gain;
    uint32_t refusal, record, loop_arcs, missed_setups, missed_holds;
};

struct TextAnswer {
    uint32_t refusal, record, image_bytes;
};

enum Outcome : uint32_t { TIMED = 0, GROWING = 1, REFUSED = 2 };

extern "C" {
// The library, proved in Rattle: the whole call. Its module is made for x86-64's calling convention, where a struct of this size is written to a
// place whose address comes first. That stays so where the module is compiled for another machine, whose convention may be another.
#ifdef __x86_64__
TimingAnswer neelukudam_timing(const uint8_t *image, size_t n, int64_t *results, size_t results_len, uint32_t *arcs, size_t arcs_len);
#else
void *neelukudam_timing(TimingAnswer *answer, const uint8_t *image, size_t n, int64_t *results, size_t results_len, uint32_t *arcs, size_t arcs_len);
#endif

// A struct of this size comes back in registers, and in the same ones by x86-64's convention as by others.
TextAnswer neelukudam_image_from_text(const uint8_t *text, size_t n, uint8_t *image, size_t image_len);

// The wrappers are what callgrind collects, so they are calls of their own. ours and rust write 6 numbers a synchronizer; the other two write
// late departures only, one a synchronizer.
uint32_t run_ours(const uint8_t *image, size_t n, int64_t *out, size_t out_len, uint32_t *arcs, size_t arcs_len);
uint32_t run_rust(const uint8_t *image, size_t n, int64_t *out, size_t out_len, uint32_t *arcs, size_t arcs_len);
uint32_t run_lemon(const uint8_t *image, size_t n, int64_t *out, size_t out_len, uint32_t *arcs, size_t arcs_len);
uint32_t run_boost(const uint8_t *image, size_t n, int64_t *out, size_t out_len, uint32_t *arcs, size_t arcs_len);

// From a text to its image: the image's length, or 0 where the text is refused.
uint32_t run_ours_text(const uint8_t *text, size_t n, uint8_t *image, size_t image_len);
uint32_t run_rust_text(const uint8_t *text, size_t n, uint8_t *image, size_t image_len);
}

// Ours, by either convention.
inline TimingAnswer ours(const uint8_t *image, size_t n, int64_t *results, size_t results_len, uint32_t *arcs, size_t arcs_len) {
#ifdef __x86_64__
    return neelukudam_timing(image, n, results, results_len, arcs, arcs_len);
#else
    TimingAnswer answer;
    neelukudam_timing(&answer, image, n, results, results_len, arcs, arcs_len);
    return answer;
#endif
}
