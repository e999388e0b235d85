// Times the contenders on the rows. No words: all of them, interleaved; prints a table of circuits and one of texts. `rows`, `texts`: their names.
// `ROW CONTENDER TIMES`: calls one that often, for callgrind.
#include <algorithm>
#include <chrono>
#include <cstdio>
#include <cstdlib>
#include <cstring>
#include <string>
#include <vector>

#include "contenders.hpp"
#include "reading.hpp"
#include "rows.hpp"

uint32_t run_ours(const uint8_t *image, size_t n, int64_t *out, size_t out_len, uint32_t *arcs, size_t arcs_len) {
    TimingAnswer a = ours(image, n, out, out_len, arcs, arcs_len);
    return a.refusal ? REFUSED : a.loop_arcs ? GROWING : TIMED;
}

uint32_t run_ours_text(const uint8_t *text, size_t n, uint8_t *image, size_t image_len) {
    return neelukudam_image_from_text(text, n, image, image_len).image_bytes;
}

namespace {

using Run = uint32_t (*)(const uint8_t *, size_t, int64_t *, size_t, uint32_t *, size_t);

struct Contender {
    const char *name;
    Run run;
    // Six numbers a synchronizer and the arcs of a growing ring, or late departures alone?
    bool six;
};

const Contender CONTENDERS[] = {{"ours", run_ours, true}, {"rust", run_rust, true}, {"lemon", run_lemon, false}, {"boost", run_boost, false}};

constexpr size_t RESULTS = 6 * 512, ARCS = 512;

uint32_t call(const Contender &c, const Row &row, int64_t *out, uint32_t *arcs) {
    return c.run(row.image.data(), row.image.size(), out, RESULTS, arcs, ARCS);
}

constexpr uint32_t UNTOUCHED = 0xffffffff;

// Are the arcs at the front of the buffer a ring of latches with a gain?
bool is_ring(const Row &row, const std::vector<uint32_t> &arcs) {
    View v(row.image.data());
    std::vector<bool> left(v.l);
    int64_t gain = 0;
    size_t n = 0;
    for (; n < arcs.size() && arcs[n] != UNTOUCHED; n++) {
        uint32_t a = arcs[n];
        if (a >= v.m || v.flop(v.from(a)) || left[v.from(a)]) return false;
        if (n > 0 && v.from(a) != v.to(arcs[n - 1])) return false;
        left[v.from(a)] = true;
        gain += v.weight(a);
    }
    return n > 0 && v.to(arcs[n - 1]) == v.from(arcs[0]) && gain > 0;
}

// Who differs is not worth timing.
void compare(const Row &row) {
    std::vector<int64_t> first(RESULTS), other(RESULTS);
    std::vector<uint32_t> arcs(ARCS);
    for (const Contender &c : CONTENDERS) {
        std::vector<int64_t> &out = c.run == run_ours ? first : other;
        std::fill(out.begin(), out.end(), -1);
        std::fill(arcs.begin(), arcs.end(), UNTOUCHED);
        uint32_t outcome = call(c, row, out.data(), arcs.data());
        if (outcome != (row.growing ? GROWING : TIMED)) {
            std::fprintf(stderr, "%s: %s has outcome %u\n", row.name.c_str(), c.name, outcome);
            std::exit(1);
        }
        if (row.growing) {
            if (c.six && !is_ring(row, arcs)) {
                std::fprintf(stderr, "%s: %s shows no growing ring\n", row.name.c_str(), c.name);
                std::exit(1);
            }
            continue;
        }
        for (uint32_t i = 0; i < row.synchronizers; i++) {
            bool same = c.six ? std::equal(&first[6 * i], &first[6 * i] + 6, &out[6 * i]) : first[6 * i + 1] == out[i];
            if (!same) {
                std::fprintf(stderr, "%s: %s differs at synchronizer %u\n", row.name.c_str(), c.name, i);
                std::exit(1);
            }
        }
    }
}

double microseconds(const Contender &c, const Row &row, unsigned times) {
    static int64_t out[RESULTS];
    static uint32_t arcs[ARCS];
    auto start = std::chrono::steady_clock::now();
    for (unsigned t = 0; t < times; t++) call(c, row, out, arcs);
    std::chrono::duration<double, std::micro> took = std::chrono::steady_clock::now() - start;
    return took.count() / times;
}

void table(const std::vector<Row> &all, unsigned turns) {
    std::puts("| circuit | synchronizers | arcs | ours, microseconds | ours / Rust | ours / LEMON | ours / Boost |");
    std::puts("|---|--:|--:|--:|--:|--:|--:|");
    for (const Row &row : all) {
        double best[4];
        unsigned times[4];
        // Batches long enough for the clock, short enough to slip between what else the machine does.
        for (int c = 0; c < 4; c++) {
            best[c] = microseconds(CONTENDERS[c], row, 1);
            times[c] = std::max(1u, static_cast<unsigned>(100 / best[c]));
        }
        for (unsigned t = 0; t < turns; t++)
            for (int c = 0; c < 4; c++) best[c] = std::min(best[c], microseconds(CONTENDERS[c], row, times[c]));
        std::printf("| %s | %u | %u | %.2f | %.2f | %.2f | %.2f |\n", row.name.c_str(), row.synchronizers, row.arcs, best[0], best[0] / best[1],
                    best[0] / best[2], best[0] / best[3]);
        std::fflush(stdout);
    }
}

// ---- From a text to its image. ----

using RunText = uint32_t (*)(const uint8_t *, size_t, uint8_t *, size_t);

struct TextContender {
    const char *name;
    RunText run;
};

const TextContender TEXT_CONTENDERS[] = {{"ours", run_ours_text}, {"rust", run_rust_text}};

constexpr size_t IMAGE_BYTES = 45216;

uint32_t call(const TextContender &c, const TextRow &row, uint8_t *image) {
    return c.run(reinterpret_cast<const uint8_t *>(row.text.data()), row.text.size(), image, IMAGE_BYTES);
}

// Both give an image, the same, and leave the bytes behind it. Returns its length.
uint32_t compare(const TextRow &row) {
    std::vector<uint8_t> first(IMAGE_BYTES, 0xa5), other(IMAGE_BYTES, 0xa5);
    uint32_t bytes = call(TEXT_CONTENDERS[0], row, first.data());
    if (bytes == 0 || call(TEXT_CONTENDERS[1], row, other.data()) != bytes || first != other) {
        std::fprintf(stderr, "%s: no image, or another\n", row.name.c_str());
        std::exit(1);
    }
    return bytes;
}

double microseconds(const TextContender &c, const TextRow &row, unsigned times) {
    static uint8_t image[IMAGE_BYTES];
    auto start = std::chrono::steady_clock::now();
    for (unsigned t = 0; t < times; t++) call(c, row, image);
    std::chrono::duration<double, std::micro> took = std::chrono::steady_clock::now() - start;
    return took.count() / times;
}

void table(const std::vector<TextRow> &all, unsigned turns) {
    std::puts("\n| text | its bytes | bytes of the image | ours, microseconds | ours / Rust |");
    std::puts("|---|--:|--:|--:|--:|");
    for (const TextRow &row : all) {
        double best[2];
        unsigned times[2];
        for (int c = 0; c < 2; c++) {
            best[c] = microseconds(TEXT_CONTENDERS[c], row, 1);
            times[c] = std::max(1u, static_cast<unsigned>(100 / best[c]));
        }
        for (unsigned t = 0; t < turns; t++)
            for (int c = 0; c < 2; c++) best[c] = std::min(best[c], microseconds(TEXT_CONTENDERS[c], row, times[c]));
        std::printf("| %s | %zu | %u | %.2f | %.2f |\n", row.name.c_str(), row.text.size(), compare(row), best[0], best[0] / best[1]);
        std::fflush(stdout);
    }
}

}  // namespace

int main(int count, char **words) {
    std::vector<Row> all = rows();
    std::vector<TextRow> texts = text_rows();
    if (count == 2 && !std::strcmp(words[1], "texts")) {
        for (const TextRow &row : texts) std::printf("%s|%zu|%u\n", row.name.c_str(), row.text.size(), compare(row));
        return 0;
    }
    if (count == 2 && !std::strcmp(words[1], "rows")) {
        for (const Row &row : all) std::printf("%s|%u|%u\n", row.name.c_str(), row.synchronizers, row.arcs);
        return 0;
    }
    if (count == 4) {
        static int64_t out[RESULTS];
        static uint32_t arcs[ARCS];
        for (const Row &row : all)
            for (const Contender &c : CONTENDERS)
                if (row.name == words[1] && !std::strcmp(c.name, words[2]))
                    for (int t = std::atoi(words[3]); t > 0; t--) call(c, row, out, arcs);
        static uint8_t image[IMAGE_BYTES];
        for (const TextRow &row : texts)
            for (const TextContender &c : TEXT_CONTENDERS)
                if (row.name == words[1] && !std::strcmp(c.name, words[2]))
                    for (int t = std::atoi(words[3]); t > 0; t--) call(c, row, image);
        return 0;
    }
    for (const Row &row : all) compare(row);
    for (const TextRow &row : texts) compare(row);
    unsigned turns = count == 2 ? static_cast<unsigned>(std::atoi(words[1])) : 400;
    table(all, turns);
    table(texts, turns);
}
