// The image as a C++ program reads it that trusts its input: no rule is checked.
#pragma once
#include <cstdint>
#include <cstring>

struct View {
    const uint8_t *bytes;
    uint32_t cycle, k, l, m;
    const uint8_t *phases, *synchronizers, *arcs;

    static uint32_t word(const uint8_t *at) {
        uint32_t w;
        std::memcpy(&w, at, 4);
        return w;
    }
    explicit View(const uint8_t *b) : bytes(b), cycle(word(b + 4)), k(word(b + 8)), l(word(b + 12)), m(word(b + 16)), phases(b + 32) {
        synchronizers = phases + 8 * k;
        arcs = synchronizers + 24 * l;
    }
    uint32_t closing(uint32_t p) const { return word(phases + 8 * p); }
    uint32_t active(uint32_t p) const { return word(phases + 8 * p + 4); }
    uint32_t phase(uint32_t i) const { return word(synchronizers + 24 * i); }
    bool flop(uint32_t i) const { return word(synchronizers + 24 * i + 4) == 1; }
    uint32_t greatest(uint32_t i) const { return word(synchronizers + 24 * i + 20); }
    uint32_t from(uint32_t a) const { return word(arcs + 16 * a); }
    uint32_t to(uint32_t a) const { return word(arcs + 16 * a + 4); }
    // When a synchronizer departs at the least.
    int64_t launch(uint32_t i) const { return flop(i) ? cycle : cycle - active(phase(i)); }
    // What an arc adds to its source's late departure.
    int64_t weight(uint32_t a) const {
        int64_t shift = static_cast<int64_t>(closing(phase(to(a)))) - closing(phase(from(a)));
        if (shift <= 0) shift += cycle;
        if (shift == 0) shift = cycle;
        return static_cast<int64_t>(greatest(from(a))) + word(arcs + 16 * a + 12) - shift;
    }
};
