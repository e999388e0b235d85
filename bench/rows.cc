#include "rows.hpp"

#include <algorithm>
#include <cstdlib>
#include <initializer_list>
#include <set>
#include <utility>

namespace {

// A generator of our own, so that a library's change changes no circuit.
struct Chance {
    uint64_t state;
    uint64_t next() {
        state += 0x9e3779b97f4a7c15ull;
        uint64_t z = state;
        z = (z ^ (z >> 30)) * 0xbf58476d1ce4e5b9ull;
        z = (z ^ (z >> 27)) * 0x94d049bb133111ebull;
        return z ^ (z >> 31);
    }
    uint32_t below(uint64_t n) { return n == 0 ? 0 : static_cast<uint32_t>(next() % n); }
};

void put(std::vector<uint8_t> &out, uint32_t word) {
    for (int i = 0; i < 4; i++) out.push_back(static_cast<uint8_t>(word >> (8 * i)));
}

std::vector<uint8_t> image_of(Circuit c) {
    std::sort(c.arcs.begin(), c.arcs.end(), [](const Arc &a, const Arc &b) { return a.to != b.to ? a.to < b.to : a.from < b.from; });
    uint32_t k = c.phases.size(), l = c.synchronizers.size(), m = c.arcs.size();
    std::vector<uint8_t> out;
    for (uint32_t word : {1u, c.cycle, k, l, m, 32u, 32 + 8 * k, 32 + 8 * k + 24 * l}) put(out, word);
    for (const Phase &p : c.phases)
        for (uint32_t word : {p.closing, p.active}) put(out, word);
    for (const Synchronizer &s : c.synchronizers)
        for (uint32_t word : {s.phase, s.kind, s.setup, s.hold, s.least, s.greatest}) put(out, word);
    for (const Arc &a : c.arcs)
        for (uint32_t word : {a.from, a.to, a.least, a.greatest}) put(out, word);
    return out;
}

// From a closing of the source's phase to the next, later one of the target's, which is a cycle away at most.
int64_t shift(const Circuit &c, uint32_t from, uint32_t to) {
    int64_t closes = c.phases[c.synchronizers[from].phase].closing, next = c.phases[c.synchronizers[to].phase].closing;
    while (next <= closes) next += c.cycle;
    return std::min<int64_t>(next - closes, c.cycle);
}

// The ring P1.
Circuit two() {
    Circuit c;
    c.cycle = 100;
    c.phases = {{50, 40}, {100, 40}};
    c.synchronizers = {{0, 0, 10, 5, 5, 10}, {1, 0, 10, 5, 5, 10}};
    c.arcs = {{1, 0, 10, 20}, {0, 1, 20, 60}};
    return c;
}

// A circuit as a pipeline with feedback has it: one flip-flop in eight, arcs from anywhere. Each synchronizer has an aim that is not below its
// opening, and no arc brings more than the aim of where it leads from the aim of where it comes from: so no ring grows. A ring of `ring` latches,
// if any, brings every aim exactly, and in one place a tick more: it grows.
Circuit typical(uint64_t seed, uint32_t k, uint32_t l, uint32_t m, uint32_t ring) {
    Chance chance{seed};
    Circuit c;
    c.cycle = 10000;
    for (uint32_t p = 0; p < k; p++) c.phases.push_back({c.cycle * (p + 1) / k, c.cycle / k - 200});
    std::vector<int64_t> aim(l);
    for (uint32_t i = 0; i < l; i++) {
        uint32_t kind = i >= ring && chance.below(8) == 0;
        uint32_t greatest = 100 + chance.below(100);
        // Neighbours in a pipeline have neighbouring phases.
        c.synchronizers.push_back({i % k, kind, 50 + chance.below(50), 20 + chance.below(30), greatest - chance.below(60), greatest});
        int64_t opening = c.cycle - c.phases[i % k].active;
        aim[i] = opening + (chance.below(2) ? chance.below(c.phases[i % k].active / 2) : 0);
    }
    auto room = [&](uint32_t from, uint32_t to) {
        int64_t start = c.synchronizers[from].kind ? c.cycle : aim[from];
        return aim[to] + shift(c, from, to) - start - c.synchronizers[from].greatest;
    };
    std::set<std::pair<uint32_t, uint32_t>> taken;
    auto add = [&](uint32_t from, uint32_t to, int64_t greatest) {
        taken.insert({from, to});
        uint32_t least = static_cast<uint32_t>(greatest / 3 + chance.below(greatest / 2 + 1));
        c.arcs.push_back({from, to, least, static_cast<uint32_t>(greatest)});
    };
    for (uint32_t x = 0; x < ring; x++) {
        uint32_t from = x, to = (x + 1) % ring;
        int64_t most = room(from, to);
        if (most < 0) std::abort();
        add(from, to, most + (x == 0));
    }
    while (c.arcs.size() < m) {
        uint32_t to = static_cast<uint32_t>(c.arcs.size() * l / m);
        uint32_t from = chance.below(l);
        int64_t most = room(from, to);
        if (most < 0 || taken.count({from, to})) continue;
        // A third of the arcs are as long as may be: they hold later synchronizers back.
        add(from, to, chance.below(3) == 0 ? most : most / 2 + chance.below(most / 2 + 1));
    }
    return c;
}

// Latches on one phase, so every shift is the cycle; an arc of delay cycle + w raises by w. Openings are all the same.
Circuit flat(uint32_t l) {
    Circuit c;
    c.cycle = 1000000;
    c.phases = {{c.cycle, c.cycle / 2}};
    for (uint32_t i = 0; i < l; i++) c.synchronizers.push_back({0, 0, 0, 0, 0, 0});
    return c;
}

void raise(Circuit &c, uint32_t from, uint32_t to, int64_t by) {
    uint32_t delay = static_cast<uint32_t>(c.cycle + by);
    // Least and greatest are the same, so that early times have as far to go as late ones.
    c.arcs.push_back({from, to, delay, delay});
}

// Each latch departs a tick after the one before it. `down`: the numbers fall along the chain.
Circuit chain(uint32_t l, bool down) {
    Circuit c = flat(l);
    for (uint32_t i = 0; i + 1 < l; i++) down ? raise(c, i + 1, i, 1) : raise(c, i, i + 1, 1);
    return c;
}

// A falling chain with four arcs into each latch, where nearer sources bring more: whoever goes through the latches in their order raises every
// latch once for each latch before it on the chain, l * (l - 1) / 2 times in all, and in rounds no circuit changes more often. The last four
// have all four as sources, which closes rings that lose. Early times change a quarter as often: an arc that cannot decide late can decide early.
Circuit settling(uint32_t l) {
    Circuit c = flat(l);
    for (uint32_t i = 0; i < l; i++)
        for (uint32_t d = 0; d < 4; d++) {
            uint32_t from = i + 4 < l ? i + 1 + d : l - 4 + d;
            raise(c, from, i, from > i ? 1 : -static_cast<int64_t>(2 * l));
        }
    return c;
}

// The same numbered by chance.
Circuit mixed(Circuit c, uint64_t seed) {
    Chance chance{seed};
    uint32_t l = c.synchronizers.size();
    std::vector<uint32_t> name(l);
    for (uint32_t i = 0; i < l; i++) name[i] = i;
    for (uint32_t i = l; i > 1; i--) std::swap(name[i - 1], name[chance.below(i)]);
    for (Arc &a : c.arcs) a.from = name[a.from], a.to = name[a.to];
    return c;
}

// A chain that every latch after leads back along, and two arcs more into each from anywhere, all of them too weak to raise anything. So every latch
// lies on rings, and no order of the latches follows from the arcs.
Circuit rings(uint32_t l, uint64_t seed) {
    Chance chance{seed};
    Circuit c = flat(l);
    std::set<std::pair<uint32_t, uint32_t>> taken;
    auto add = [&](uint32_t from, uint32_t to, int64_t by) {
        if (taken.insert({from, to}).second) raise(c, from, to, by);
    };
    for (uint32_t i = 0; i + 1 < l; i++) {
        add(i, i + 1, 1);
        add(i + 1, i, -static_cast<int64_t>(2 * l));
    }
    for (uint32_t i = 0; i < l; i++)
        for (uint32_t d = 0; d < 2; d++) add(chance.below(l), i, -static_cast<int64_t>(2 * l));
    return c;
}

// A ring of all latches with a gain of 1. Plain: one arc raises by 1. Steep: every arc but one does, the last takes the rest back, and the
// numbers fall, so that every round raises nearly every latch.
Circuit ring(uint32_t l, bool steep) {
    Circuit c = flat(l);
    for (uint32_t i = 0; i < l; i++) {
        uint32_t j = (i + 1) % l;
        if (steep)
            raise(c, j, i, j == 0 ? 2 - static_cast<int64_t>(l) : 1);
        else
            raise(c, i, j, j == 0 ? 1 : 0);
    }
    return c;
}

}  // namespace

std::vector<Row> rows() {
    std::vector<Row> out;
    auto add = [&](std::string name, const Circuit &c, bool growing) {
        out.push_back({name, image_of(c), static_cast<uint32_t>(c.synchronizers.size()), static_cast<uint32_t>(c.arcs.size()), growing});
    };
    add("two latches", two(), false);
    add("typical 64", typical(1, 2, 64, 256, 0), false);
    add("typical 512", typical(2, 4, 512, 2040, 0), false);
    add("chain, rising", chain(512, false), false);
    add("chain, falling", chain(512, true), false);
    add("chain, mixed", mixed(chain(512, true), 3), false);
    add("worst settling", settling(512), false);
    add("worst settling, mixed", mixed(settling(512), 4), false);
    add("chain in rings", rings(512, 6), false);
    add("chain in rings, mixed", mixed(rings(512, 6), 7), false);
    add("growing ring", ring(512, false), true);
    add("growing ring, steep", ring(512, true), true);
    add("typical, growing", typical(5, 4, 512, 2040, 8), true);
    return out;
}

namespace {

std::string text_of(Circuit c) {
    std::sort(c.arcs.begin(), c.arcs.end(), [](const Arc &a, const Arc &b) { return a.to != b.to ? a.to < b.to : a.from < b.from; });
    auto line = [](const char *word, std::initializer_list<uint32_t> numbers) {
        std::string out = word;
        for (uint32_t number : numbers) out += " " + std::to_string(number);
        return out;
    };
    auto window = [](uint32_t least, uint32_t greatest) { return " " + std::to_string(least) + ":" + std::to_string(greatest) + "\n"; };
    std::string text = line("tc", {c.cycle}) + "\n";
    for (const Phase &p : c.phases) text += line("phase", {p.closing, p.active}) + "\n";
    for (const Synchronizer &s : c.synchronizers) text += line(s.kind ? "flop" : "latch", {s.phase, s.setup, s.hold}) + window(s.least, s.greatest);
    for (const Arc &a : c.arcs) text += line("arc", {a.from, a.to}) + window(a.least, a.greatest);
    return text;
}

// 512 flip-flops and as many arcs as a text has room for, by the shortest lines there are: those first whose ends have the fewest digits.
Circuit largest_written() {
    Circuit c;
    c.phases = {{0, 0}, {1, 0}};
    c.synchronizers.assign(512, {0, 1, 0, 0, 0, 0});
    auto digits = [](uint32_t number) { return number < 10 ? 1 : number < 100 ? 2 : 3; };
    for (int both = 2; both <= 4; both++)
        for (uint32_t to = 0; to < 512; to++)
            for (uint32_t from = 0; from < 512 && c.arcs.size() < 1933; from++)
                if (digits(from) + digits(to) == both) c.arcs.push_back({from, to, 0, 0});
    return c;
}

// One flip-flop, whose delay is `count` times the atom, joined by the sign.
std::string one_window(const std::string &atom, char sign, uint32_t count) {
    std::string text = "tc 9\nphase 9 1\nflop 0 0 0 " + atom;
    for (uint32_t i = 1; i < count; i++) text += sign + atom;
    return text + "\n";
}

}  // namespace

std::vector<TextRow> text_rows() {
    std::string open(16, '('), close(16, ')');
    return {
        {"text of two latches", text_of(two())},
        {"text of typical 64", text_of(typical(1, 2, 64, 256, 0))},
        {"text of typical 256", text_of(typical(8, 4, 256, 1020, 0))},
        {"text of the largest image", text_of(largest_written())},
        {"deepest brackets", one_window(open + "0:1" + close, '+', 909)},
        {"longest sum", one_window("0:1", '+', 8185)},
        {"longest branches", one_window("0:1000000000", '|', 2518)},
    };
}
