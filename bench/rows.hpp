// The circuits that are timed, as images, and the texts that images are made from. Everything is made from fixed seeds, so that each run times the same bytes.
#pragma once
#include <cstdint>
#include <string>
#include <vector>

struct Phase {
    uint32_t closing, active;
};

struct Synchronizer {
    uint32_t phase, kind, setup, hold, least, greatest;
};

struct Arc {
    uint32_t from, to, least, greatest;
};

struct Circuit {
    uint32_t cycle = 1;
    std::vector<Phase> phases;
    std::vector<Synchronizer> synchronizers;
    std::vector<Arc> arcs;
};

struct Row {
    std::string name;
    std::vector<uint8_t> image;
    uint32_t synchronizers, arcs;
    bool growing;
};

std::vector<Row> rows();

struct TextRow {
    std::string name, text;
};

std::vector<TextRow> text_rows();
