#!/usr/bin/env python3
"""The circuits with known numbers as image files and as texts, and the report of each.

`python3 tests/circuits.py` writes circuits/p1.image to circuits/p15.image and circuits/too_long.image, each with its report beside it;
circuits/p1.text to circuits/p15.text, and circuits/bad_line.text with its refusal; and the stored run of each program, which is P1: stdin and
stdout in crates/neelukudam and crates/neelukudam_text. tests/link/run runs the programs on all of them.
`python3 tests/circuits.py --check` only compares, and ends with status 1 where something differs.
`python3 tests/circuits.py FILE...` prints the report of each image file.

The reports come from the engine below. It was written from the rules (docs/RULES.md): departures are raised in place until nothing
changes. The reports that were given with the rules, and those of P11 to P15, are held against it by hand.

The texts of the circuits stand below as a person writes them. None is stored before the reading below gives the stored image for it.
"""
import pathlib
import re
import struct
import sys

from image_cases import CASES, GOOD, LIMIT, build, judge, known_circuits, largest
from stored import ROOT, store

MARK = 2**63 - 1


def read(image):
    _, tc, k, l, m, phases_at, synchronizers_at, arcs_at = struct.unpack_from("<8I", image)
    phases = [struct.unpack_from("<2I", image, phases_at + 8 * i) for i in range(k)]
    synchronizers = [struct.unpack_from("<6I", image, synchronizers_at + 24 * i) for i in range(l)]
    arcs = [struct.unpack_from("<4I", image, arcs_at + 16 * i) for i in range(m)]
    return tc, phases, synchronizers, arcs


def shift(tc, phases, i, j):
    """The shift from one phase to another: how far round the cycle the other closes. That is never 0: where both close together, as they do at
    0 and at Tc too, it is once round."""
    return (phases[j][0] - phases[i][0]) % tc or tc


def weights(tc, phases, synchronizers, arcs, least):
    """What each arc adds to a departure, by least or by greatest delays."""
    pick = 0 if least else 1
    return [
        synchronizers[a][4 + pick] + window[pick] - shift(tc, phases, synchronizers[a][0], synchronizers[b][0])
        for a, b, *window in arcs
    ]


def solve(start, latch, arcs, weight, best, order=None):
    """Departures raised in place, in the order given, until they fit; or None where they rise for ever."""
    entering, leaving = [[] for _ in start], [[] for _ in start]
    for (a, b, *_), w in zip(arcs, weight):
        if latch[b]:
            entering[b].append((a, w))
            leaving[a].append(b)
    departs = list(start)
    due = [bool(times) for times in entering]
    for _ in range(len(start) + 1):
        for i in order or range(len(start)):
            if due[i]:
                due[i] = False
                time = max(start[i], best(departs[a] + w for a, w in entering[i]))
                if time != departs[i]:
                    departs[i] = time
                    for b in leaving[i]:
                        due[b] = True
        if not any(due):
            return departs
    return None


def ring(start, latch, arcs, weight):
    """A ring of latches whose gain is above zero. After as many rounds as there are latches some departure still rises: the way back
    over the arcs that raised last passes some latch twice."""
    departs, raised = list(start), [None] * len(start)
    for _ in range(len(start) + 1):
        for x, ((a, b, *_), w) in enumerate(zip(arcs, weight)):
            if latch[b] and departs[a] + w > departs[b]:
                departs[b], raised[b], last = departs[a] + w, x, b
    passed = []
    while last not in passed:
        passed.append(last)
        last = arcs[raised[last]][0]
    around = [raised[b] for b in reversed(passed[passed.index(last):])]
    first = min(range(len(around)), key=lambda step: arcs[around[step]][0])
    around = around[first:] + around[:first]
    gain = sum(weight[x] for x in around)
    assert gain > 0, "no ring grows"
    return around, gain


def flow(circuit):
    """Which synchronizers are latches, when each departs at the earliest, and what each arc adds, at most and at least."""
    tc, phases, synchronizers, _ = circuit
    latch = [kind == 0 for _, kind, *_ in synchronizers]
    start = [tc - phases[p][1] if kind == 0 else tc for p, kind, *_ in synchronizers]
    return latch, start, weights(*circuit, False), weights(*circuit, True)


def six(circuit, late):
    """The six results of each synchronizer, from the late departures."""
    tc, _, synchronizers, arcs = circuit
    latch, start, most, least = flow(circuit)
    early = solve(start, latch, arcs, least, min)
    brought = [[] for _ in synchronizers]
    for (a, b, *_), shortest, longest in zip(arcs, least, most):
        brought[b].append((early[a] + shortest, late[a] + longest))
    results = []
    for i, (_, _, setup, hold, _, _) in enumerate(synchronizers):
        fields = [early[i], late[i]] + 4 * [MARK]
        if brought[i]:
            soonest, latest = min(pair[0] for pair in brought[i]), max(pair[1] for pair in brought[i])
            fields[2:] = [soonest, latest, soonest - hold, tc - setup - latest]
        results.append(fields)
    return results


def missed(results):
    """How many setups and how many holds."""
    return sum(fields[5] < 0 for fields in results), sum(fields[4] < 0 for fields in results)


def row(i, fields):
    return " ".join([str(i)] + ["-" if x == MARK else str(x) for x in fields]) + "\n"


def report(image):
    answer = judge(image)
    if answer != GOOD:
        return "refused %d %d\n" % answer
    circuit = read(image)
    latch, start, most, _ = flow(circuit)
    late = solve(start, latch, circuit[3], most, max)
    if late is None:
        shown, gain = ring(start, latch, circuit[3], most)
        return "loop %d %d\n" % (len(shown), gain) + "".join("%d\n" % a for a in shown)
    results = six(circuit, late)
    lines = [row(i, fields) for i, fields in enumerate(results)]
    return "timed %d %d %d\n" % (len(results), *missed(results)) + "".join(lines)


def circuits():
    """P1 to P15, as tests/image_cases.py makes them."""
    CASES.clear()
    known_circuits()
    return {name: image for name, _, image in CASES if name != "base"}


def too_long():
    """The largest image and one byte too many. Without that byte it is good: whoever does not read it prints something else."""
    CASES.clear()
    largest()
    image = next(image for name, _, image in CASES if name == "largest-one-byte-long")
    assert len(image) == 45_217 and judge(image[:-1]) == GOOD
    return image


# Exchanging two phases that close together changes nothing.
TWO_TOGETHER = "timed 2 0 1\n0 50 50 - - - -\n1 50 50 -35 -35 -40 125\n"
THREE_AROUND = "timed 3 0 1\n0 68 88 68 88 63 2\n1 70 88 3 88 -2 2\n2 100 100 45 78 40 17\n"
PRINTED = {
    "p1": "timed 2 0 0\n0 60 60 25 60 20 30\n1 60 80 35 80 30 10\n",
    "p2": "loop 2 1\n1\n0\n",
    "p10": "timed 0 0 0\n",
    "p11": TWO_TOGETHER,
    "p12": TWO_TOGETHER,
    "p13": "timed 2 0 2\n0 50 50 -35 -25 -40 115\n1 50 50 -25 15 -30 75\n",
    "p14": THREE_AROUND,
    "p15": THREE_AROUND,
    "too_long": "refused 5 0\n",
}


# ---- Written circuits: docs/RULES.md, "A written circuit". ----


class Window:
    """`+` adds both ends, `|` takes the lesser low and the greater high. That `+` binds closer, and brackets closest, Python says too."""

    def __init__(self, low, high):
        assert low <= high
        self.low, self.high = low, high

    def __add__(self, other):
        return Window(self.low + other.low, self.high + other.high)

    def __or__(self, other):
        return Window(min(self.low, other.low), max(self.high, other.high))


def number(field):
    assert re.fullmatch("[0-9]{1,10}", field) and int(field) <= LIMIT
    return int(field)


def window(field):
    """Both ends. Python reads the expression, each atom put into words of Python before."""
    assert re.fullmatch("[0-9:+|()]+", field)
    depths = [field[:i].count("(") - field[:i].count(")") for i in range(len(field))]
    assert max(depths) <= 16
    atoms = re.sub("([0-9]+):([0-9]+)", r"Window(number('\1'), number('\2'))", field)
    meaning = eval(atoms, {"Window": Window, "number": number})
    assert isinstance(meaning, Window) and meaning.high <= LIMIT
    return [meaning.low, meaning.high]


def record(line):
    """The kind of a line, by its place in the order, and its numbers."""
    assert line.endswith("\n")
    word, *fields = line[:-1].split(" ")
    plain = {"tc": 1, "phase": 2, "latch": 3, "flop": 3, "arc": 2}[word]
    place = ["tc", "phase", "latch", "arc"].index("latch" if word == "flop" else word)
    assert len(fields) == plain + (place > 1)
    numbers = [number(field) for field in fields[:plain]] + [x for field in fields[plain:] for x in window(field)]
    if place == 2:
        numbers.insert(1, int(word == "flop"))
    return place, numbers


def image_of(text):
    """The image that a text writes, or the refusal and its line or record."""
    if len(text) > 32_768 or not text:
        return (15, 0)
    tables = [[], [], [], []]
    for i, line in enumerate(re.findall("[^\n]*\n|[^\n]+", text)):
        try:
            place, numbers = record(line)
            assert (place == 0) == (i == 0) and not any(tables[place + 1:])
        except (AssertionError, AttributeError, KeyError, SyntaxError, TypeError):
            return (15, i)
        tables[place].append(numbers)
    image = build(tables[0][0][0], *tables[1:])
    answer = judge(image)
    return image if answer == GOOD else answer


def ring_text(delays, first, second):
    latches = "latch 0 10 5 %s\nlatch 1 10 5 %s\n" % (delays, delays)
    return "tc 100\nphase 50 40\nphase 100 40\n" + latches + "arc 1 0 %s\narc 0 1 %s\n" % (first, second)


def flip_flops_text(window):
    return "tc 100\nphase 100 50\nflop 0 10 10 8:8\nflop 0 10 10 8:8\narc 0 1 %s\n" % window


def two_latches_text(phases, first, second, arcs):
    return "tc 100\n%slatch %d 10 5 5:5\nlatch %d 10 5 5:5\n%s" % (phases, first, second, arcs)


def three_around_text(phases, first, second):
    cells = "latch %d 10 5 5:10\nlatch %d 10 5 5:10\nflop 0 5 5 8:8\n" % (first, second)
    return "tc 100\nphase 40 20\n" + phases + cells + "arc 2 0 20:40\narc 0 1 30:90\narc 1 2 10:20\n"


TEXTS = {
    "p1": ring_text("5:10", "10:20", "20:60"),
    "p2": ring_text("5:10", "10:20", "20:61"),
    "p3": ring_text("5:10", "10:10", "20:70"),
    # one delay after the other
    "p4": ring_text("5:10", "0:0", "5:20+15:60"),
    "p5": ring_text("10:10", "20:20", "60:60"),
    # p1 once more, with every sign that a window can have
    "p6": ring_text("5:10", "(10:15+0:5)", "(20:25|15:40)+5:20"),
    "p7": flip_flops_text("2:80"),
    "p8": flip_flops_text("1:80"),
    "p9": "tc 100\nphase 100 40\n" + 3 * "latch 0 0 0 0:0\n" + "arc 0 1 100:130\narc 1 2 100:120|110:130\n",
    "p10": "tc 100\nphase 100 40\n",
    "p11": two_latches_text(2 * "phase 100 50\n", 0, 1, "arc 0 1 10:10\n"),
    "p12": two_latches_text(2 * "phase 100 50\n", 1, 0, "arc 0 1 10:10\n"),
    "p13": two_latches_text("phase 0 50\nphase 100 50\n", 0, 1, "arc 1 0 10:20\narc 0 1 20:60\n"),
    "p14": three_around_text("phase 100 50\nphase 100 30\n", 1, 2),
    "p15": three_around_text("phase 100 30\nphase 100 50\n", 2, 1),
}
# P1 with a dash where a colon should stand, on line 3.
BAD_LINE = (TEXTS["p1"].replace("latch 0 10 5 5:10", "latch 0 10 5 5-10"), (15, 3))


def check_reading():
    """The reading on what is good and on each fault that a text can have, all by hand: it must not take everything for good."""
    ends = {"7:9": [7, 9], "1:2+(3:4|5:6)": [4, 8], "1:2+3:4|5:6": [4, 6], "0:999999999+0:1": [0, LIMIT], 16 * "(" + "1:2" + 16 * ")": [1, 2]}
    for field, meaning in ends.items():
        assert image_of("tc 9\nphase 9 9\nflop 0 0 0 %s\n" % field) == build(9, [[9, 9]], [[0, 1, 0, 0] + meaning], [])
    bad = ["2:1", "1", "1:2:3", "+1:2", "1:2|", "()", "(1:2", "(1:2)(3:4)", "0:999999999+0:2", "0:00000000001", "1: 2", 17 * "(" + "1:2" + 17 * ")"]
    for field in bad:
        assert image_of("tc 9\nphase 9 9\nflop 0 0 0 %s\nphase 9 9\n" % field) == (15, 2), field
    lines = {"": 0, "phase 9 9\n": 0, "tc 9\ntc 9\n": 1, "tc 9\n\n": 1, "tc 9\narc 0 0 0:0\nphase 9 9\n": 2, "tc 9\nphase 9 90": 1, "tc  9\n": 0}
    for text, line in lines.items():
        assert image_of(text) == (15, line), text
    assert image_of("tc 9\n") == (4, 0) and image_of("tc 0\n") == (3, 0) and image_of("tc 9\nphase 9 9\nphase 8 9\n") == (6, 1)


def texts(images):
    """The files of the texts."""
    check_reading()
    assert TEXTS.keys() == images.keys() and image_of(BAD_LINE[0]) == BAD_LINE[1]
    wanted = {ROOT / "circuits" / "bad_line.text": BAD_LINE[0], ROOT / "circuits" / "bad_line.report": "refused %d %d\n" % BAD_LINE[1]}
    for name, text in TEXTS.items():
        assert image_of(text) == images[name], name
        wanted[ROOT / "circuits" / (name + ".text")] = text
    return {path: text.encode("ascii") for path, text in wanted.items()}


def main():
    if sys.argv[1:] and sys.argv[1:] != ["--check"]:
        for name in sys.argv[1:]:
            sys.stdout.write(report(pathlib.Path(name).read_bytes()))
        return
    images = circuits()
    wanted = texts(images)
    images["too_long"] = too_long()
    for name, image in images.items():
        text = report(image)
        assert PRINTED.get(name, text) == text, (name, text)
        wanted[ROOT / "circuits" / (name + ".image")] = image
        wanted[ROOT / "circuits" / (name + ".report")] = text.encode("ascii")
    for program, given, printed in (("neelukudam", "p1.image", "p1.report"), ("neelukudam_text", "p1.text", "p1.image")):
        wanted[ROOT / "crates" / program / "stdin"] = wanted[ROOT / "circuits" / given]
        wanted[ROOT / "crates" / program / "stdout"] = wanted[ROOT / "circuits" / printed]
    store(wanted, "%d circuits, %d of them also as texts" % (len(images), len(TEXTS)))


if __name__ == "__main__":
    main()
