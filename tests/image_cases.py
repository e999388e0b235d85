#!/usr/bin/env python3
"""The cases of the program crates/image_cases: circuit images, and what docs/RULES.md says of each.

`python3 tests/image_cases.py` writes crates/image_cases/stdin and crates/image_cases/stdout.
`python3 tests/image_cases.py --check` only compares, and ends with status 1 where they differ.

Each case states its answer by hand, and the checker below, which shares nothing with the library, works it out from the
rules. Both must agree before anything is stored. The checker's author had seen the library, so the answers by hand are the second source.
"""
import struct

from stored import ROOT, store

GOOD = "good"
LIMIT = 1_000_000_000  # of the cycle and of every delay
TOP = 4_294_967_295  # the largest word


# ---- The checker: docs/RULES.md, "The image" and "Numbers of refusal". ----


def table(image, start, count, fields):
    """The records of one table, each a tuple of words."""
    size = 4 * fields
    return [struct.unpack_from("<%dI" % fields, image, start + size * i) for i in range(count)]


def judge_phases(tc, phases):
    for i, (e, t) in enumerate(phases):
        if t > tc or e > tc:
            return (6, i)
        if i > 0 and e < phases[i - 1][0]:
            return (6, i)
        if i == len(phases) - 1 and e != tc:
            return (6, i)
    return GOOD


def judge_synchronizers(tc, k, synchronizers):
    for i, (phase, kind, s, h, least, greatest) in enumerate(synchronizers):
        if phase >= k or kind not in (0, 1):
            return (7, i)
        if s > tc or h > tc:
            return (7, i)
        if least > greatest or greatest > LIMIT:
            return (7, i)
    return GOOD


def judge_arcs(l, arcs):
    for i, (source, target, least, greatest) in enumerate(arcs):
        if source >= l or target >= l:
            return (8, i)
        if least > greatest or greatest > LIMIT:
            return (8, i)
    for i in range(1, len(arcs)):
        # Python compares pairs by their first part, then by their second.
        if (arcs[i][1], arcs[i][0]) <= (arcs[i - 1][1], arcs[i - 1][0]):
            return (9, i)
    return GOOD


def judge(image):
    """GOOD, or the number of the refusal and the record."""
    if len(image) < 32:
        return (1, 0)
    version, tc, k, l, m, phases_at, synchronizers_at, arcs_at = struct.unpack("<8I", image[:32])
    if version != 1:
        return (2, 0)
    if not 1 <= tc <= LIMIT:
        return (3, 0)
    if not (1 <= k <= 16 and l <= 512 and m <= 2048):
        return (4, 0)
    if (phases_at, synchronizers_at, arcs_at) != (32, 32 + 8 * k, 32 + 8 * k + 24 * l):
        return (5, 0)
    if len(image) != arcs_at + 16 * m:
        return (5, 0)
    answer = judge_phases(tc, table(image, phases_at, k, 2))
    if answer == GOOD:
        answer = judge_synchronizers(tc, k, table(image, synchronizers_at, l, 6))
    if answer == GOOD:
        answer = judge_arcs(l, table(image, arcs_at, m, 4))
    return answer


# ---- Building and damaging images. ----


def build(tc, phases, synchronizers, arcs):
    """An image with the header that fits its tables."""
    k, l, m = len(phases), len(synchronizers), len(arcs)
    words = [1, tc, k, l, m, 32, 32 + 8 * k, 32 + 8 * k + 24 * l]
    for record in phases + synchronizers + arcs:
        words.extend(record)
    return struct.pack("<%dI" % len(words), *words)


def put(image, *edits):
    """The image with some words replaced. An edit is a byte offset and a value."""
    changed = bytearray(image)
    for at, value in edits:
        struct.pack_into("<I", changed, at, value)
    return bytes(changed)


VERSION, TC, K, L, M, PHASES_AT, SYNCHRONIZERS_AT, ARCS_AT = range(0, 32, 4)


def phase(i, field):
    return 32 + 8 * i + 4 * ("e", "T").index(field)


def synchronizer(i, field, image=None):
    k = struct.unpack_from("<I", image or BASE, K)[0]
    fields = ("phase", "kind", "S", "H", "least", "greatest")
    return 32 + 8 * k + 24 * i + 4 * fields.index(field)


def arc(i, field, image=None):
    k, l = struct.unpack_from("<2I", image or BASE, K)
    fields = ("from", "to", "least", "greatest")
    return 32 + 8 * k + 24 * l + 16 * i + 4 * fields.index(field)


def ends(i, source, target):
    """Two edits: where an arc of BASE comes from, and where it goes."""
    return (arc(i, "from"), source), (arc(i, "to"), target)


# The image that most damage is done to: four phases, four synchronizers, five arcs.
BASE_PHASES = [(25, 20), (50, 20), (75, 20), (100, 20)]
BASE_SYNCHRONIZERS = [
    (0, 0, 10, 5, 5, 10),
    (1, 1, 10, 5, 5, 10),
    (2, 0, 10, 5, 5, 10),
    (3, 1, 10, 5, 5, 10),
]
BASE_ENDS = [(1, 0), (0, 1), (2, 1), (1, 2), (2, 3)]


def base_with(arc_ends):
    return build(100, BASE_PHASES, BASE_SYNCHRONIZERS, [(a, b, 10, 20) for a, b in arc_ends])


BASE = base_with(BASE_ENDS)


# ---- The cases. ----

CASES = []


def case(name, expected, image):
    CASES.append((name, expected, image))


def known_circuits():
    """The circuits with known numbers (circuits/README.md)."""

    def ring(delays, first, second):
        latches = [(0, 0, 10, 5) + delays, (1, 0, 10, 5) + delays]
        return build(100, [(50, 40), (100, 40)], latches, [(1, 0) + first, (0, 1) + second])

    def flip_flops(window):
        return build(100, [(100, 50)], [(0, 1, 10, 10, 8, 8)] * 2, [(0, 1) + window])

    case("p1", GOOD, ring((5, 10), (10, 20), (20, 60)))
    case("p2", GOOD, ring((5, 10), (10, 20), (20, 61)))
    case("p3", GOOD, ring((5, 10), (10, 10), (20, 70)))
    case("p4", GOOD, ring((5, 10), (0, 0), (20, 80)))
    case("p5", GOOD, ring((10, 10), (20, 20), (60, 60)))
    case("p6", GOOD, ring((5, 10), (10, 20), (20, 60)))
    case("p7", GOOD, flip_flops((2, 80)))
    case("p8", GOOD, flip_flops((1, 80)))
    chain = [(0, 1, 100, 130), (1, 2, 100, 130)]
    case("p9", GOOD, build(100, [(100, 40)], [(0, 0, 0, 0, 0, 0)] * 3, chain))
    case("p10", GOOD, build(100, [(100, 40)], [], []))

    # Phases that close together. The last argument has the phase of each synchronizer.
    def two_latches(phases, arcs, on):
        return build(100, phases, [(p, 0, 10, 5, 5, 5) for p in on], arcs)

    def three_around(phases, on):
        cells = [(0, 10, 5, 5, 10), (0, 10, 5, 5, 10), (1, 5, 5, 8, 8)]
        return build(100, phases, [(p,) + cell for p, cell in zip(on, cells)], [(2, 0, 20, 40), (0, 1, 30, 90), (1, 2, 10, 20)])

    case("p11", GOOD, two_latches([(100, 50), (100, 50)], [(0, 1, 10, 10)], (0, 1)))
    case("p12", GOOD, two_latches([(100, 50), (100, 50)], [(0, 1, 10, 10)], (1, 0)))
    case("p13", GOOD, two_latches([(0, 50), (100, 50)], [(1, 0, 10, 20), (0, 1, 20, 60)], (0, 1)))
    case("p14", GOOD, three_around([(40, 20), (100, 50), (100, 30)], (1, 2, 0)))
    case("p15", GOOD, three_around([(40, 20), (100, 30), (100, 50)], (2, 1, 0)))
    case("base", GOOD, BASE)


def lengths_and_headers():
    """Rules 1 to 3, and every word of the header at its largest."""
    case("rule1-length-0", (1, 0), b"")
    case("rule1-length-1", (1, 0), BASE[:1])
    case("rule1-length-4", (1, 0), BASE[:4])
    case("rule1-length-31", (1, 0), BASE[:31])
    case("rule1-length-31-zeros", (1, 0), bytes(31))
    case("length-32-zeros", (2, 0), bytes(32))
    case("length-32-header-alone", (5, 0), BASE[:32])
    case("length-40-smallest-good", GOOD, build(1, [(1, 0)], [], []))

    case("rule2-version-0", (2, 0), put(BASE, (VERSION, 0)))
    case("rule2-version-2", (2, 0), put(BASE, (VERSION, 2)))
    case("rule2-version-second-byte", (2, 0), put(BASE, (VERSION, 257)))
    case("rule2-version-third-byte", (2, 0), put(BASE, (VERSION, 65_537)))
    case("rule2-version-fourth-byte", (2, 0), put(BASE, (VERSION, 16_777_217)))
    case("rule2-version-big-endian", (2, 0), put(BASE, (VERSION, 16_777_216)))

    ten = [(0, 0, 1, 1, 0, 10)]
    case("rule3-cycle-0", (3, 0), put(BASE, (TC, 0)))
    case("rule3-cycle-0-phase-fits", (3, 0), build(0, [(0, 0)], [], []))
    case("rule3-cycle-above", (3, 0), put(BASE, (TC, 1_000_000_001)))
    case("rule3-cycle-above-phase-fits", (3, 0), build(LIMIT + 1, [(LIMIT + 1, 1)], ten, []))
    case("rule3-cycle-top-phase-fits", (3, 0), build(TOP, [(TOP, 1)], ten, []))
    case("cycle-1", GOOD, build(1, [(1, 1)], ten, [(0, 0, 0, 1)]))
    case("cycle-at-limit", GOOD, build(LIMIT, [(LIMIT, LIMIT)], ten, [(0, 0, 0, 1)]))
    case("cycle-of-four-bytes", GOOD, build(16_909_060, [(16_909_060, 1)], ten, []))

    case("top-version", (2, 0), put(BASE, (VERSION, TOP)))
    case("top-cycle", (3, 0), put(BASE, (TC, TOP)))
    case("top-phases", (4, 0), put(BASE, (K, TOP)))
    case("top-synchronizers", (4, 0), put(BASE, (L, TOP)))
    case("top-arcs", (4, 0), put(BASE, (M, TOP)))
    case("top-phases-at", (5, 0), put(BASE, (PHASES_AT, TOP)))
    case("top-synchronizers-at", (5, 0), put(BASE, (SYNCHRONIZERS_AT, TOP)))
    case("top-arcs-at", (5, 0), put(BASE, (ARCS_AT, TOP)))
    case("top-all-but-version", (3, 0), put(BASE, *[(at, TOP) for at in range(4, 32, 4)]))


def counts():
    """Rule 4. The tables are as long as the counts say, so that nothing else is wrong."""
    latch = (0, 0, 1, 1, 1, 2)

    def phases(k):
        return build(100, [(100, 1)] * k, [], [])

    def synchronizers(l):
        return build(100, [(100, 1)], [latch] * l, [])

    def arcs(m):
        pairs = [(a, b, 1, 2) for b in range(46) for a in range(46)]
        return build(100, [(100, 1)], [latch] * 46, pairs[:m])

    case("rule4-phases-0", (4, 0), phases(0))
    case("rule4-phases-0-in-header", (4, 0), put(BASE, (K, 0)))
    case("rule4-phases-17", (4, 0), phases(17))
    case("rule4-phases-17-in-header", (4, 0), put(BASE, (K, 17)))
    case("rule4-synchronizers-513", (4, 0), synchronizers(513))
    case("rule4-synchronizers-513-in-header", (4, 0), put(BASE, (L, 513)))
    case("rule4-arcs-2049", (4, 0), arcs(2049))
    case("rule4-arcs-2049-in-header", (4, 0), put(BASE, (M, 2049)))
    # Eight, 24 and 16 times these leave 0, 8 and 0 in 32 bits.
    case("rule4-phases-wrap", (4, 0), put(BASE, (K, 536_870_912)))
    case("rule4-synchronizers-wrap", (4, 0), put(BASE, (L, 178_956_971)))
    case("rule4-arcs-wrap", (4, 0), put(BASE, (M, 268_435_456)))
    case("phases-16", GOOD, phases(16))
    case("synchronizers-512", GOOD, synchronizers(512))
    # 2,048 arcs are accepted in the largest image, below.


def layout():
    """Rule 5. BASE has its tables at 32, 64 and 160, and ends at 240."""
    for word, name, at in (
        (PHASES_AT, "phases", 32),
        (SYNCHRONIZERS_AT, "synchronizers", 64),
        (ARCS_AT, "arcs", 160),
    ):
        case("rule5-%s-at-less-1" % name, (5, 0), put(BASE, (word, at - 1)))
        case("rule5-%s-at-plus-1" % name, (5, 0), put(BASE, (word, at + 1)))
        case("rule5-%s-at-0" % name, (5, 0), put(BASE, (word, 0)))
        case("rule5-%s-at-fourth-byte" % name, (5, 0), put(BASE, (word, at + 16_777_216)))
    case("rule5-first-two-swapped", (5, 0), put(BASE, (PHASES_AT, 64), (SYNCHRONIZERS_AT, 32)))
    case("rule5-last-two-swapped", (5, 0), put(BASE, (SYNCHRONIZERS_AT, 160), (ARCS_AT, 64)))
    case("rule5-outer-two-swapped", (5, 0), put(BASE, (PHASES_AT, 160), (ARCS_AT, 32)))
    case("rule5-one-byte-short", (5, 0), BASE[:-1])
    case("rule5-one-byte-long", (5, 0), BASE + b"\0")
    case("rule5-one-arc-short", (5, 0), BASE[:-16])
    case("rule5-one-arc-long", (5, 0), BASE + BASE[-16:])
    # The tables are 8 bytes further on, and the header says so.
    gap = put(BASE, (PHASES_AT, 40), (SYNCHRONIZERS_AT, 72), (ARCS_AT, 168))
    case("rule5-gap-after-header", (5, 0), gap[:32] + bytes(8) + gap[32:])
    case("rule5-phases-less-1", (5, 0), put(BASE, (K, 3)))
    case("rule5-phases-plus-1", (5, 0), put(BASE, (K, 5)))
    case("rule5-synchronizers-less-1", (5, 0), put(BASE, (L, 3)))
    case("rule5-synchronizers-plus-1", (5, 0), put(BASE, (L, 5)))
    case("rule5-arcs-less-1", (5, 0), put(BASE, (M, 4)))
    case("rule5-arcs-plus-1", (5, 0), put(BASE, (M, 6)))


def largest():
    """The largest image, 45,216 bytes, and the last record of each table at fault."""
    phases = [(100 * i + 100, 90) for i in range(16)]
    synchronizers = [(i % 16, i % 2, 10, 5, 5, 10) for i in range(512)]
    arcs = [(a, b, 10, 20) for b in range(512) for a in range(4)]
    image = build(1600, phases, synchronizers, arcs)
    assert len(image) == 45_216
    case("largest", GOOD, image)
    case("largest-one-byte-long", (5, 0), image + b"\0")
    case("largest-one-byte-short", (5, 0), image[:-1])
    case("largest-last-phase", (6, 15), put(image, (phase(15, "T"), 1601)))
    case("largest-last-synchronizer", (7, 511), put(image, (synchronizer(511, "H", image), 1601)))
    case("largest-last-arc", (8, 2047), put(image, (arc(2047, "from", image), 512)))
    case("largest-last-order", (9, 2047), put(image, (arc(2047, "from", image), 2)))


def rule_6():
    for place, i in (("first", 0), ("middle", 1), ("last", 3)):
        case("rule6-active-above-" + place, (6, i), put(BASE, (phase(i, "T"), 101)))
        case("rule6-closing-above-" + place, (6, i), put(BASE, (phase(i, "e"), 101)))
        case("active-at-cycle-" + place, GOOD, put(BASE, (phase(i, "T"), 100)))
        case("active-0-" + place, GOOD, put(BASE, (phase(i, "T"), 0)))
    case("rule6-active-top", (6, 2), put(BASE, (phase(2, "T"), TOP)))
    case("rule6-closing-top", (6, 2), put(BASE, (phase(2, "e"), TOP)))
    # No record stands before the first. The last, below the one before, isn't at Tc either.
    case("rule6-closing-below-second", (6, 1), put(BASE, (phase(1, "e"), 24)))
    case("rule6-closing-below-third", (6, 2), put(BASE, (phase(2, "e"), 49)))
    case("rule6-closing-below-last", (6, 3), put(BASE, (phase(3, "e"), 74)))
    case("rule6-closing-0-after-first", (6, 1), put(BASE, (phase(1, "e"), 0)))
    # The phase raised is in order. The next one is below it, and is named.
    case("rule6-first-raised", (6, 1), put(BASE, (phase(0, "e"), 51)))
    case("rule6-middle-raised", (6, 2), put(BASE, (phase(1, "e"), 100)))
    case("rule6-last-not-cycle", (6, 3), put(BASE, (phase(3, "e"), 99)))
    case("rule6-all-closings-0", (6, 3), put(BASE, *[(phase(i, "e"), 0) for i in range(4)]))
    case("rule6-only-phase-not-cycle", (6, 0), build(100, [(99, 20)], [], []))
    case("rule6-only-phase-closing-0", (6, 0), build(100, [(0, 20)], [], []))
    case("rule6-only-phase-closing-above", (6, 0), build(100, [(101, 20)], [], []))
    case("rule6-only-phase-active-above", (6, 0), build(100, [(100, 101)], [], []))
    case("rule6-cycle-less-1", (6, 3), put(BASE, (TC, 99)))
    case("rule6-cycle-plus-1", (6, 3), put(BASE, (TC, 101)))
    case("closing-together-first", GOOD, put(BASE, (phase(0, "e"), 50)))
    case("closing-together-middle", GOOD, put(BASE, (phase(2, "e"), 50)))
    case("closing-together-last", GOOD, put(BASE, (phase(2, "e"), 100)))
    case("closing-together-all", GOOD, put(BASE, *[(phase(i, "e"), 100) for i in range(4)]))
    case("two-phases-closing-together", GOOD, build(100, [(100, 40), (100, 30)], [], []))
    case("first-closing-0", GOOD, put(BASE, (phase(0, "e"), 0)))
    case("closing-after-one-tick", GOOD, put(BASE, (phase(1, "e"), 26)))


def rule_7():
    for place, i in (("first", 0), ("middle", 2), ("last", 3)):

        def at(field, value):
            return put(BASE, (synchronizer(i, field), value))

        case("rule7-phase-not-below-" + place, (7, i), at("phase", 4))
        case("rule7-kind-above-" + place, (7, i), at("kind", 2))
        case("rule7-setup-above-" + place, (7, i), at("S", 101))
        case("rule7-hold-above-" + place, (7, i), at("H", 101))
        case("rule7-least-above-" + place, (7, i), at("least", 11))
        case("rule7-greatest-above-" + place, (7, i), at("greatest", LIMIT + 1))
        case("synchronizer-phase-highest-" + place, GOOD, at("phase", 3))
        case("synchronizer-kind-1-" + place, GOOD, at("kind", 1))
        case("synchronizer-setup-at-cycle-" + place, GOOD, at("S", 100))
        case("synchronizer-hold-at-cycle-" + place, GOOD, at("H", 100))
        case("synchronizer-least-at-greatest-" + place, GOOD, at("least", 10))
        case("synchronizer-greatest-at-limit-" + place, GOOD, at("greatest", LIMIT))
    for field in ("phase", "kind", "S", "H", "least", "greatest"):
        case("rule7-top-" + field, (7, 1), put(BASE, (synchronizer(1, field), TOP)))
    both = (synchronizer(1, "least"), LIMIT + 1), (synchronizer(1, "greatest"), LIMIT + 1)
    case("rule7-both-delays-above", (7, 1), put(BASE, *both))
    both = (synchronizer(1, "least"), LIMIT), (synchronizer(1, "greatest"), LIMIT)
    case("synchronizer-both-delays-at-limit", GOOD, put(BASE, *both))
    case("synchronizer-all-0", GOOD, put(BASE, *[(64 + 4 * i, 0) for i in range(6)]))


def rule_8():
    for place, i in (("first", 0), ("middle", 2), ("last", 4)):

        def at(field, value):
            return put(BASE, (arc(i, field), value))

        case("rule8-from-not-below-" + place, (8, i), at("from", 4))
        case("rule8-to-not-below-" + place, (8, i), at("to", 4))
        case("rule8-least-above-" + place, (8, i), at("least", 21))
        case("rule8-greatest-above-" + place, (8, i), at("greatest", LIMIT + 1))
        case("arc-from-highest-" + place, GOOD, at("from", 3))
        case("arc-least-at-greatest-" + place, GOOD, at("least", 20))
        case("arc-greatest-at-limit-" + place, GOOD, at("greatest", LIMIT))
    for field in ("from", "to", "least", "greatest"):
        case("rule8-top-" + field, (8, 3), put(BASE, (arc(3, field), TOP)))
    both = (arc(1, "least"), LIMIT + 1), (arc(1, "greatest"), LIMIT + 1)
    case("rule8-both-delays-above", (8, 1), put(BASE, *both))
    both = (arc(1, "least"), LIMIT), (arc(1, "greatest"), LIMIT)
    case("arc-both-delays-at-limit", GOOD, put(BASE, *both))
    case("rule8-no-synchronizers", (8, 0), build(100, [(100, 40)], [], [(0, 0, 1, 2)]))
    one = [(0, 0, 1, 1, 1, 2)]
    case("rule8-to-one-only", (8, 1), build(100, [(100, 40)], one, [(0, 0, 1, 2), (0, 1, 1, 2)]))
    case("arc-to-highest-from-highest", GOOD, put(BASE, *ends(4, 3, 3)))


def rule_9():
    # The arcs of BASE, as from and to: 1 0, 0 1, 2 1, 1 2, 2 3.
    case("rule9-equal-second", (9, 1), put(BASE, *ends(1, 1, 0)))
    case("rule9-equal-middle", (9, 2), put(BASE, *ends(2, 0, 1)))
    case("rule9-equal-last", (9, 4), put(BASE, *ends(4, 1, 2)))
    case("rule9-from-second", (9, 1), put(BASE, *ends(1, 0, 0)))
    case("rule9-from-middle", (9, 2), put(BASE, *ends(1, 3, 1)))
    case("rule9-from-last", (9, 4), put(BASE, *ends(4, 0, 2)))
    case("rule9-to-second", (9, 1), put(BASE, *ends(0, 0, 2)))
    case("rule9-to-middle", (9, 2), put(BASE, *ends(2, 3, 0)))
    case("rule9-to-last", (9, 4), put(BASE, *ends(4, 3, 1)))
    # Equal ends stay equal, whatever the delays.
    window = (arc(1, "least"), 11), (arc(1, "greatest"), 21)
    case("rule9-equal-other-delays", (9, 1), put(BASE, *ends(1, 1, 0), *window))
    case("rule9-equal-first-far", (9, 3), put(BASE, *ends(3, 1, 0)))
    case("rule9-by-from-alone", (9, 1), base_with([(0, 3), (1, 2), (2, 1)]))
    case("rule9-by-from-then-to", (9, 2), base_with([(0, 1), (0, 2), (1, 1)]))
    case("rule9-falling", (9, 1), base_with([(2, 3), (1, 2), (0, 1)]))
    case("rule9-equal-self-arcs", (9, 1), base_with([(2, 2), (2, 2)]))
    case("no-arcs", GOOD, base_with([]))
    case("one-arc", GOOD, base_with([(3, 0)]))
    case("equal-to-rising-from", GOOD, base_with([(0, 2), (1, 2), (2, 2), (3, 2)]))
    case("rising-to-falling-from", GOOD, base_with([(3, 0), (2, 1), (1, 2), (0, 3)]))
    case("self-arcs", GOOD, base_with([(0, 0), (1, 1), (2, 2), (3, 3)]))
    case("one-self-arc", GOOD, base_with([(0, 0)]))
    case("all-arcs", GOOD, base_with([(a, b) for b in range(4) for a in range(4)]))


def two_in_one_rule():
    """Two records at fault by one rule: the lowest is named, whatever the clause."""
    case("two6-same-clause", (6, 1), put(BASE, (phase(1, "T"), 101), (phase(3, "T"), 101)))
    case("two6-late-clause-first", (6, 1), put(BASE, (phase(1, "e"), 24), (phase(2, "T"), 101)))
    case("two6-last-of-both", (6, 0), put(BASE, (phase(0, "T"), 101), (phase(3, "e"), 99)))
    s = synchronizer
    case("two7-same-clause", (7, 1), put(BASE, (s(1, "kind"), 2), (s(2, "kind"), 2)))
    edits = (s(0, "greatest"), LIMIT + 1), (s(1, "phase"), 4)
    case("two7-late-clause-first", (7, 0), put(BASE, *edits))
    case("two7-last-of-both", (7, 2), put(BASE, (s(2, "least"), 11), (s(3, "S"), 101)))
    case("two8-same-clause", (8, 2), put(BASE, (arc(2, "from"), 4), (arc(4, "from"), 4)))
    edits = (arc(0, "greatest"), LIMIT + 1), (arc(1, "from"), 4)
    case("two8-late-clause-first", (8, 0), put(BASE, *edits))
    case("two8-last-of-both", (8, 3), put(BASE, (arc(3, "least"), 21), (arc(4, "to"), 4)))
    case("two9-equal-twice", (9, 2), put(BASE, *ends(2, 0, 1), *ends(4, 1, 2)))
    case("two9-to-then-equal", (9, 1), put(BASE, *ends(1, 1, 0), *ends(4, 3, 1)))
    case("two9-three-equal", (9, 1), base_with([(1, 1), (1, 1), (1, 1)]))


def cut(length):
    return lambda image: image[:length]


def edit(*edits):
    return lambda image: put(image, *edits)


# Three faults of each rule, with what each gives by itself. Those of 8 and 9 that are
# paired below lie in different arcs.
FAULTS = [
    [((1, 0), cut(31)), ((1, 0), cut(24)), ((1, 0), cut(20))],
    [((2, 0), edit((VERSION, 0))), ((2, 0), edit((VERSION, 2))), ((2, 0), edit((VERSION, TOP)))],
    [((3, 0), edit((TC, 0))), ((3, 0), edit((TC, LIMIT + 1))), ((3, 0), edit((TC, TOP)))],
    [((4, 0), edit((K, 17))), ((4, 0), edit((L, 513))), ((4, 0), edit((M, 2049)))],
    [
        ((5, 0), edit((SYNCHRONIZERS_AT, 65))),
        ((5, 0), lambda image: image + b"\0"),
        ((5, 0), edit((PHASES_AT, 31), (ARCS_AT, 161))),
    ],
    [
        ((6, 3), edit((phase(3, "e"), 99))),
        ((6, 2), edit((phase(2, "T"), 101))),
        ((6, 1), edit((phase(1, "e"), 24))),
    ],
    [
        ((7, 0), edit((synchronizer(0, "phase"), 4))),
        ((7, 1), edit((synchronizer(1, "H"), 101))),
        ((7, 3), edit((synchronizer(3, "least"), 11))),
    ],
    [
        ((8, 3), edit((arc(3, "greatest"), LIMIT + 1))),
        ((8, 4), edit((arc(4, "from"), 4))),
        ((8, 0), edit((arc(0, "least"), 21))),
    ],
    [
        ((9, 1), edit(*ends(1, 1, 0))),
        ((9, 2), edit(*ends(2, 3, 0))),
        ((9, 4), edit(*ends(4, 0, 2))),
    ],
]


def two_rules():
    """Every pair of rules, three times: the fault of the earlier rule is given."""
    for a in range(1, 10):
        for b in range(a + 1, 10):
            for variant in range(3):
                expected, earlier = FAULTS[a - 1][variant]
                alone, later = FAULTS[b - 1][variant]
                assert judge(earlier(BASE)) == expected and expected[0] == a
                assert judge(later(BASE)) == alone and alone[0] == b
                # A cut comes after an edit, which needs the whole image.
                case("rules-%d-and-%d-%s" % (a, b, "abc"[variant]), expected, earlier(later(BASE)))
    # The later rule at fault in a lower record, and in several.
    order = ends(1, 1, 0) + ends(2, 1, 0)
    case("rule8-after-rule9", (8, 4), put(BASE, *order, (arc(4, "greatest"), LIMIT + 1)))
    edits = (phase(3, "e"), 99), (synchronizer(0, "kind"), 2), (arc(0, "from"), 4)
    case("last-phase-first-synchronizer", (6, 3), put(BASE, *edits))
    edits = (synchronizer(3, "greatest"), LIMIT + 1), (arc(0, "to"), 4), (arc(1, "to"), 0)
    case("last-synchronizer-first-arc", (7, 3), put(BASE, *edits))
    case("all-words-top", (2, 0), struct.pack("<60I", *[TOP] * 60))
    case("all-words-1", (5, 0), struct.pack("<60I", *[1] * 60))
    case("header-good-rest-top", (6, 0), BASE[:32] + b"\xff" * 208)
    case("header-good-rest-0", (6, 3), BASE[:32] + bytes(208))


# ---- Writing and comparing. ----


def line(name, answer):
    if answer == GOOD:
        return "%s good\n" % name
    return "%s refused %d %d\n" % (name, answer[0], answer[1])


def main():
    known_circuits()
    lengths_and_headers()
    layout()
    rule_6()
    rule_7()
    rule_8()
    rule_9()
    two_in_one_rule()
    two_rules()
    counts()
    largest()

    frames, lines = [], []
    for name, expected, image in CASES:
        answer = judge(image)
        assert answer == expected, (name, "by hand", expected, "by the checker", answer)
        letters = name.encode("ascii")
        assert b" " not in letters and 0 < len(letters) <= 64 and len(image) <= 65_536
        frames.append(struct.pack("<2I", len(letters), len(image)) + letters + image)
        lines.append(line(name, expected).encode("ascii"))
    assert len({name for name, _, _ in CASES}) == len(CASES), "two cases have one name"

    folder = ROOT / "crates" / "image_cases"
    wanted = {folder / "stdin": b"".join(frames), folder / "stdout": b"".join(lines)}
    assert len(wanted[folder / "stdin"]) < 1_000_000
    store(wanted, "%d cases" % len(CASES))


if __name__ == "__main__":
    main()
