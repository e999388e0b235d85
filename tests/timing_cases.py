#!/usr/bin/env python3
"""The frames of the program crates/timing_cases: circuits, and what docs/RULES.md says that timing and path give for each.

`python3 tests/timing_cases.py` writes crates/timing_cases/stdin and crates/timing_cases/stdout.
`python3 tests/timing_cases.py --check` only compares, and ends with status 1 where they differ.

The rules of the image and the times are those of tests/image_cases.py and tests/circuits.py, ranks and paths stand below; all were written from
the rules. Which growing ring is shown is left open there, so every circuit that grows here has exactly one growing ring. How it is found
does not count: what is found is held to the definition of a ring, and to being the only one that grows. The makers know of most circuits
whether they grow, and that is tested too.
"""
import struct

from image_cases import BASE, FAULTS, GOOD, LIMIT, build, judge
from circuits import circuits as known_circuits
from circuits import flow, missed, read, ring, row, shift, six, solve
from stored import ROOT, store

# ---- What the calls give: docs/RULES.md, "The calls" and "Numbers of refusal". ----


class SecondRing(Exception):
    """The rules leave open which of several growing rings is shown."""


class Engine:
    """One good image, worked out."""

    def __init__(self, image):
        self.circuit = read(image)
        self.arcs = self.circuit[3]
        self.size = len(self.circuit[2])
        self.latch, self.opening, self.most, _ = flow(self.circuit)
        self.late = solve(self.opening, self.latch, self.arcs, self.most, max)
        self.entering = [[] for _ in range(self.size)]
        for x, (_, b, *_) in enumerate(self.arcs):
            self.entering[b].append(x)
        if self.late is None:
            self.shown, self.gain = ring(self.opening, self.latch, self.arcs, self.most)
            self.judge_ring()
        else:
            self.results = six(self.circuit, self.late)
            self.rank = self.ranks()

    def judge_ring(self):
        """The ring is one, and no other grows: another would lack one of its arcs, and without that arc nothing grows."""
        around = [self.arcs[x][0] for x in self.shown]
        assert [self.arcs[x][1] for x in self.shown] == around[1:] + around[:1]
        assert around[0] == min(around) and len(set(around)) == len(around) and all(self.latch[i] for i in around)
        others = [i for i in range(self.size) if i not in set(around)]
        for step, x in enumerate(self.shown):
            weight = list(self.most)
            weight[x] = -(2**60)
            order = around[step + 1:] + around[:step + 1] + others
            if solve(self.opening, self.latch, self.arcs, weight, max, order) is None:
                raise SecondRing()

    def brings(self, x):
        """When what leaves at the late departure of its source arrives over an arc."""
        return self.late[self.arcs[x][0]] + self.most[x]

    def ranks(self):
        """The fewest arcs over which each late departure is reached from an opening or a flip-flop, rank by rank."""
        rank = [0 if not self.latch[i] or self.late[i] == self.opening[i] else None for i in range(self.size)]
        reached = True
        while reached:
            reached = {}
            for i in range(self.size):
                if rank[i] is None:
                    sources = [rank[self.arcs[x][0]] for x in self.entering[i] if self.brings(x) == self.late[i]]
                    if any(r is not None for r in sources):
                        reached[i] = 1 + min(r for r in sources if r is not None)
            for i, r in reached.items():
                rank[i] = r
        assert None not in rank
        return rank

    def path(self, i):
        """The launching synchronizer, and the arcs in order of travel."""
        latest = max(self.brings(x) for x in self.entering[i])
        last = [x for x in self.entering[i] if self.brings(x) == latest]
        way = [min(last, key=lambda x: (self.rank[self.arcs[x][0]], x))]
        at = self.arcs[way[0]][0]
        while self.rank[at] > 0:
            before = [x for x in self.entering[at] if self.brings(x) == self.late[at] and self.rank[self.arcs[x][0]] == self.rank[at] - 1]
            way.insert(0, min(before))
            at = self.arcs[way[0]][0]
        return at, way


WORKED = {}


def engine(image):
    if image not in WORKED:
        WORKED[image] = Engine(image)
    return WORKED[image]


def written(arcs):
    """The places of the arc buffer that change."""
    return ":" + "".join(" %d" % x for x in arcs)


def timing_text(image, results, arcs):
    answer = judge(image)
    if answer != GOOD:
        return "refused %d %d\n" % answer
    size = len(read(image)[2])
    if results < 6 * size:
        return "refused 10 0\n"
    if arcs < size:
        return "refused 11 0\n"
    e = engine(image)
    if e.late is None:
        return "loop %d %d%s\n" % (len(e.shown), e.gain, written(e.shown))
    return "timed %d %d\n" % missed(e.results) + "".join(row(i, fields) for i, fields in enumerate(e.results))


def path_text(image, i, arcs):
    answer = judge(image)
    if answer != GOOD:
        return "refused %d %d\n" % answer
    size = len(read(image)[2])
    if arcs < size:
        return "refused 11 0\n"
    if i >= size:
        return "refused 12 0\n"
    e = engine(image)
    if not e.entering[i]:
        return "refused 13 0\n"
    if e.late is None:
        return "refused 14 0\n"
    launch, way = e.path(i)
    return "launch %d arcs %d%s\n" % (launch, len(way), written(way))


# ---- Frames. ----

FRAMES = []


def frame(name, image, due=None, results=None, arcs=None, asked=None):
    """Due is how timing's answer begins. Unless told otherwise, the buffers have the places that are needed or a few more, and paths are
    asked to all numbers of a small circuit and to one more, and to the last two of a large one."""
    size = struct.unpack_from("<I", image, 12)[0] if judge(image) == GOOD else 4
    results = 6 * size + len(FRAMES) % 4 if results is None else results
    arcs = size + len(FRAMES) // 4 % 3 if arcs is None else arcs
    first, end = asked or ((0, size + 1) if size <= 24 else (size - 2, size))
    text = timing_text(image, results, arcs)
    assert due is None or text.startswith(due), (name, due, text)
    text = name + "\n" + text + "".join("path %d %s" % (i, path_text(image, i, arcs)) for i in range(first, end))
    letters = name.encode("ascii")
    assert 0 < len(letters) <= 64 and len(image) <= 65_536 and results <= 3_100 and arcs <= 600
    assert name not in [n for n, _, _ in FRAMES], name
    head = struct.pack("<6I", len(letters), len(image), results, arcs, first, end)
    FRAMES.append((name, head + letters + image, text.encode("ascii")))


# ---- Making circuits. ----


class Luck:
    """Numbers by chance that any version of Python makes alike, from a name."""

    def __init__(self, name):
        self.state = 0
        for letter in name.encode("ascii"):
            self.state += letter
            self.below(1)

    def below(self, n):
        self.state = (self.state * 6_364_136_223_846_793_005 + 1_442_695_040_888_963_407) % 2**64
        high = self.state >> 24
        return (high ^ high >> 17) % n

    def one_in(self, n):
        return self.below(n) == 0

    def mixed(self, items):
        items = list(items)
        for i in range(len(items) - 1, 0, -1):
            j = self.below(i + 1)
            items[i], items[j] = items[j], items[i]
        return items


def closings(luck, tc, k, style):
    """Closing times that rise to the cycle: apart, several together, all at the cycle, or at 0 and the cycle alone."""
    if style == "end":
        return [tc] * k
    if style == "ends":
        zeros = luck.below(k)
        return [0] * zeros + [tc] * (k - zeros)
    times = sorted(luck.below(tc + 1) for _ in range(k - 1)) + [tc]
    if style == "together":
        times = [times[i - i % 3] for i in range(k - 1)] + [tc]
    return times


class Draft:
    """A circuit that is being made. Each synchronizer has an aim, which is not below its opening. Where every arc brings at most the aim
    of where it leads from the aim of where it comes from, no ring grows; where it brings exactly that, the rings have gain 0."""

    def __init__(self, name, size, k=None, style="apart", flops=0):
        self.luck = Luck(name)
        self.tc = 100 + self.luck.below(900)
        k = k or 1 + self.luck.below(4)
        self.phases = [(e, self.luck.below(self.tc + 1)) for e in closings(self.luck, self.tc, k, style)]
        self.nodes = [self.synchronizer(k, flops) for _ in range(size)]
        self.aim = [self.opening(i) + (0 if self.luck.one_in(3) else self.luck.below(1 + self.tc // 3)) for i in range(size)]
        self.arcs = {}

    def synchronizer(self, k, flops):
        quarter = 1 + self.tc // 4
        kind = 1 if flops and self.luck.one_in(flops) else 0
        greatest = self.luck.below(quarter)
        return [self.luck.below(k), kind, self.luck.below(quarter), self.luck.below(quarter), self.less(greatest), greatest]

    def less(self, greatest):
        """A least delay: often the same."""
        return min(greatest, self.luck.below(1 + greatest + greatest // 2))

    def opening(self, i):
        return self.tc if self.nodes[i][1] else self.tc - self.phases[self.nodes[i][0]][1]

    def shift(self, a, b):
        return shift(self.tc, self.phases, self.nodes[a][0], self.nodes[b][0])

    def delay(self, a, b, greatest):
        self.arcs[b, a] = [self.less(greatest), greatest]

    def join(self, a, b, slack=0):
        """An arc that brings the aim less the slack, if a delay can do that."""
        greatest = self.aim[b] - self.aim[a] + self.shift(a, b) - self.nodes[a][5] - slack
        if 0 <= greatest <= LIMIT and (b, a) not in self.arcs:
            self.delay(a, b, greatest)

    def join_by_luck(self, count, tight=2, slack=0, onward=False):
        """Arcs between any two. One in `tight` brings the aim less `slack`, the others bring less."""
        size = len(self.nodes)
        for _ in range(count):
            a, b = self.luck.below(size), self.luck.below(size)
            if not onward or a < b:
                self.join(a, b, slack + (0 if self.luck.one_in(tight) else self.luck.below(1 + self.tc // 3)))

    def lead(self, members, parts):
        """Arcs from each member to the next, over which source and arc together delay by the parts. The arc has at least a tick of
        a part that is not 0. The aims follow."""
        aims = [0]
        for a, b, part in zip(members, members[1:], parts):
            self.nodes[a][5] = min(max(part - 1, 0), self.nodes[a][5])
            self.nodes[a][4] = self.less(self.nodes[a][5])
            self.delay(a, b, part - self.nodes[a][5])
            aims.append(aims[-1] + part - self.shift(a, b))
        rise = max(self.opening(i) - aim for i, aim in zip(members, aims))
        for i, aim in zip(members, aims):
            self.aim[i] = aim + rise

    def close(self, members, gain):
        """A ring of the gain: all the delays on it make up the shifts, but for the gain, which its last arc has."""
        around = members + members[:1]
        total = sum(self.shift(a, b) for a, b in zip(around, around[1:]))
        cuts = sorted(self.luck.below(total) for _ in members[1:])
        self.lead(around, [high - low for low, high in zip([0] + cuts, cuts + [total])])
        last = self.arcs[members[0], members[-1]]
        last[1] += gain
        last[0] = min(last)

    def image(self):
        arcs = [(a, b, *window) for (b, a), window in sorted(self.arcs.items())]
        return build(self.tc, self.phases, [tuple(node) for node in self.nodes], arcs)


# ---- The kinds. ----

# What is known of P1 to P15, as far as it makes a whole line.
STATED = {
    "p1": ["timed 0 0", "0 60 60 25 60 20 30", "1 60 80 35 80 30 10"],
    "p2": ["loop 2 1: 1 0"],
    "p4": ["timed 1 0"],
    "p6": ["path 0 launch 0 arcs 2: 1 0"],
    "p9": ["timed 1 0", "path 2 launch 0 arcs 2: 0 1"],
    "p10": ["timed 0 0"],
    "p11": ["timed 0 1", "1 50 50 -35 -35 -40 125"],
    "p12": ["timed 0 1", "1 50 50 -35 -35 -40 125"],
    "p13": ["timed 0 2", "0 50 50 -35 -25 -40 115", "1 50 50 -25 15 -30 75"],
    "p14": ["timed 0 1", "1 70 88 3 88 -2 2", "path 2 launch 2 arcs 3: 0 1 2"],
    "p15": ["timed 0 1", "1 70 88 3 88 -2 2", "path 2 launch 2 arcs 3: 0 1 2"],
}


def known():
    for name, image in known_circuits().items():
        frame(name, image)
        lines = FRAMES[-1][2].decode("ascii").split("\n")
        assert all(line in lines for line in STATED.get(name, [])), (name, lines)


def small():
    """No synchronizers, one, and arcs from a synchronizer to itself."""
    for k in (1, 2, 16):
        frame("no-synchronizers-phases-%d" % k, Draft("none", 0, k).image(), "timed 0 0", asked=(0, 2))
    frame("no-synchronizers-buffers-longer", Draft("none", 0).image(), "timed 0 0", results=9, arcs=5, asked=(0, 1))
    for kind, flops in (("latch", 0), ("flip-flop", 1)):
        frame("one-%s" % kind, Draft("one", 1, flops=flops).image(), "timed 0 0")
        frame("five-without-arcs-%s" % kind, Draft("five", 5, flops=flops).image(), "timed 0 0")
        for gain in (-1, 0, 1):
            name = "one-%s-self-arc-gain%+d" % (kind, gain)
            d = Draft(name, 1, flops=flops)
            d.close([0], gain)
            frame(name, d.image(), "loop 1 1: 0" if gain == 1 and not flops else "timed")


def chains():
    """Numbered rising, falling and mixed."""
    for size in (2, 3, 5, 9, 17, 40, 512):
        for order in ("rising", "falling", "mixed"):
            name = "chain-%d-%s" % (size, order)
            d = Draft(name, size)
            if size == 512:
                # Every latch passes on what comes, so that the path has all the arcs.
                d.phases = [(e, d.tc) for e, _ in d.phases]
            members = list(range(size))
            members = d.luck.mixed(members) if order == "mixed" else members[::-1 if order == "falling" else 1]
            few = 3 if size == 512 else 1 + d.tc // 3
            d.lead(members, [d.shift(a, b) + d.luck.below(few) for a, b in zip(members, members[1:])])
            asked = (members[-1], members[-1] + 1) if size == 512 else None
            frame(name, d.image(), "timed", asked=asked)


def rings():
    """Rings of a gain, with further synchronizers and arcs. Where the ring grows, the further arcs bring at least a tick less than they
    might, so that no other does; else some of them close further rings of gain 0."""
    for length, more, count in ((1, 3, 8), (2, 0, 0), (2, 3, 12), (3, 2, 12), (12, 5, 30), (14, 0, 60), (64, 10, 60), (512, 0, 24)):
        for gain in (-1, 0, 1):
            name = "ring-%d-of-%d-gain%+d" % (length, length + more, gain)
            d = Draft(name, length + more)
            members = d.luck.mixed(range(length + more))[:length]
            d.close(members, gain)
            d.join_by_luck(count, slack=1 if gain == 1 else 0)
            frame(name, d.image(), "loop %d 1:" % length if gain == 1 else "timed")


def rings_closing_together():
    """The phases of a ring all close together: each shift is the cycle, whichever way it leads. Then two neighbouring phases with equal closing
    times are exchanged, which changes no line."""
    for style in ("end", "ends"):
        for gain in (-1, 0, 1):
            name = "ring-closing-at-%s-gain%+d" % (style, gain)
            d = Draft(name, 6, k=5, style=style)
            for i, p in enumerate((0, 4, 1, 3, 2, 1)):
                d.nodes[i][0] = p
                d.aim[i] = max(d.aim[i], d.opening(i))
            assert all(d.shift(a, b) == d.tc for a in range(6) for b in range(6))
            d.close(d.luck.mixed(range(6)), gain)
            d.join_by_luck(6, slack=1 if gain == 1 else 0)
            frame(name, d.image(), "loop 6 1:" if gain == 1 else "timed", asked=(0, 7))
            p = next(p for p in (2, 0, 3) if d.phases[p][0] == d.phases[p + 1][0])
            d.phases[p:p + 2] = d.phases[p + 1], d.phases[p]
            for node in d.nodes:
                node[0] = {p: p + 1, p + 1: p}.get(node[0], node[0])
            before = FRAMES[-1][2].split(b"\n")[1:]
            frame(name + "-exchanged", d.image(), asked=(0, 7))
            assert FRAMES[-1][2].split(b"\n")[1:] == before


def two_rings():
    """One ring grows; another, apart from it or through one of its latches, has gain 0 or -1."""
    for gain in (-1, 0):
        name = "two-rings-apart-gain%+d" % gain
        d = Draft(name, 9)
        nodes = d.luck.mixed(range(9))
        d.close(nodes[:4], 1)
        d.close(nodes[4:8], gain)
        d.join_by_luck(10, slack=1)
        frame(name, d.image(), "loop 4 1:")
        name = "two-rings-sharing-a-latch-gain%+d" % gain
        # Other names, till a delay can do each of the eight arcs.
        arcs = {}
        while len(arcs) < 8:
            d = Draft(name, 9, k=1)
            nodes = d.luck.mixed(range(9))
            d.close(nodes[:4], 1)
            for a, b, slack in zip(nodes[3:7], nodes[4:7] + nodes[3:4], (-gain, 0, 0, 0)):
                d.join(a, b, slack)
            name, arcs = name + "-", d.arcs
        d.join_by_luck(10, slack=1)
        frame(name.rstrip("-"), d.image(), "loop 4 1:")


def broken_rings():
    """Rings through a flip-flop. With a latch in its place they grow."""
    for length in (1, 2, 3, 12, 40):
        name = "ring-%d-through-flip-flop" % length
        d = Draft(name, length + 2)
        members = d.luck.mixed(range(length + 2))[:length]
        d.close(members, 7)
        d.join_by_luck(length, slack=7)
        d.nodes[members[0]][1] = 1
        frame(name, d.image(), "timed")
        d.nodes[members[0]][1] = 0
        frame("ring-%d-through-latch" % length, d.image(), "loop %d 7:" % length)


def self_arcs():
    """Many latches with an arc to themselves; where one grows, one alone."""
    for size in (3, 8, 30):
        for gain in (-1, 0, 1):
            name = "self-arcs-%d-gain%+d" % (size, gain)
            d = Draft(name, size)
            for i in range(size):
                d.join(i, i, max(-gain, 0))
            d.join_by_luck(2 * size, slack=1 if gain == 1 else 0)
            if gain == 1:
                i = d.luck.below(size)
                d.arcs[i, i][1] += 1
            frame(name, d.image(), "loop 1 1:" if gain == 1 else "timed")


def woven(name, size, count, tight=2, **how):
    """A circuit whose arcs all keep to the aims."""
    d = Draft(name, size, **how)
    d.join_by_luck(count, tight)
    frame(name, d.image(), "timed")


def woven_kinds():
    for size in (2, 4, 7, 12, 20, 60):
        woven("flip-flops-%d" % size, size, 3 * size, flops=2)
        woven("flip-flops-alone-%d" % size, size, 3 * size, flops=1)
        woven("sixteen-phases-%d" % size, size, 4 * size, k=16, flops=6)
        woven("closing-together-%d" % size, size, 4 * size, k=5 + size % 12, style="together", flops=8)
        woven("closing-at-ends-%d" % size, size, 4 * size, k=2 + size % 7, style="ends", flops=8)
        woven("sparse-%d" % size, size, size, flops=5)
        # Every arc brings the aim: arrivals are tied over many arcs, from sources of equal and of different rank.
        woven("tied-%d" % size, size, 6 * size, tight=1)
        woven("tied-one-phase-%d" % size, size, 8 * size, tight=1, k=1, flops=9)
    woven("sparse-300", 300, 330, flops=7)


def dense():
    """An arc from each to each. The aims lie close together, counted from the closing of the phases, so that a delay can always do it."""
    for size in (2, 3, 5, 8, 13, 21, 45):
        for k in (1, 3) if size < 45 else (3,):
            name = "dense-%d-phases-%d" % (size, k)
            d = Draft(name, size, k)
            d.tc = 900
            step = 900 // (3 * k)
            closes = [300, 600, 900] if k == 3 else [900]
            d.phases = [(e, min(900, e - p * step + d.luck.below(step))) for p, e in enumerate(closes)]
            for i, node in enumerate(d.nodes):
                node[5] = d.luck.below(2)
                node[4] = d.luck.below(1 + node[5])
                d.aim[i] = 900 - d.phases[node[0]][0] + node[0] * step + d.luck.below(step // 2)
                d.aim[i] = max(d.aim[i], d.opening(i))
            for b in range(size):
                for a in range(size):
                    d.join(a, b, 0 if d.luck.one_in(3) else d.luck.below(30))
            frame(name, d.image(), "timed")
            assert len(d.arcs) == size * size


def by_luck():
    """Arcs and delays by luck, and one arc with a tick too much. Of those that grow only circuits with one growing ring are taken."""
    for size in (2, 3, 4, 6, 9, 14):
        for number in range(4):
            name = "luck-%d-number-%d" % (size, number)
            taken(name, lambda luck_name: wild(luck_name, size))
            name = "tick-too-much-%d-number-%d" % (size, number)
            taken(name, lambda luck_name: bumped(luck_name, size))


def wild(name, size):
    d = Draft(name, size, flops=6)
    for _ in range(2 * size):
        d.delay(d.luck.below(size), d.luck.below(size), d.luck.below(d.tc))
    return d.image()


def bumped(name, size):
    d = Draft(name, size)
    d.join_by_luck(2 * size, tight=1)
    for window in d.luck.mixed(d.arcs.values())[:1]:
        window[1] += 1
    return d.image()


def taken(name, make):
    """The first of a hundred attempts that has not a second growing ring."""
    for attempt in range(100):
        image = make("%s-%d" % (name, attempt))
        try:
            engine(image)
        except SecondRing:
            continue
        return frame(name, image)
    raise AssertionError(name)


def extremes():
    """The cycle, active lengths, delays, setups and holds at their limits, in this order in the name."""
    for tc in (1, LIMIT):
        for t in (0, tc):
            for delay in (0, LIMIT):
                for check in (0, tc):
                    name = "extremes-%s" % "-".join("most" if x > 1 else str(x) for x in (tc, t, delay, check))
                    phases = [(0, t), (tc, t)]
                    nodes = [(i % 2, 1 if i == 3 else 0, check, check, delay if i % 3 else 0, delay) for i in range(6)]
                    arcs = [(0, 1), (1, 2), (0, 3), (2, 3), (3, 4), (1, 5), (4, 5)]
                    frame(name, build(tc, phases, nodes, [(a, b, 0 if a == 1 else delay, delay) for a, b in arcs]), "timed")
    one = [(1, 1)]
    node = (0, 0, 1, 1, LIMIT, LIMIT)
    around = [(511, 0, LIMIT, LIMIT)] + [(i, i + 1, LIMIT, LIMIT) for i in range(511)]
    frame("greatest-gain", build(1, one, [node] * 512, around), "loop 512 1023999999488:")
    frame("greatest-times", build(1, one, [node] * 512, around[1:]), "timed 511 0", asked=(511, 512))


def ties():
    """The choice of the last arc, and of the arcs before it."""
    # All on one phase that is open all the time: an arc adds its delay less 100. Latch 0 departs at 0.
    def circuit(size, arcs, flops=()):
        nodes = [(0, 1 if i in flops else 0, 0, 0, 0, 0) for i in range(size)]
        return build(100, [(100, 100)], nodes, sorted([(a, b, w, w) for a, b, w in arcs], key=lambda arc: (arc[1], arc[0])))

    frame("tie-rank-before-number", circuit(4, [(2, 0, 110), (0, 1, 100), (3, 1, 110)]), "timed")
    frame("tie-number-at-equal-rank", circuit(4, [(0, 1, 110), (2, 1, 110), (3, 1, 110)]), "timed")
    frame("tie-lower-rank-further-back", circuit(6, [(4, 0, 110), (0, 1, 110), (5, 2, 120), (1, 3, 105), (2, 3, 105)]), "timed")
    steps = [(4, 1, 110), (5, 1, 110), (4, 2, 110), (1, 3, 110), (2, 3, 110), (3, 0, 110)]
    frame("tie-lowest-at-each-step", circuit(6, steps), "timed")
    frame("tie-flip-flop-and-latch", circuit(4, [(2, 0, 200), (0, 1, 100), (3, 1, 100)], flops=(3,)), "timed")
    frame("tie-late-arrival-at-opening", circuit(3, [(0, 1, 100), (2, 1, 100)]), "timed")
    frame("tie-arrival-below-opening", circuit(3, [(0, 1, 90), (2, 1, 90)]), "timed")
    frame("tie-into-flip-flop", circuit(4, [(2, 0, 150), (0, 1, 100), (3, 1, 150)], flops=(1,)), "timed")
    # A ring of gain 0: its own arcs give the departures too, and the way in is shorter.
    loop = [(0, 1, 110), (1, 2, 100), (2, 3, 100), (3, 1, 100), (4, 3, 110)]
    frame("tie-round-a-ring-of-gain-0", circuit(5, loop), "timed")


def full():
    """Many synchronizers."""
    d = Draft("largest", 512, k=16, flops=6)
    while len(d.arcs) < 2048:
        d.join_by_luck(1)
    image = d.image()
    assert len(image) == 45_216
    frame("largest", image, "timed", asked=(100, 104))
    lonely = Draft("lonely", 512, k=1).image()
    frame("512-without-arcs-results-one-short", lonely, "refused 10 0", results=3_071)
    frame("512-without-arcs-arcs-one-short", lonely, "refused 11 0", arcs=511)
    d = Draft("512-in-a-chain-with-more", 512, k=16, flops=30)
    d.join_by_luck(900, onward=True)
    frame("512-onward", d.image(), "timed", results=3_100, arcs=600)


def refusals():
    """Each rule of the image through both calls; then the buffers and numbers, in their order."""
    for number, faults in enumerate(FAULTS, 1):
        for (expected, fault), places in zip(faults, ((24, 4), (0, 0))):
            image = fault(BASE)
            frame("rule-%d-results-%d-arcs-%d" % (number, *places), image, "refused %d %d" % expected, *places, asked=(0, 1))
    short = ((0, 0, 10), (0, 4, 10), (23, 4, 10), (23, 3, 10), (24, 0, 11), (24, 3, 11), (30, 3, 11))
    enough = ((24, 4), (25, 4), (24, 5), (30, 9), (3_100, 600))
    growing = Draft("grows", 4)
    growing.close([3, 1], 1)
    growing.join(3, 2, 1)
    for kind, image, answer in (("timed", BASE, "timed"), ("growing", growing.image(), "loop 2 1:")):
        for results, arcs, number in short:
            frame("%s-results-%d-arcs-%d" % (kind, results, arcs), image, "refused %d 0" % number, results, arcs, (2, 6))
        for results, arcs in enough:
            frame("%s-results-%d-arcs-%d" % (kind, results, arcs), image, answer, results, arcs, (0, 6))
        frame("%s-path-to-great-number" % kind, image, answer, asked=(4_294_967_293, 4_294_967_295))


def main():
    kinds = [known, small, chains, rings, rings_closing_together, two_rings, broken_rings, self_arcs, woven_kinds, dense, by_luck, extremes]
    for kind in kinds + [ties, full, refusals]:
        kind()
    folder = ROOT / "crates" / "timing_cases"
    wanted = {folder / "stdin": b"".join(f for _, f, _ in FRAMES), folder / "stdout": b"".join(t for _, _, t in FRAMES)}
    assert sum(len(text) for text in wanted.values()) < 900_000
    store(wanted, "%d frames" % len(FRAMES))


if __name__ == "__main__":
    main()
