//! Circuits by chance, the images of circuits, and damage to images. The same seed always makes the same ones.
#![forbid(unsafe_code)]

use crate::independent::{LIMIT, MOST_ARCS, MOST_PHASES, MOST_SYNCHRONIZERS};
use std::collections::BTreeSet;

// ---- Chance. ----

/// The generator splitmix64.
pub struct Random(u64);

impl Random {
    pub fn new(seed: u64) -> Random {
        Random(seed)
    }

    /// The next word, any of 64 bits.
    pub fn draw(&mut self) -> u64 {
        self.0 = self.0.wrapping_add(0x9E37_79B9_7F4A_7C15);
        let mut z = self.0;
        z = (z ^ (z >> 30)).wrapping_mul(0xBF58_476D_1CE4_E5B9);
        z = (z ^ (z >> 27)).wrapping_mul(0x94D0_49BB_1331_11EB);
        z ^ (z >> 31)
    }

    /// From low to high, both included.
    pub fn between(&mut self, low: u32, high: u32) -> u32 {
        low + (self.draw() % (u64::from(high - low) + 1)) as u32
    }

    pub fn chance(&mut self, percent: u32) -> bool {
        self.between(1, 100) <= percent
    }

    pub fn pick<T: Copy>(&mut self, from: &[T]) -> T {
        from[self.place(from.len())]
    }

    /// A place in a list of this length, which is not 0.
    pub fn place(&mut self, length: usize) -> usize {
        (self.draw() % length as u64) as usize
    }

    fn shuffle<T>(&mut self, list: &mut [T]) {
        for i in (1..list.len()).rev() {
            let j = self.place(i + 1);
            list.swap(i, j);
        }
    }
}

// ---- A circuit and its image. ----

/// The records of an image.
#[derive(Clone, Debug)]
pub struct Plan {
    pub cycle: u32,
    /// Closing time, active length.
    pub phases: Vec<[u32; 2]>,
    /// Phase, kind, setup, hold, least delay, greatest delay.
    pub synchronizers: Vec<[u32; 6]>,
    /// From, to, least delay, greatest delay.
    pub arcs: Vec<[u32; 4]>,
}

fn records<const N: usize>(words: &[u32]) -> Vec<[u32; N]> {
    words.chunks_exact(N).map(|record| record.try_into().expect("a chunk has N words")).collect()
}

impl Plan {
    /// The records of a good image.
    pub fn of(image: &[u8]) -> Plan {
        let words: Vec<u32> = image.chunks_exact(4).map(|word| u32::from_le_bytes([word[0], word[1], word[2], word[3]])).collect();
        let (phases, others) = words[8..].split_at(2 * words[2] as usize);
        let (synchronizers, arcs) = others.split_at(6 * words[3] as usize);
        Plan { cycle: words[1], phases: records(phases), synchronizers: records(synchronizers), arcs: records(arcs) }
    }

    /// The image, with the header that fits the tables.
    pub fn image(&self) -> Vec<u8> {
        let (k, l, m) = (self.phases.len() as u32, self.synchronizers.len() as u32, self.arcs.len() as u32);
        let header = [1, self.cycle, k, l, m, 32, 32 + 8 * k, 32 + 8 * k + 24 * l];
        let words =
            header.iter().chain(self.phases.iter().flatten()).chain(self.synchronizers.iter().flatten()).chain(self.arcs.iter().flatten());
        words.flat_map(|word| word.to_le_bytes()).collect()
    }

    fn latch(&self, i: usize) -> bool {
        self.synchronizers[i][1] == 0
    }

    fn opening(&self, i: usize) -> i64 {
        i64::from(self.cycle) - i64::from(self.phases[self.synchronizers[i][0] as usize][1])
    }

    /// When a phase closes on a dial that is the cycle round: Tc is 0 again.
    fn dial(&self, phase: u32) -> i64 {
        i64::from(self.phases[phase as usize][0] % self.cycle)
    }

    /// Forward on the dial. A hand that points to the same place goes once round.
    fn shift(&self, from: usize, to: usize) -> i64 {
        let (leaves, enters) = (self.dial(self.synchronizers[from][0]), self.dial(self.synchronizers[to][0]));
        if leaves < enters {
            enters - leaves
        } else {
            i64::from(self.cycle) + enters - leaves
        }
    }

    /// The two phases of each arc between different phases that close together.
    pub fn arcs_together(&self) -> Vec<[u32; 2]> {
        let ends = self.arcs.iter().map(|&[from, to, _, _]| [from, to].map(|cell| self.synchronizers[cell as usize][0]));
        ends.filter(|&[i, j]| i != j && self.dial(i) == self.dial(j)).collect()
    }

    /// The phases that close at the same time as the next one.
    pub fn equal_neighbours(&self) -> Vec<u32> {
        (1..).zip(self.phases.windows(2)).filter(|(_, two)| two[0][0] == two[1][0]).map(|(next, _)| next - 1).collect()
    }

    /// A phase and the next one exchanged. Each synchronizer stays on its own.
    pub fn exchanged(&self, phase: u32) -> Plan {
        let mut plan = self.clone();
        plan.phases.swap(phase as usize, phase as usize + 1);
        for [on, ..] in &mut plan.synchronizers {
            if *on == phase {
                *on += 1;
            } else if *on == phase + 1 {
                *on -= 1;
            }
        }
        plan
    }

    /// Puts the arcs in the image's order. Of two with the same ends, one goes.
    fn order_arcs(&mut self) {
        self.arcs.sort_by_key(|&[from, to, _, _]| (to, from));
        self.arcs.dedup_by_key(|&mut [from, to, _, _]| (to, from));
    }

    /// Makes every window a single point, so that early times follow the late ones.
    fn fix_windows(&mut self) {
        for cell in &mut self.synchronizers {
            cell[4] = cell[5];
        }
        for arc in &mut self.arcs {
            arc[2] = arc[3];
        }
    }

    /// Demand 3: windows narrowed, setup and hold lowered, arcs dropped. Each synchronizer with arcs in keeps one.
    pub fn narrowed(&self, random: &mut Random) -> Plan {
        let mut plan = self.clone();
        let narrow = |random: &mut Random, window: &mut [u32]| {
            window[0] = random.between(window[0], window[1]);
            window[1] = random.between(window[0], window[1]);
        };
        let amount = random.pick(&[0, 10, 50, 100]);
        for cell in &mut plan.synchronizers {
            if random.chance(amount) {
                cell[2] = random.between(0, cell[2]);
                cell[3] = random.between(0, cell[3]);
                narrow(random, &mut cell[4..]);
            }
        }
        let mut arcs_in = vec![0; plan.synchronizers.len()];
        for arc in &mut plan.arcs {
            arcs_in[arc[1] as usize] += 1;
            if random.chance(amount) {
                narrow(random, &mut arc[2..]);
            }
        }
        let dropped = random.pick(&[0, 10, 60]);
        plan.arcs.retain(|arc| {
            let left = &mut arcs_in[arc[1] as usize];
            let drop = *left > 1 && random.chance(dropped);
            *left -= u32::from(drop);
            !drop
        });
        plan
    }
}

// ---- Circuits by chance. ----

/// What the maker of a circuit knows of it.
#[derive(Clone, Copy, Debug, PartialEq, Eq)]
pub enum Expect {
    Either,
    Timed,
    Growing,
}

#[derive(Clone, Copy, Debug)]
pub enum Size {
    Tiny,
    Small,
    Middle,
    Greatest,
}

impl Size {
    /// Phases, synchronizers, arcs. Arcs are at most one for each pair of ends.
    fn counts(self, random: &mut Random) -> (u32, u32, u32) {
        let (k, l) = match self {
            Size::Tiny => (random.between(1, 3), random.between(0, 3)),
            Size::Small if random.chance(20) => (MOST_PHASES, random.between(4, 12)),
            Size::Small => (random.between(1, 5), random.between(4, 12)),
            Size::Middle => (random.between(1, MOST_PHASES), random.between(13, 120)),
            Size::Greatest => (MOST_PHASES, MOST_SYNCHRONIZERS),
        };
        let most = (l * l).min(MOST_ARCS);
        let m = match self {
            Size::Greatest => most,
            _ if random.chance(10) => most,
            _ => random.between(0, most.min(4 * l)),
        };
        (k, l, m)
    }
}

/// A circuit without arcs yet, how many it should get, and how long a delay should be.
struct Start {
    plan: Plan,
    arcs: usize,
    longest: u32,
}

fn start(random: &mut Random, size: Size, flip_flops: u32) -> Start {
    let (k, l, arcs) = size.counts(random);
    // Small numbers make many ties. Great ones come near the limits. The last kind has delays far above the cycle.
    let (cycle, longest) = match random.between(0, 5) {
        0 | 1 => (random.between(1, 8), random.between(0, 8)),
        2 => (random.between(10, 100), random.between(0, 120)),
        3 => (random.between(1_000, 10_000_000), random.between(1, 10_000_000)),
        4 => (LIMIT - random.between(0, 2), LIMIT - random.between(0, 2)),
        _ => (random.between(1, 3), LIMIT - random.between(0, 2)),
    };
    let phases = closings(random, cycle, k).into_iter().map(|closing| [closing, length(random, cycle)]).collect();
    let synchronizers = (0..l)
        .map(|_| {
            let kind = u32::from(random.chance(flip_flops));
            let [least, greatest] = window(random, longest);
            [random.between(0, k - 1), kind, length(random, cycle), length(random, cycle), least, greatest]
        })
        .collect();
    Start { plan: Plan { cycle, phases, synchronizers, arcs: Vec::new() }, arcs: arcs as usize, longest }
}

/// Closing times that rise to the cycle: any; any of four, with 0 and the cycle among them; 0 and the cycle alone; or the cycle
/// alone. So many phases close together.
fn closings(random: &mut Random, cycle: u32, k: u32) -> Vec<u32> {
    let any = |random: &mut Random| random.between(0, cycle);
    let times = match random.between(0, 4) {
        0 | 1 => (0..k).map(|_| any(random)).collect(),
        2 => vec![0, any(random), any(random), cycle],
        3 => vec![0, cycle],
        _ => vec![cycle],
    };
    let mut closings: Vec<u32> = (1..k).map(|_| random.pick(&times)).collect();
    closings.sort_unstable();
    closings.push(cycle);
    closings
}

/// From 0 to the cycle, often one of these two, often short.
fn length(random: &mut Random, cycle: u32) -> u32 {
    match random.between(0, 9) {
        0 => 0,
        1 => cycle,
        2..=5 => random.between(0, cycle / 4),
        _ => random.between(0, cycle),
    }
}

fn window(random: &mut Random, longest: u32) -> [u32; 2] {
    let greatest = if random.chance(20) { longest } else { random.between(0, longest) };
    [least(random, greatest), greatest]
}

fn least(random: &mut Random, greatest: u32) -> u32 {
    match random.between(0, 3) {
        0 => greatest,
        1 => 0,
        _ => random.between(0, greatest),
    }
}

/// Different pairs of ends, "from" then "to". Those from a synchronizer to itself are among them.
fn ends(random: &mut Random, l: usize, count: usize) -> Vec<(usize, usize)> {
    if 2 * count > l * l {
        let mut all: Vec<(usize, usize)> = (0..l * l).map(|pair| (pair / l, pair % l)).collect();
        random.shuffle(&mut all);
        all.truncate(count);
        return all;
    }
    let mut chosen = BTreeSet::new();
    while chosen.len() < count {
        chosen.insert((random.place(l), random.place(l)));
    }
    let mut chosen: Vec<(usize, usize)> = chosen.into_iter().collect();
    random.shuffle(&mut chosen);
    chosen
}

/// More than are wanted, for makers that cannot use them all.
fn spare_ends(random: &mut Random, l: usize, wanted: usize) -> impl Iterator<Item = (usize, usize)> {
    ends(random, l, (3 * wanted).min(l * l)).into_iter()
}

fn flip_flop_share(random: &mut Random) -> u32 {
    random.pick(&[0, 0, 10, 50, 100])
}

/// Any ends and any delays. With many latches such a circuit mostly grows.
pub fn free(random: &mut Random, size: Size) -> (Plan, Expect) {
    let share = flip_flop_share(random);
    let Start { mut plan, arcs, longest } = start(random, size, share);
    for (from, to) in ends(random, plan.synchronizers.len(), arcs) {
        let [least, greatest] = window(random, longest);
        plan.arcs.push([from as u32, to as u32, least, greatest]);
    }
    plan.order_arcs();
    (plan, if share == 100 { Expect::Timed } else { Expect::Either })
}

/// Departures are chosen first, then delays that they fit, so no ring grows. With `tight` percent an arc has no room left: rings of
/// such arcs have gain exactly 0.
fn fitted(random: &mut Random, size: Size, tight: u32) -> Plan {
    let share = random.pick(&[0, 0, 10, 40]);
    let Start { mut plan, arcs, longest } = start(random, size, share);
    // Short enough that most arcs find room.
    let delay = longest.min(plan.cycle / 4);
    for cell in &mut plan.synchronizers {
        let [least, greatest] = window(random, delay);
        cell[4] = least;
        cell[5] = greatest;
    }
    let spread = random.pick(&[0, plan.cycle / 2, plan.cycle]);
    let cycle = i64::from(plan.cycle);
    let departures: Vec<i64> = (0..plan.synchronizers.len())
        .map(|i| if plan.latch(i) { plan.opening(i) + i64::from(random.between(0, spread)) } else { cycle })
        .collect();
    for (from, to) in spare_ends(random, plan.synchronizers.len(), arcs) {
        if plan.arcs.len() == arcs {
            break;
        }
        let [least_delay, greatest] = if plan.latch(to) {
            let room = departures[to] + plan.shift(from, to) - departures[from] - i64::from(plan.synchronizers[from][5]);
            if room < 0 {
                continue;
            }
            let room = room.min(i64::from(LIMIT)) as u32;
            let greatest = if random.chance(tight) { room } else { random.between(0, room) };
            [least(random, greatest), greatest]
        } else {
            window(random, longest)
        };
        plan.arcs.push([from as u32, to as u32, least_delay, greatest]);
    }
    plan.order_arcs();
    if random.chance(40) {
        plan.fix_windows();
    }
    plan
}

/// No ring grows. Few arcs are tight.
pub fn loose(random: &mut Random, size: Size) -> (Plan, Expect) {
    (fitted(random, size, 5), Expect::Timed)
}

/// No ring grows. Most arcs are tight, so there are many ties and rings of gain 0.
pub fn tight(random: &mut Random, size: Size) -> (Plan, Expect) {
    let percent = random.pick(&[60, 90, 100]);
    (fitted(random, size, percent), Expect::Timed)
}

/// As tight, then one arc a tick longer. A ring through it may have gain 1.
pub fn tick_more(random: &mut Random, size: Size) -> (Plan, Expect) {
    let mut plan = tight(random, size).0;
    if !plan.arcs.is_empty() {
        let i = random.place(plan.arcs.len());
        let greatest = &mut plan.arcs[i][3];
        *greatest = (*greatest + 1).min(LIMIT);
    }
    (plan, Expect::Either)
}

/// Arcs only lead forward in some order of the synchronizers, so there is no ring. With a backbone each leads to the next: data runs
/// through all of them, and times grow great.
fn ordered(random: &mut Random, size: Size, backbone: bool) -> (Plan, Expect) {
    let share = random.pick(&[0, 0, 2, 20]);
    let Start { mut plan, arcs, longest } = start(random, size, share);
    let l = plan.synchronizers.len();
    let mut order: Vec<usize> = (0..l).collect();
    match random.between(0, 2) {
        0 => (),
        1 => order.reverse(),
        _ => random.shuffle(&mut order),
    }
    // One delay for all makes ties; a delay above the cycle makes data flow on.
    let one_delay = random.chance(30);
    let lowest = if random.chance(50) { plan.cycle.min(LIMIT) } else { 0 };
    let highest = longest.max(lowest);
    let delay = random.between(lowest, highest);
    if one_delay {
        for cell in &mut plan.synchronizers {
            cell[4] = 0;
            cell[5] = 0;
        }
    }
    let mut steps: Vec<(usize, usize)> = if backbone { (1..l).map(|place| (place - 1, place)).collect() } else { Vec::new() };
    let others = arcs.saturating_sub(steps.len());
    steps.extend(spare_ends(random, l, arcs).filter(|&(a, b)| a < b && !(backbone && a + 1 == b)).take(others));
    for (a, b) in steps {
        let greatest = if one_delay { delay } else { random.between(lowest, highest) };
        plan.arcs.push([order[a] as u32, order[b] as u32, least(random, greatest), greatest]);
    }
    plan.order_arcs();
    if random.chance(30) {
        plan.fix_windows();
    }
    (plan, Expect::Timed)
}

pub fn forward(random: &mut Random, size: Size) -> (Plan, Expect) {
    ordered(random, size, false)
}

pub fn chain(random: &mut Random, size: Size) -> (Plan, Expect) {
    ordered(random, size, true)
}

/// One ring of a chosen gain: 0, or one above or below, or far above. The other synchronizers feed it or are fed, and make no ring.
pub fn ring(random: &mut Random, size: Size) -> (Plan, Expect) {
    let Start { mut plan, arcs, longest } = start(random, size, 0);
    let l = plan.synchronizers.len();
    if l == 0 {
        return (plan, Expect::Timed);
    }
    let mut order: Vec<usize> = (0..l).collect();
    if random.chance(80) {
        random.shuffle(&mut order);
    }
    // First in the order come those that feed the ring, then the ring, then those that are fed.
    let around = if random.chance(30) { l } else { random.between(1, l as u32) as usize };
    let feeders = random.place(l - around + 1);
    for &i in order[..feeders].iter().chain(&order[feeders + around..]) {
        plan.synchronizers[i][1] = u32::from(random.chance(20));
    }

    // All delays of the ring must add up to its shifts and the gain. Shifts round a ring are a cycle or more.
    let on_ring = order[feeders..feeders + around].to_vec();
    let shifts: i64 = (0..around).map(|i| plan.shift(on_ring[i], on_ring[(i + 1) % around])).sum();
    let far = i64::from(random.between(2, 1_000));
    let gain = random.pick(&[-1, 0, 0, 0, 1, 1, 1, far]);
    let delays = parts(random, shifts + gain, 2 * around);
    for (i, delay) in delays.chunks_exact(2).enumerate() {
        let (from, to) = (on_ring[i], on_ring[(i + 1) % around]);
        plan.synchronizers[from][5] = delay[0];
        plan.synchronizers[from][4] = least(random, delay[0]);
        plan.arcs.push([from as u32, to as u32, least(random, delay[1]), delay[1]]);
    }
    let inside = feeders..feeders + around;
    let others = arcs.saturating_sub(around);
    let spare = spare_ends(random, l, arcs).filter(|&(a, b)| a < b && !(inside.contains(&a) && inside.contains(&b)));
    for (a, b) in spare.take(others) {
        let [least, greatest] = window(random, longest);
        plan.arcs.push([order[a] as u32, order[b] as u32, least, greatest]);
    }
    plan.order_arcs();
    if random.chance(40) {
        plan.fix_windows();
    }
    (plan, if gain > 0 { Expect::Growing } else { Expect::Timed })
}

/// A sum cut into parts from 0 to the limit.
fn parts(random: &mut Random, sum: i64, count: usize) -> Vec<u32> {
    let share = sum / count as i64;
    let mut parts = vec![share as u32; count];
    parts[0] += (sum - share * count as i64) as u32;
    for _ in 0..count {
        let (i, j) = (random.place(count), random.place(count));
        if i != j {
            let moved = random.between(0, parts[i].min(LIMIT - parts[j]));
            parts[i] -= moved;
            parts[j] += moved;
        }
    }
    parts
}

// ---- At the limits. ----

/// One phase as long as the cycle, so every latch opens at 0 and every shift is the cycle.
fn even(cycle: u32, l: u32, delay: u32) -> Plan {
    Plan { cycle, phases: vec![[cycle, cycle]], synchronizers: vec![[0, 0, cycle, cycle, delay, delay]; l as usize], arcs: Vec::new() }
}

/// Arcs from each to the next, and from the last to the first if it is a ring. `upwards` is the direction of the numbers.
fn arcs_in_turn(l: u32, ring: bool, upwards: bool, delay: u32) -> Vec<[u32; 4]> {
    let name = |place: u32| if upwards { place % l } else { l - 1 - place % l };
    let last = if ring { l } else { l - 1 };
    (0..last).map(|place| [name(place), name(place + 1), delay, delay]).collect()
}

/// Circuits as great as can be, and images that are one beyond a limit and good in all else.
pub fn at_limits() -> Vec<(&'static str, Vec<u8>)> {
    let most = MOST_SYNCHRONIZERS;
    let mut all = Vec::new();
    let mut add = |name, mut plan: Plan| {
        plan.order_arcs();
        all.push((name, plan.image()));
    };

    for upwards in [true, false] {
        // The greatest times and the greatest gain.
        for ring in [false, true] {
            let mut plan = even(1, most, LIMIT);
            plan.arcs = arcs_in_turn(most, ring, upwards, LIMIT);
            add(if ring { "greatest gain" } else { "greatest times" }, plan);
        }
        // A ring of gain 0 whose last-placed latch opens at Tc and all others at 0. The path back to it takes every arc there is.
        for more in [0, 1] {
            let mut plan = even(LIMIT, most, LIMIT);
            plan.phases.insert(0, [LIMIT, 0]);
            plan.arcs = arcs_in_turn(most, true, upwards, 0);
            let first = plan.arcs[0][0] as usize;
            for (i, cell) in plan.synchronizers.iter_mut().enumerate() {
                cell[0] = u32::from(i != first);
            }
            // The two phases close together, so every shift is the cycle. The latches' delays make it up.
            plan.arcs[0][3] += more;
            add(if more == 0 { "longest ring of gain 0" } else { "longest ring of gain 1" }, plan);
        }
    }

    // The least arrivals and the least slacks.
    let mut plan = even(LIMIT, most, 0);
    plan.arcs = arcs_in_turn(most, true, true, 0);
    add("least slacks", plan);

    // Two latches that all others lead to and come from: as many arcs in as there can be.
    for delay in [0, 1, 2] {
        let mut plan = even(2, most, 1);
        for i in 0..most {
            for hub in [100, 400] {
                plan.arcs.push([i, hub, 0, delay]);
                plan.arcs.push([hub, i, delay, delay]);
            }
        }
        add("hubs", plan);
    }

    // One record of a table, or one number, more than there may be. The image has all that its header says.
    let mut wide = even(5, most, 0);
    wide.arcs = (0..MOST_ARCS).map(|i| [i % most, i / most, 0, 0]).collect();
    wide.phases = vec![[5, 5]; MOST_PHASES as usize];
    add("all tables full", wide.clone());
    // The same on all phases in turn, which close together: all at Tc, or half of them at 0.
    for zeros in [0, MOST_PHASES / 2] {
        let mut plan = wide.clone();
        for (i, cell) in (0..).zip(&mut plan.synchronizers) {
            cell[0] = i % MOST_PHASES;
        }
        for phase in &mut plan.phases[..zeros as usize] {
            phase[0] = 0;
        }
        add("all tables full, phases close together", plan);
    }
    let mut plan = wide.clone();
    plan.phases.push([5, 5]);
    add("a phase too many", plan);
    let mut plan = wide.clone();
    plan.synchronizers.push([0; 6]);
    add("a synchronizer too many", plan);
    let mut plan = wide.clone();
    plan.arcs.push([0, most - 1, 0, 0]);
    add("an arc too many", plan);
    let mut plan = even(5, 0, 0);
    plan.phases.clear();
    add("no phase", plan);
    add("no cycle", even(0, 1, 0));
    add("the longest cycle", even(LIMIT, 1, 0));
    add("too long a cycle", even(LIMIT + 1, 1, 0));
    add("the longest delay", even(1, 1, LIMIT));
    add("too long a delay", even(1, 1, LIMIT + 1));
    all
}

// ---- Damage. ----

/// Every byte in turn: one up, one down, 0, 255, and one bit turned.
pub fn damaged(image: &[u8]) -> Vec<Vec<u8>> {
    let mut all = Vec::new();
    for at in 0..image.len() {
        let byte = image[at];
        for new in [byte.wrapping_add(1), byte.wrapping_sub(1), 0, 255, byte ^ (1 << (at % 8))] {
            if new != byte {
                let mut image = image.to_vec();
                image[at] = new;
                all.push(image);
            }
        }
    }
    all
}

/// Cut at every length, and longer by a few.
pub fn cut_or_longer(image: &[u8]) -> Vec<Vec<u8>> {
    let mut all: Vec<Vec<u8>> = (0..image.len()).map(|length| image[..length].to_vec()).collect();
    for more in [1, 2, 3, 4, 8, 15, 16, 24, 32, 100] {
        let mut image = image.to_vec();
        image.resize(image.len() + more, 0);
        all.push(image);
    }
    all
}

/// A few words of a good image replaced by numbers near a limit, or two records made equal.
pub fn edited(random: &mut Random, plan: &Plan) -> Vec<u8> {
    let mut image = plan.image();
    let (k, l, m) = (plan.phases.len(), plan.synchronizers.len(), plan.arcs.len());
    let tables = [(0, 8, 1), (32, 2, k), (32 + 8 * k, 6, l), (32 + 8 * k + 24 * l, 4, m)];
    for _ in 0..random.pick(&[1, 1, 1, 2, 3]) {
        // Arcs are damaged most, since they are checked last.
        let (at, words, count) = tables[random.pick(&[0, 1, 1, 2, 2, 2, 3, 3, 3, 3])];
        if count == 0 {
            continue;
        }
        let record = at + 4 * words * random.place(count);
        if random.chance(25) {
            let other = at + 4 * words * random.place(count);
            image.copy_within(other..other + 4 * words, record);
            continue;
        }
        let word = record + 4 * random.place(words);
        let old = u32::from_le_bytes([image[word], image[word + 1], image[word + 2], image[word + 3]]);
        let new = match random.between(0, 9) {
            0 => old.wrapping_add(1),
            1 => old.wrapping_sub(1),
            2 => plan.cycle,
            3 => plan.cycle + 1,
            4 => LIMIT,
            5 => LIMIT + 1,
            6 => random.pick(&[k, l, m]) as u32,
            7 => random.pick(&[0, 1, 2, 16, 17, 512, 513, 2_048, 2_049]),
            8 => random.pick(&[u32::MAX, 1 << 31]),
            _ => random.between(0, 20),
        };
        image[word..word + 4].copy_from_slice(&new.to_le_bytes());
    }
    image
}

/// Bytes by chance: nothing else; behind the right version; or as tables behind a header that fits.
pub fn bytes(random: &mut Random) -> Vec<u8> {
    match random.between(0, 2) {
        0 => (0..random.between(0, 200)).map(|_| random.draw() as u8).collect(),
        1 => {
            let mut image = vec![1, 0, 0, 0];
            for _ in 0..random.between(0, 60) {
                image.extend(random.between(0, 40).to_le_bytes());
            }
            image
        }
        _ => {
            let small = |random: &mut Random| random.between(0, 2);
            let (k, l, m) = (random.between(1, 2), random.between(0, 4), random.between(0, 6));
            let plan = Plan {
                cycle: 2,
                phases: (0..k).map(|_| [small(random), small(random)]).collect(),
                synchronizers: (0..l).map(|_| [0; 6].map(|_| small(random) / 2)).collect(),
                arcs: (0..m).map(|_| [small(random), small(random), small(random), 2]).collect(),
            };
            plan.image()
        }
    }
}
