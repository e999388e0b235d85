//! The rules in plain Rust, without anything of the library.
//!
//! It was written from the rules alone, as docs/RULES.md restates them, and not from the library's code. The parts stand in their
//! order: the image, the numbers of refusal, the constraints, the calls. The last part judges a ring that someone else shows.
#![forbid(unsafe_code)]

use std::collections::VecDeque;
use std::fmt::Write;
use std::ops::Range;

// ---- The circuit image. ----

pub const MOST_PHASES: u32 = 16;
pub const MOST_SYNCHRONIZERS: u32 = 512;
pub const MOST_ARCS: u32 = 2_048;
/// The greatest cycle, and the greatest delay.
pub const LIMIT: u32 = 1_000_000_000;
/// It stands where there is no arrival.
pub const MARK: i64 = i64::MAX;

/// What the header of a good image says.
#[derive(Clone, Copy, Debug, PartialEq, Eq)]
pub struct Numbers {
    pub cycle: u32,
    pub phases: u32,
    pub synchronizers: u32,
    pub arcs: u32,
}

/// The number of a refusal, and the record that it is about.
#[derive(Clone, Copy, Debug, PartialEq, Eq)]
pub struct Refusal {
    pub number: u32,
    pub record: u32,
}

fn refuse<T>(number: u32, record: usize) -> Result<T, Refusal> {
    Err(Refusal { number, record: record as u32 })
}

/// A good image, cut into its tables.
struct Tables<'a> {
    numbers: Numbers,
    phases: &'a [u8],
    synchronizers: &'a [u8],
    arcs: &'a [u8],
}

/// The records of one table. A record is N words, the lowest byte of a word first.
fn records<const N: usize>(table: &[u8]) -> impl Iterator<Item = [u32; N]> + '_ {
    table
        .chunks_exact(4 * N)
        .map(|record| std::array::from_fn(|i| u32::from_le_bytes([record[4 * i], record[4 * i + 1], record[4 * i + 2], record[4 * i + 3]])))
}

// ---- Numbers of refusal: 1 to 9. ----

impl<'a> Tables<'a> {
    fn read(image: &'a [u8]) -> Result<Self, Refusal> {
        let [version, cycle, k, l, m, phases_at, synchronizers_at, arcs_at] = match records::<8>(image).next() {
            None => return refuse(1, 0),
            Some(header) => header,
        };
        if version != 1 {
            return refuse(2, 0);
        }
        if !(1..=LIMIT).contains(&cycle) {
            return refuse(3, 0);
        }
        if !(1..=MOST_PHASES).contains(&k) || l > MOST_SYNCHRONIZERS || m > MOST_ARCS {
            return refuse(4, 0);
        }
        let offsets = (32, 32 + 8 * k, 32 + 8 * k + 24 * l);
        let end = offsets.2 + 16 * m;
        if (phases_at, synchronizers_at, arcs_at) != offsets || image.len() != end as usize {
            return refuse(5, 0);
        }
        let tables = Tables {
            numbers: Numbers { cycle, phases: k, synchronizers: l, arcs: m },
            phases: &image[32..synchronizers_at as usize],
            synchronizers: &image[synchronizers_at as usize..arcs_at as usize],
            arcs: &image[arcs_at as usize..],
        };
        tables.check_phases()?;
        tables.check_synchronizers()?;
        tables.check_arcs()?;
        Ok(tables)
    }

    fn check_phases(&self) -> Result<(), Refusal> {
        let cycle = self.numbers.cycle;
        let last = self.numbers.phases as usize - 1;
        let mut before = 0;
        for (i, [closing, active]) in records(self.phases).enumerate() {
            if active > cycle || closing > cycle || closing < before || (i == last && closing != cycle) {
                return refuse(6, i);
            }
            before = closing;
        }
        Ok(())
    }

    fn check_synchronizers(&self) -> Result<(), Refusal> {
        let Numbers { cycle, phases, .. } = self.numbers;
        for (i, [phase, kind, setup, hold, least, greatest]) in records(self.synchronizers).enumerate() {
            if phase >= phases || kind > 1 || setup > cycle || hold > cycle || least > greatest || greatest > LIMIT {
                return refuse(7, i);
            }
        }
        Ok(())
    }

    fn check_arcs(&self) -> Result<(), Refusal> {
        let l = self.numbers.synchronizers;
        let mut before = None;
        // An arc out of order is only given once all arcs have passed check 8.
        let mut out_of_order = None;
        for (i, [from, to, least, greatest]) in records(self.arcs).enumerate() {
            if from >= l || to >= l || least > greatest || greatest > LIMIT {
                return refuse(8, i);
            }
            // None comes before every pair.
            if Some((to, from)) <= before && out_of_order.is_none() {
                out_of_order = Some(i);
            }
            before = Some((to, from));
        }
        match out_of_order {
            None => Ok(()),
            Some(i) => refuse(9, i),
        }
    }
}

// ---- The constraints. ----

struct Synchronizer {
    latch: bool,
    setup: i64,
    hold: i64,
    /// A latch's opening, or the Tc at which a flip-flop departs. No departure is sooner.
    start: i64,
    /// The arcs in. An image has them side by side, since its arcs are ordered by "to".
    arcs_in: Range<usize>,
    /// Where the arcs out stand in `Circuit::arcs_out`.
    arcs_out: Range<usize>,
}

struct Arc {
    from: usize,
    to: usize,
    /// What the arc adds to the early departure of its source: both least delays, less the shift.
    early: i64,
    /// The same for the late departure, with the greatest delays.
    late: i64,
}

struct Circuit {
    cycle: i64,
    synchronizers: Vec<Synchronizer>,
    arcs: Vec<Arc>,
    /// The arcs by their source. Those into a flip-flop are left out: it departs at Tc, whatever arrives.
    arcs_out: Vec<usize>,
}

impl Circuit {
    fn new(tables: &Tables) -> Circuit {
        let cycle = i64::from(tables.numbers.cycle);
        let phases: Vec<[i64; 2]> = records(tables.phases).map(|phase| phase.map(i64::from)).collect();
        let cells: Vec<[u32; 6]> = records(tables.synchronizers).collect();
        // Phases close together at equal times, and where one closes at 0 and the other at Tc.
        let together = |i: usize, j: usize| {
            let (first, last) = (phases[i.min(j)][0], phases[i.max(j)][0]);
            first == last || (first == 0 && last == cycle)
        };
        let shift = |i: usize, j: usize| {
            let between = phases[j][0] - phases[i][0];
            if together(i, j) {
                cycle
            } else if i < j {
                between
            } else {
                cycle + between
            }
        };

        let mut synchronizers: Vec<Synchronizer> = cells
            .iter()
            .map(|&[phase, kind, setup, hold, _, _]| Synchronizer {
                latch: kind == 0,
                setup: i64::from(setup),
                hold: i64::from(hold),
                start: if kind == 0 { cycle - phases[phase as usize][1] } else { cycle },
                arcs_in: 0..0,
                arcs_out: 0..0,
            })
            .collect();

        let arcs: Vec<Arc> = records(tables.arcs)
            .map(|[from, to, least, greatest]| {
                let [phase, _, _, _, source_least, source_greatest] = cells[from as usize];
                let shift = shift(phase as usize, cells[to as usize][0] as usize);
                Arc {
                    from: from as usize,
                    to: to as usize,
                    early: i64::from(source_least) + i64::from(least) - shift,
                    late: i64::from(source_greatest) + i64::from(greatest) - shift,
                }
            })
            .collect();

        for (number, arc) in arcs.iter().enumerate() {
            let arcs_in = &mut synchronizers[arc.to].arcs_in;
            if arcs_in.start == arcs_in.end {
                *arcs_in = number..number;
            }
            arcs_in.end += 1;
        }

        // Count the arcs out of each synchronizer, give each its part of the list, then fill the parts.
        let passes_on = |arc: &Arc, synchronizers: &[Synchronizer]| synchronizers[arc.to].latch;
        let mut counts = vec![0; synchronizers.len()];
        for arc in arcs.iter().filter(|arc| passes_on(arc, &synchronizers)) {
            counts[arc.from] += 1;
        }
        let mut end = 0;
        for (synchronizer, count) in synchronizers.iter_mut().zip(counts) {
            synchronizer.arcs_out = end..end;
            end += count;
        }
        let mut arcs_out = vec![0; end];
        for (number, arc) in arcs.iter().enumerate() {
            if passes_on(arc, &synchronizers) {
                let place = &mut synchronizers[arc.from].arcs_out.end;
                arcs_out[*place] = number;
                *place += 1;
            }
        }
        Circuit { cycle, synchronizers, arcs, arcs_out }
    }

    fn starts(&self) -> Vec<i64> {
        self.synchronizers.iter().map(|synchronizer| synchronizer.start).collect()
    }

    fn arcs_in(&self, i: usize) -> &[Arc] {
        &self.arcs[self.synchronizers[i].arcs_in.clone()]
    }

    /// The numbers of the arcs that leave i for a latch.
    fn arcs_out(&self, i: usize) -> &[usize] {
        &self.arcs_out[self.synchronizers[i].arcs_out.clone()]
    }

    /// None without an arc in.
    fn early_arrival(&self, departures: &[i64], i: usize) -> Option<i64> {
        self.arcs_in(i).iter().map(|arc| departures[arc.from] + arc.early).min()
    }

    /// None without an arc in.
    fn late_arrival(&self, departures: &[i64], i: usize) -> Option<i64> {
        self.arcs_in(i).iter().map(|arc| departures[arc.from] + arc.late).max()
    }

    /// The least late departures; or a growing ring, by its arcs in order of travel.
    ///
    /// Departures rise from the starts, only as far as an arc makes them, so the least solution is met first. Each raised latch
    /// remembers the arc that raised it. Where these arcs close a ring, that ring has gain above zero: the raise that closed it was
    /// a true one, and along the other arcs a source can only have risen since. Where a growing ring exists, raises never end, and
    /// then some ring is closed sooner or later. Looking for it once every l raises costs no more than the raises do.
    fn late_departures(&self) -> Result<Vec<i64>, Vec<usize>> {
        let l = self.synchronizers.len();
        let mut departures = self.starts();
        let mut raised_by = vec![None; l];
        let mut raises = 0;
        let mut queue: VecDeque<usize> = (0..l).collect();
        let mut queued = vec![true; l];
        while let Some(from) = queue.pop_front() {
            queued[from] = false;
            for &number in self.arcs_out(from) {
                let arc = &self.arcs[number];
                let arrival = departures[from] + arc.late;
                if arrival <= departures[arc.to] {
                    continue;
                }
                departures[arc.to] = arrival;
                raised_by[arc.to] = Some(number);
                if !queued[arc.to] {
                    queued[arc.to] = true;
                    queue.push_back(arc.to);
                }
                raises += 1;
                if raises % l == 0 {
                    if let Some(ring) = self.closed_ring(&raised_by) {
                        return Err(ring);
                    }
                }
            }
        }
        Ok(departures)
    }

    /// A ring among the arcs that last raised a latch, if they close one.
    fn closed_ring(&self, raised_by: &[Option<usize>]) -> Option<Vec<usize>> {
        let mut visited_from = vec![None; raised_by.len()];
        for start in 0..raised_by.len() {
            let mut at = start;
            while let (None, Some(number)) = (visited_from[at], raised_by[at]) {
                visited_from[at] = Some(start);
                at = self.arcs[number].from;
            }
            if visited_from[at] == Some(start) {
                // The walk met itself, so `at` is on a ring. Walk round it once more, backwards.
                let mut ring = Vec::new();
                let mut back = at;
                while let Some(number) = raised_by[back] {
                    ring.push(number);
                    back = self.arcs[number].from;
                    if back == at {
                        break;
                    }
                }
                ring.reverse();
                // The first arc leaves the lowest-numbered synchronizer of the ring.
                let first = (0..ring.len()).min_by_key(|&i| self.arcs[ring[i]].from)?;
                ring.rotate_left(first);
                return Some(ring);
            }
        }
        None
    }

    /// The least early departures, of a circuit without a growing ring. They too rise from the starts, and stay below the late ones.
    fn early_departures(&self) -> Vec<i64> {
        let l = self.synchronizers.len();
        let mut departures = self.starts();
        let mut queue: VecDeque<usize> = (0..l).filter(|&i| self.synchronizers[i].latch).collect();
        let mut queued = vec![true; l];
        while let Some(i) = queue.pop_front() {
            queued[i] = false;
            match self.early_arrival(&departures, i) {
                Some(arrival) if arrival > departures[i] => departures[i] = arrival,
                _ => continue,
            }
            for &number in self.arcs_out(i) {
                let to = self.arcs[number].to;
                if !queued[to] {
                    queued[to] = true;
                    queue.push_back(to);
                }
            }
        }
        departures
    }

    /// Per synchronizer, the fewest arcs over which its late departure is reached from an opening or a flip-flop.
    fn ranks(&self, late: &[i64]) -> Vec<u32> {
        let l = self.synchronizers.len();
        let mut ranks = vec![u32::MAX; l];
        let mut queue: VecDeque<usize> = (0..l).filter(|&i| late[i] == self.synchronizers[i].start).collect();
        for &i in &queue {
            ranks[i] = 0;
        }
        while let Some(i) = queue.pop_front() {
            for &number in self.arcs_out(i) {
                let arc = &self.arcs[number];
                if ranks[arc.to] == u32::MAX && late[i] + arc.late == late[arc.to] {
                    ranks[arc.to] = ranks[i] + 1;
                    queue.push_back(arc.to);
                }
            }
        }
        ranks
    }

    fn gain(&self, ring: &[usize]) -> i64 {
        ring.iter().map(|&number| self.arcs[number].late).sum()
    }
}

// ---- What the calls give. ----

#[derive(Clone, Copy, Debug, PartialEq, Eq)]
pub enum Timing {
    Timed { missed_setups: u32, missed_holds: u32 },
    Growing { arcs: u32, gain: i64 },
}

#[derive(Clone, Copy, Debug, PartialEq, Eq)]
pub struct Way {
    pub launch: u32,
    pub arcs: u32,
}

/// The numbers of a good image, or its refusal.
pub fn check(image: &[u8]) -> Result<Numbers, Refusal> {
    Ok(Tables::read(image)?.numbers)
}

/// Six results a synchronizer, or a growing ring in `arcs`. A refusal changes neither buffer.
pub fn timing(image: &[u8], results: &mut [i64], arcs: &mut [u32]) -> Result<Timing, Refusal> {
    let tables = Tables::read(image)?;
    let l = tables.numbers.synchronizers as usize;
    if results.len() < 6 * l {
        return refuse(10, 0);
    }
    if arcs.len() < l {
        return refuse(11, 0);
    }
    let circuit = Circuit::new(&tables);
    let late = match circuit.late_departures() {
        Ok(late) => late,
        Err(ring) => {
            write_arcs(&ring, arcs);
            return Ok(Timing::Growing { arcs: ring.len() as u32, gain: circuit.gain(&ring) });
        }
    };
    let early = circuit.early_departures();
    let (mut missed_setups, mut missed_holds) = (0, 0);
    for (i, result) in results.chunks_exact_mut(6).take(l).enumerate() {
        let synchronizer = &circuit.synchronizers[i];
        let arrivals = circuit.early_arrival(&early, i).zip(circuit.late_arrival(&late, i));
        let others = match arrivals {
            None => [MARK; 4],
            Some((early_arrival, late_arrival)) => {
                let hold_slack = early_arrival - synchronizer.hold;
                let setup_slack = circuit.cycle - synchronizer.setup - late_arrival;
                missed_holds += u32::from(hold_slack < 0);
                missed_setups += u32::from(setup_slack < 0);
                [early_arrival, late_arrival, hold_slack, setup_slack]
            }
        };
        result[..2].copy_from_slice(&[early[i], late[i]]);
        result[2..].copy_from_slice(&others);
    }
    Ok(Timing::Timed { missed_setups, missed_holds })
}

/// The arcs over which the late arrival of a synchronizer came, at the front of `arcs`. A refusal changes nothing.
pub fn path(image: &[u8], synchronizer: u32, arcs: &mut [u32]) -> Result<Way, Refusal> {
    let tables = Tables::read(image)?;
    let l = tables.numbers.synchronizers;
    if arcs.len() < l as usize {
        return refuse(11, 0);
    }
    if synchronizer >= l {
        return refuse(12, 0);
    }
    let circuit = Circuit::new(&tables);
    let i = synchronizer as usize;
    if circuit.arcs_in(i).is_empty() {
        return refuse(13, 0);
    }
    let late = match circuit.late_departures() {
        Ok(late) => late,
        Err(_) => return refuse(14, 0),
    };
    let ranks = circuit.ranks(&late);
    // Among the arcs into i that give this time, the one whose source has least rank, then the lowest number. Along the path the
    // least rank is the rank of i less one, so the same rule finds every arc.
    let last_arc = |i: usize, time: Option<i64>| {
        circuit.synchronizers[i]
            .arcs_in
            .clone()
            .filter(|&number| Some(late[circuit.arcs[number].from] + circuit.arcs[number].late) == time)
            .min_by_key(|&number| (ranks[circuit.arcs[number].from], number))
            .expect("an arc gives the late arrival, and above rank 0 the late departure")
    };
    let mut way = vec![last_arc(i, circuit.late_arrival(&late, i))];
    let mut launch = circuit.arcs[way[0]].from;
    while ranks[launch] > 0 {
        let number = last_arc(launch, Some(late[launch]));
        way.push(number);
        launch = circuit.arcs[number].from;
    }
    way.reverse();
    write_arcs(&way, arcs);
    Ok(Way { launch: launch as u32, arcs: way.len() as u32 })
}

fn write_arcs(numbers: &[usize], arcs: &mut [u32]) {
    for (place, &number) in arcs.iter_mut().zip(numbers) {
        *place = number as u32;
    }
}

/// The length of the report. It is written where `text` has room for it, at its front.
pub fn report(image: &[u8], text: &mut [u8]) -> usize {
    let report = report_text(image);
    if let Some(front) = text.get_mut(..report.len()) {
        front.copy_from_slice(report.as_bytes());
    }
    report.len()
}

fn report_text(image: &[u8]) -> String {
    let l = check(image).map_or(0, |numbers| numbers.synchronizers as usize);
    let mut results = vec![0; 6 * l];
    let mut arcs = vec![0; l];
    match timing(image, &mut results, &mut arcs) {
        Err(Refusal { number, record }) => format!("refused {number} {record}\n"),
        Ok(Timing::Growing { arcs: n, gain }) => loop_text(&arcs[..n as usize], gain),
        Ok(Timing::Timed { missed_setups, missed_holds }) => {
            let mut text = format!("timed {l} {missed_setups} {missed_holds}\n");
            for (i, result) in results.chunks_exact(6).enumerate() {
                write!(text, "{i}").expect("a string takes all text");
                for &number in result {
                    if number == MARK {
                        text.push_str(" -");
                    } else {
                        write!(text, " {number}").expect("a string takes all text");
                    }
                }
                text.push('\n');
            }
            text
        }
    }
}

/// The report of a growing ring.
pub fn loop_text(ring: &[u32], gain: i64) -> String {
    let mut text = format!("loop {} {gain}\n", ring.len());
    for arc in ring {
        writeln!(text, "{arc}").expect("a string takes all text");
    }
    text
}

// ---- A ring that someone else shows. ----

/// Any growing ring may be shown. This says what is wrong with one that is shown for a good image.
pub fn judge_ring(image: &[u8], ring: &[u32], gain: i64) -> Result<(), String> {
    let tables = Tables::read(image).map_err(|refusal| format!("a ring is shown, but the image is refused: {refusal:?}"))?;
    let circuit = Circuit::new(&tables);
    if ring.is_empty() {
        return Err("the ring has no arcs".to_string());
    }
    if let Some(number) = ring.iter().find(|&&number| number >= tables.numbers.arcs) {
        return Err(format!("the ring has arc {number}, which does not exist"));
    }
    let ring: Vec<usize> = ring.iter().map(|&number| number as usize).collect();
    let mut left = vec![false; circuit.synchronizers.len()];
    // Before the first arc comes the last one, since the ring closes.
    let mut before = ring[ring.len() - 1];
    for &number in &ring {
        let from = circuit.arcs[number].from;
        if from != circuit.arcs[before].to {
            return Err(format!("arc {number} does not leave where arc {before} enters"));
        }
        if !circuit.synchronizers[from].latch {
            return Err(format!("the ring goes through flip-flop {from}"));
        }
        if left[from] {
            return Err(format!("the ring leaves synchronizer {from} twice"));
        }
        left[from] = true;
        before = number;
    }
    if left.iter().position(|&on_ring| on_ring) != Some(circuit.arcs[ring[0]].from) {
        return Err("the first arc does not leave the lowest-numbered synchronizer of the ring".to_string());
    }
    if circuit.gain(&ring) != gain {
        return Err(format!("the gain is said to be {gain}, but is {}", circuit.gain(&ring)));
    }
    if gain <= 0 {
        return Err(format!("the ring does not grow: its gain is {gain}"));
    }
    Ok(())
}
