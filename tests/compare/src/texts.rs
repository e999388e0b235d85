//! Texts of circuits: known ones, by chance, at the limits, and damaged in every way that the rules name. The same seed always makes the same ones.
#![forbid(unsafe_code)]

use crate::images::{self, Plan, Random, Size};
use crate::independent::{LIMIT, MOST_ARCS, MOST_PHASES, MOST_SYNCHRONIZERS};
use crate::known;
use crate::written::{MOST_DEPTH, MOST_TEXT_BYTES};

/// What the maker of a text knows of it.
#[derive(Clone, Debug)]
pub enum Meant {
    Unknown,
    Image(Vec<u8>),
    /// The number, and the line or record.
    Refused(u32, u32),
}

pub struct Written {
    pub text: Vec<u8>,
    pub meant: Meant,
}

fn image(text: impl Into<Vec<u8>>, image: Vec<u8>) -> Written {
    Written { text: text.into(), meant: Meant::Image(image) }
}

fn refused(text: impl Into<Vec<u8>>, number: u32, record: u32) -> Written {
    Written { text: text.into(), meant: Meant::Refused(number, record) }
}

fn unknown(text: impl Into<Vec<u8>>) -> Written {
    Written { text: text.into(), meant: Meant::Unknown }
}

/// All texts of a run, in parts with their names. `share` says how many are made of so many by chance.
pub fn parts(seed: impl Fn(&str, u64) -> u64, share: impl Fn(u64) -> u64) -> Vec<(&'static str, Vec<Written>)> {
    let by_chance = |name: &'static str, count: u64, maker: fn(&mut Random) -> Written| {
        (name, (0..share(count)).map(|number| maker(&mut Random::new(seed(name, number)))).collect())
    };
    let mut bases: Vec<String> = vec![P1.to_string(), P7.to_string(), RICH.to_string()];
    bases.extend((0..2).map(|number| small(&mut Random::new(seed("base", number)))));
    vec![
        ("texts of known circuits", known_circuits()),
        ("windows by hand", windows_by_hand()),
        ("lines by hand", lines_by_hand()),
        ("counts", counts()),
        ("lengths", lengths()),
        ("tokens dropped, doubled, swapped", bases.iter().flat_map(|base| each_token(base)).collect()),
        ("bytes replaced, put in, left out", bases.iter().take(3).flat_map(|base| each_byte(base)).collect()),
        ("cut", bases.iter().flat_map(|base| (0..base.len()).map(|length| cut(base, length))).collect()),
        ("numbers replaced", bases.iter().flat_map(|base| each_number(base)).collect()),
        ("lines dropped, doubled, moved", bases.iter().flat_map(|base| each_line(base)).collect()),
        ("windows of few signs", windows_of_few_signs()),
        by_chance("windows of signs by chance", 2_000, signs_by_chance),
        by_chance("good texts", 1_500, good),
        by_chance("good texts of great circuits", 30, good_and_great),
        by_chance("numbers edited", 4_000, edited),
        by_chance("numbers edited, and damaged", 1_500, edited_and_damaged),
        by_chance("words by chance", 2_000, words_by_chance),
    ]
}

// ---- Known circuits. ----

const P1: &str = "tc 100\nphase 50 40\nphase 100 40\nlatch 0 10 5 5:10\nlatch 1 10 5 5:10\narc 1 0 10:20\narc 0 1 20:60\n";
const P7: &str = "tc 100\nphase 100 50\nflop 0 10 10 8:8\nflop 0 10 10 8:8\narc 0 1 2:80\n";
/// P1 in other words: leading zeros, and every form of a window.
const RICH: &str = "tc 0100\nphase 50 40\nphase 0000000100 40\nlatch 0 10 5 (5:7|6:10)\nlatch 1 10 5 2:4+3:6\n\
                    arc 1 0 ((4:5|3:9+1:1)+6:6|18:20)\narc 0 1 (20:60)|((30:30))\n";

fn known_circuits() -> Vec<Written> {
    let ring = |delay: &str, first: &str, second: &str| {
        format!("tc 100\nphase 50 40\nphase 100 40\nlatch 0 10 5 {delay}\nlatch 1 10 5 {delay}\narc 1 0 {first}\narc 0 1 {second}\n")
    };
    let two_latches = |[a, b]: [&str; 2], [first, second]: [u32; 2], arcs: &str| {
        format!("tc 100\nphase {a}\nphase {b}\nlatch {first} 10 5 5:5\nlatch {second} 10 5 5:5\n{arcs}")
    };
    let three_around = |[a, b]: [&str; 2], [first, second]: [u32; 2]| {
        let cells = format!("latch {first} 10 5 5:10\nlatch {second} 10 5 5:10\nflop 0 5 5 8:8\n");
        format!("tc 100\nphase 40 20\nphase {a}\nphase {b}\n{cells}arc 2 0 20:40\narc 0 1 30:90\narc 1 2 10:20\n")
    };
    vec![
        image(P1, known::p1()),
        image(RICH, known::p1()),
        image(ring("5:10", "10:20", "20:61"), known::p2()),
        image(ring("5:10", "10:10", "20:70"), known::p3()),
        image(ring("5:10", "0:0", "20:80"), known::p4()),
        image(ring("10:10", "20:20", "60:60"), known::p5()),
        image(P7, known::p7()),
        image(P7.replace("2:80", "1:80"), known::p8()),
        image("tc 100\nphase 100 40\nlatch 0 0 0 0:0\nlatch 0 0 0 0:0\nlatch 0 0 0 0:0\narc 0 1 100:130\narc 1 2 100:130\n", known::p9()),
        image("tc 100\nphase 100 40\n", known::p10()),
        image(two_latches(["100 50", "100 50"], [0, 1], "arc 0 1 10:10\n"), known::p11()),
        image(two_latches(["100 50", "100 50"], [1, 0], "arc 0 1 10:10\n"), known::p12()),
        image(two_latches(["0 50", "100 50"], [0, 1], "arc 1 0 10:20\narc 0 1 20:60\n"), known::p13()),
        image(three_around(["100 50", "100 30"], [1, 2]), known::p14()),
        image(three_around(["100 30", "100 50"], [2, 1]), known::p15()),
    ]
}

// ---- By hand. ----

/// One window as the delay of a latch, of a flip-flop and of an arc.
fn around(window: &str, meaning: Option<[u32; 2]>) -> Vec<Written> {
    let before = "tc 1000\nphase 1000 10\n";
    let of_a = |kind: u32, [least, greatest]: [u32; 2]| Plan {
        cycle: 1000,
        phases: vec![[1000, 10]],
        synchronizers: vec![[0, kind, 1, 2, least, greatest]],
        arcs: vec![],
    };
    let of_an_arc = |[least, greatest]: [u32; 2]| Plan { arcs: vec![[0, 0, least, greatest]], ..of_a(1, [3, 4]) };
    let texts = [
        (format!("{before}latch 0 1 2 {window}\n"), 2, meaning.map(|ends| of_a(0, ends))),
        (format!("{before}flop 0 1 2 {window}\n"), 2, meaning.map(|ends| of_a(1, ends))),
        (format!("{before}flop 0 1 2 3:4\narc 0 0 {window}\n"), 3, meaning.map(of_an_arc)),
    ];
    texts.into_iter().map(|(text, line, plan)| plan.map_or(refused(&*text, 15, line), |plan| image(&*text, plan.image()))).collect()
}

fn in_brackets(window: &str, depth: usize) -> String {
    "(".repeat(depth) + window + &")".repeat(depth)
}

fn windows_by_hand() -> Vec<Written> {
    let good: [(&str, [u32; 2]); 30] = [
        ("0:0", [0, 0]),
        ("0000000000:0000000000", [0, 0]),
        ("0000000003:0000000007", [3, 7]),
        ("1000000000:1000000000", [LIMIT, LIMIT]),
        ("0:1000000000", [0, LIMIT]),
        ("0:999999999", [0, LIMIT - 1]),
        ("(1:2)", [1, 2]),
        ("((1:2))", [1, 2]),
        // `+` adds both ends.
        ("1:2+10:20", [11, 22]),
        ("1:2+10:20+100:200", [111, 222]),
        ("(1:2)+(10:20)", [11, 22]),
        ("((1:2)+10:20)+100:200", [111, 222]),
        ("1:2+(10:20+100:200)", [111, 222]),
        // `|` takes the lesser low and the greater high, wherever they stand.
        ("5:6|1:9", [1, 9]),
        ("1:9|5:6", [1, 9]),
        ("1:6|5:9", [1, 9]),
        ("5:9|1:6", [1, 9]),
        ("1:2|5:6|8:9", [1, 9]),
        ("8:9|5:6|1:2", [1, 9]),
        // `+` binds closer than `|`.
        ("1:2+10:20|5:6", [5, 22]),
        ("5:6|1:2+10:20", [5, 22]),
        ("1:2+10:20|3:4+10:30", [11, 34]),
        ("(5:6|1:2)+10:20", [11, 26]),
        ("10:20+(5:6|1:2)", [11, 26]),
        ("(1:2|3:4)+(1:2|3:4)", [2, 8]),
        ("((1:2|3:4)+1:1|50:50)+((7:7))", [9, 57]),
        // The limit by a sum, alone and in one branch.
        ("500000000:500000000+500000000:500000000", [LIMIT, LIMIT]),
        ("0:999999999+0:1", [0, LIMIT]),
        ("7:7|0:400000000+0:600000000", [0, LIMIT]),
        ("(0:400000000|1:1)+(2:2|0:600000000)", [0, LIMIT]),
    ];
    let bad = [
        // A number, an end, LO and HI.
        "0:1000000001",
        "1000000001:1000000001",
        "0:00000000001",
        "00000000001:1",
        "0:10000000000",
        "0:4294967296",
        "0:4294967297",
        "0:9999999999",
        "2:1",
        "1:0",
        "1000000000:999999999",
        "(2:1)",
        "1:2+2:1",
        "2:1|1:2",
        "1:2|2:1",
        // One more than the limit by a sum, also where the other branch is shorter, and a sum of 2^32 and a little more.
        "1:1000000000+0:1",
        "0:500000000+0:500000001",
        "0:500000001+0:500000000|1:2",
        "1:2|0:500000001+0:500000000",
        "(0:500000001|1:1)+0:500000000",
        "0:1000000000+(0:1|0:0)",
        "0:1000000000+0:1000000000",
        "0:1000000000+0:1000000000+0:1000000000+0:1000000000+0:294967296",
        "0:1000000000+0:1000000000+0:1000000000+0:1000000000+0:294967300",
        // Off the grammar.
        "",
        ":",
        "1",
        "1:",
        ":1",
        "1:2:3",
        "1::2",
        "1:2+",
        "+1:2",
        "1:2|",
        "|1:2",
        "1:2++3:4",
        "1:2||3:4",
        "1:2+|3:4",
        "1:2|+3:4",
        "1:2-3:4",
        "()",
        "(",
        ")",
        ")(",
        "(1:2",
        "1:2)",
        "((1:2)",
        "(1:2))",
        "(1:2)(3:4)",
        "(1:2)3:4",
        "1:2(3:4)",
        "(1):2",
        "1:(2)",
        "(1:2+)",
        "(|1:2)",
        "(1:2)|",
        "[1:2]",
        "{1:2}",
        "-1:2",
        "+1:+2",
        "1:-2",
        "1.0:2",
        "1,2",
        "1:2,3:4",
        "0x1:0x2",
        "1e0:2",
        "a:b",
        "1:2 ",
        " 1:2",
        "1 :2",
        "1: 2",
        "1:2 + 3:4",
        "1:2\t",
        "\t1:2",
        "1:2\r",
        "1:2\0",
        "1:\u{0661}",
        "1:2#",
        "1:2 # a comment",
        "1:2;",
    ];
    let mut all = Vec::new();
    for (window, meaning) in good {
        all.extend(around(window, Some(meaning)));
    }
    for window in bad {
        all.extend(around(window, None));
    }
    // Brackets 16 and 17 deep: alone, in each place of a sum and of branches, side by side, and not closed.
    let most = MOST_DEPTH;
    for (depth, good) in [(most - 1, true), (most, true), (most + 1, false), (most + 2, false), (3_000, false)] {
        let deep = in_brackets("1:2", depth);
        let meant = |meaning: [u32; 2]| if good { Some(meaning) } else { None };
        all.extend(around(&deep, meant([1, 2])));
        all.extend(around(&format!("10:20+{deep}"), meant([11, 22])));
        all.extend(around(&format!("{deep}+10:20"), meant([11, 22])));
        all.extend(around(&format!("0:0|{deep}"), meant([0, 2])));
        all.extend(around(&format!("{deep}|0:0"), meant([0, 2])));
        all.extend(around(&format!("{deep}+{deep}|{deep}"), meant([1, 4])));
        all.extend(around(&format!("({})", in_brackets("1:2+1:1", depth - 1)), meant([2, 3])));
        all.extend(around(&deep[1..], None));
        all.extend(around(&deep[..deep.len() - 1], None));
        all.extend(around(&deep.replace("1:2", ""), None));
    }
    let inner = in_brackets("1:2", most - 1);
    all.extend(around(&format!("({inner}+{inner}|{inner})"), Some([1, 4])));
    all.extend(around(&format!("(({inner})|1:1)"), None));
    all
}

fn lines_by_hand() -> Vec<Written> {
    let one = |plan: &Plan| plan.image();
    let empty = Plan { cycle: 100, phases: vec![[100, 40]], synchronizers: vec![], arcs: vec![] };
    let mut all = vec![
        refused("", 15, 0),
        refused("\n", 15, 0),
        refused("\n\n", 15, 0),
        refused(" ", 15, 0),
        // The last line needs its line feed.
        refused("tc 100", 15, 0),
        refused("tc 100\nphase 100 40", 15, 1),
        refused("tc 0\nphase 100 40", 15, 1),
        image("tc 100\nphase 100 40\n", one(&empty)),
        // No empty line, nowhere.
        refused("\ntc 100\nphase 100 40\n", 15, 0),
        refused("tc 100\n\nphase 100 40\n", 15, 1),
        refused("tc 100\nphase 100 40\n\n", 15, 2),
        // One `tc`, on line 0.
        refused("phase 100 40\n", 15, 0),
        refused("phase 100 40\ntc 100\n", 15, 0),
        refused("tc 100\ntc 100\nphase 100 40\n", 15, 1),
        refused("tc 100\nphase 100 40\ntc 100\n", 15, 2),
        refused("arc 0 0 0:0\n", 15, 0),
        // A line of a later kind before it.
        refused("tc 100\nlatch 0 0 0 0:0\nphase 100 40\n", 15, 2),
        refused("tc 100\nflop 0 0 0 0:0\nphase 100 40\n", 15, 2),
        refused("tc 100\narc 0 0 0:0\nphase 100 40\n", 15, 2),
        refused("tc 100\nphase 100 40\narc 0 0 0:0\nlatch 0 0 0 0:0\n", 15, 3),
        refused("tc 100\nphase 100 40\narc 0 0 0:0\nflop 0 0 0 0:0\n", 15, 3),
        refused("tc 100\nphase 100 40\nflop 0 0 0 0:0\narc 0 0 0:0\nphase 100 40\n", 15, 4),
        // Latches and flip-flops are of one kind of line: they come in any order.
        image(
            "tc 100\nphase 100 40\nflop 0 1 2 3:4\nlatch 0 1 2 3:4\nflop 0 1 2 3:4\n",
            one(&Plan { synchronizers: vec![[0, 1, 1, 2, 3, 4], [0, 0, 1, 2, 3, 4], [0, 1, 1, 2, 3, 4]], ..empty.clone() }),
        ),
        // The lowest line at fault, of whatever kind the faults are; and 15 before all else.
        refused("tc 100\nphase 1 2 3\nphase x\n", 15, 1),
        refused("tc 100\nphase 100 40\ntc 100\nphase 1\n", 15, 2),
        refused("tc 100\nphase 100 40\nlatch 0 0 0 2:1\ntc 100\n", 15, 2),
        refused("tc 0\nphase 100 40\nlatch 0 0 0 2:1\n", 15, 2),
        refused("tc 100\nphase 200 40\narc 5 5 1:2:3\n", 15, 2),
        refused("tc 100\nlatch 0 0 0 0:0\nlatch 0 0 0 0:0 \n", 15, 2),
        // 3, then 4, then 6 to 9, each with its record.
        refused("tc 0\n", 3, 0),
        refused("tc 0\nphase 100 40\n", 3, 0),
        refused("tc 0000000000\nphase 0 0\n", 3, 0),
        refused("tc 1\n", 4, 0),
        refused("tc 100\nlatch 5 0 0 0:0\n", 4, 0),
        refused("tc 100\narc 7 7 0:0\n", 4, 0),
        refused("tc 100\nphase 100 101\n", 6, 0),
        refused("tc 100\nphase 50 40\nphase 99 40\n", 6, 1),
        refused("tc 100\nphase 50 40\nphase 49 40\nphase 100 101\n", 6, 1),
        refused("tc 100\nphase 101 40\nlatch 5 0 0 0:0\n", 6, 0),
        refused("tc 100\nphase 100 40\nlatch 1 0 0 0:0\narc 5 5 0:0\n", 7, 0),
        refused("tc 100\nphase 100 40\nlatch 0 0 0 0:0\nflop 0 101 0 0:0\nflop 0 0 101 0:0\n", 7, 1),
        refused("tc 100\nphase 100 40\nlatch 0 0 0 0:0\nflop 0 0 101 0:0\n", 7, 1),
        refused("tc 100\nphase 100 40\nlatch 0 0 0 0:0\narc 0 1 0:0\n", 8, 0),
        refused("tc 100\nphase 100 40\nlatch 0 0 0 0:0\narc 0 0 0:0\narc 0 0 0:0\narc 1 0 0:0\n", 8, 2),
        refused("tc 100\nphase 100 40\nlatch 0 0 0 0:0\narc 0 0 0:0\narc 0 0 0:0\n", 9, 1),
        refused("tc 100\nphase 100 40\nlatch 0 0 0 0:0\nlatch 0 0 0 0:0\narc 0 0 0:0\narc 0 1 0:0\narc 1 0 0:0\n", 9, 2),
        // The greatest numbers.
        image("tc 1000000000\nphase 1000000000 1000000000\n", one(&Plan { cycle: LIMIT, phases: vec![[LIMIT, LIMIT]], ..empty.clone() })),
        image("tc 0000000100\nphase 0000000100 0000000040\n", one(&empty)),
        refused("tc 1000000001\nphase 100 40\n", 15, 0),
        refused("tc 4294967396\nphase 100 40\n", 15, 0),
        refused("tc 9999999999\nphase 100 40\n", 15, 0),
        refused("tc 00000000100\nphase 100 40\n", 15, 0),
    ];
    // Other spaces, signs, words and ends of a line, on line 1 of 3.
    let bad = [
        "phase",
        "phase ",
        "phase 100",
        "phase 100 ",
        "phase 100 40 ",
        "phase 100 40 0",
        "phase  100 40",
        "phase 100  40",
        " phase 100 40",
        "phase\t100 40",
        "phase 100\t40",
        "phase 100 40\t",
        "phase 100 40\r",
        "\rphase 100 40",
        "phase 100\r40",
        "phase 100 40\u{b}",
        "phase 100\u{a0}40",
        "\u{feff}phase 100 40",
        "phase 100 40\0",
        "phase +100 40",
        "phase 100 -40",
        "phase -0 40",
        "phase 100 40.0",
        "phase 100, 40",
        "phase 100,40",
        "phase 100 0x28",
        "phase 100 4_0",
        "phase 100 40:40",
        "phase 100 (40)",
        "phase 100 1000000001",
        "phase 1000000001 40",
        "phase 100 00000000040",
        "phase 100 10000000000",
        "phase 100 99999999999999999999",
        "phases 100 40",
        "phas 100 40",
        "Phase 100 40",
        "PHASE 100 40",
        "100 40",
        "rise 0 0 0 0:0",
        "# a comment",
        "phase 100 40 # a comment",
        "tc",
        "tc ",
        "latch 0 0 0:0",
        "latch 0 0 0 0 0:0",
        "latch 0 0 0 5",
        "latch 0:0 0 0 0",
        "latch 0 0 0 0:0 0:0",
        "flop 0 0 0",
        "arc 0 0",
        "arc 0 0:0",
        "arc 0 0 0 0:0",
        "arc 0:0 0 0",
        "arc 0 0 0:0 ",
        "arc 0 0 5",
        "arc -0 0 0:0",
        "arc 0 1000000001 0:0",
        "latch 1000000001 0 0 0:0",
        "flop 0 1000000001 0 0:0",
        "flop 0 0 1000000001 0:0",
        "flop 00000000000 0 0 0:0",
    ];
    all.extend(bad.iter().map(|line| refused(format!("tc 100\n{line}\nphase 100 40\n"), 15, 1)));
    all
}

// ---- Counts and lengths. ----

/// So many lines of each kind, all of them short. Arcs are in order, and as many as there are pairs of ends.
fn short_lines(phases: u32, synchronizers: u32, arcs: u32) -> (String, Plan) {
    let side = (1..).find(|side| side * side >= arcs).unwrap_or(0);
    let plan = Plan {
        cycle: 1,
        phases: (0..phases).map(|i| [u32::from(i + 1 == phases), 0]).collect(),
        synchronizers: (0..synchronizers).map(|i| [0, i % 2, 0, 0, 0, 0]).collect(),
        arcs: (0..arcs).map(|i| [i % side, i / side, 0, 0]).collect(),
    };
    (plain_text(&plan), plan)
}

fn counts() -> Vec<Written> {
    let (k, l, m) = (MOST_PHASES, MOST_SYNCHRONIZERS, MOST_ARCS);
    let mut all = Vec::new();
    // At the limits; several times with other numbers of the other kinds, so that no one number is taken for another.
    for few in 0..12 {
        for (phases, synchronizers, arcs) in [(k, few, 0), (1 + few, l, 40 * few), (1 + few, 60 + few, m), (k, 50 + few, m)] {
            let (text, plan) = short_lines(phases, synchronizers, arcs);
            all.push(image(text, plan.image()));
        }
        for (phases, synchronizers, arcs) in
            [(k + 1, few, few), (k + 1 + few, 5, 5), (1 + few, l + 1, few), (1, l + 1 + few, 0), (1 + few, few, m + 1), (0, few, few)]
        {
            all.push(refused(short_lines(phases, synchronizers, arcs).0, 4, 0));
        }
    }
    // More lines than any table has room for.
    for line in ["phase 0 0\n", "arc 0 0 0:0\n"] {
        let many = (MOST_TEXT_BYTES - 20) / line.len();
        for count in [2_049, 2_700, many as u32] {
            all.push(refused(format!("tc 9\n{}", line.repeat(count as usize)), 4, 0));
            all.push(refused(format!("tc 9\n{}tc 9\n", line.repeat(count as usize)), 15, count + 1));
            all.push(refused(format!("tc 0\n{}", line.repeat(count as usize)), 3, 0));
            all.push(refused(format!("tc 9\n{}x", line.repeat(count as usize)), 15, count + 1));
        }
    }
    all.push(refused(format!("tc 9\n{}", "phase 0 0\n".repeat(3_000)), 4, 0));
    for line in ["flop 0 0 0 0:0\n", "latch 9 9 9 0:0\n"] {
        for count in [513, 514, 1_024, 2_000] {
            all.push(refused(format!("tc 9\nphase 9 0\n{}", line.repeat(count)), 4, 0));
            all.push(refused(format!("tc 9\nphase 9 0\n{}\n", line.repeat(count)), 15, count as u32 + 2));
        }
    }
    // Each line is at fault: the lowest is said.
    all.push(refused("\n".repeat(MOST_TEXT_BYTES), 15, 0));
    all.push(refused(format!("tc 1\n{}", "\n".repeat(30_000)), 15, 1));
    // The largest image for which 32,768 bytes of text are enough: the shortest lines, and pairs of ends with the fewest digits.
    let mut pairs: Vec<[u32; 2]> = (0..512).flat_map(|to| (0..512).map(move |from| [to, from])).collect();
    let digits = |number: u32| number.to_string().len();
    pairs.sort_by_key(|&[to, from]| (digits(to) + digits(from), to, from));
    for (phases, arcs) in [(1, 1_933), (2, 1_933), (1, 1_934), (2, 1_932), (3, 1_932)] {
        let mut ends = pairs[..arcs].to_vec();
        ends.sort_unstable();
        let (_, mut plan) = short_lines(phases, l, 0);
        plan.synchronizers = vec![[0, 1, 0, 0, 0, 0]; l as usize];
        plan.arcs = ends.iter().map(|&[to, from]| [from, to, 0, 0]).collect();
        let text = plain_text(&plan);
        all.push(if arcs == 1_934 { refused(text, 15, 0) } else { image(text, plan.image()) });
    }
    all
}

/// A text of exactly so many bytes: the delay of its first latch is a long row of short windows, the first of them so deep in brackets, and leading
/// zeros of the cycle make up the rest.
fn of_length(length: usize, joint: &str, depth: usize) -> String {
    let before = format!("tc 9\nphase 9 1\nlatch 0 1 2 {}", in_brackets("0:0", depth));
    let after = "\nlatch 0 1 2 0:5\narc 1 0 0:6\n";
    let room = length - before.len() - after.len();
    let step = joint.len() + "0:1".len();
    let row = (joint.to_string() + "0:1").repeat(room / step);
    let zeros = "0".repeat(room % step);
    format!("{before}{row}{after}").replace("tc 9", &format!("tc {zeros}9"))
}

fn lengths() -> Vec<Written> {
    let most = MOST_TEXT_BYTES;
    let mut all = Vec::new();
    for depth in 0..=MOST_DEPTH {
        for joint in ["+", "|"] {
            for length in [most, most - 1 - depth] {
                let text = of_length(length, joint, depth);
                let atoms = text.matches("0:1").count() as u32;
                let greatest = if joint == "+" { atoms } else { 1 };
                let plan = Plan {
                    cycle: 9,
                    phases: vec![[9, 1]],
                    synchronizers: vec![[0, 0, 1, 2, 0, greatest], [0, 0, 1, 2, 0, 5]],
                    arcs: vec![[1, 0, 0, 6]],
                };
                // The same length with the fault in the last line, or with none but its line feed missing.
                all.push(refused(text.replace("0:6\n", "0;6\n"), 15, 4));
                all.push(refused(format!("{}0", &text[..length - 1]), 15, 4));
                all.push(image(text, plan.image()));
            }
            // One byte and more too long: line 0, whatever else there is.
            let text = of_length(most + 1 + depth, joint, depth);
            all.push(refused(text.replace("0:6\n", "0;6\n"), 15, 0));
            all.push(refused(text.replace("phase 9", "phase 9 9"), 15, 0));
            all.push(refused(text, 15, 0));
        }
    }
    for length in [40_000, 65_535, 65_536, 65_536 + 100, 200_000] {
        all.push(refused(of_length(length, "+", 0), 15, 0));
        all.push(refused("x".repeat(length), 15, 0));
        all.push(refused(P1.repeat(length / P1.len() + 1), 15, 0));
    }
    // Good lines up to the longest text's end, and a fault behind it.
    all.push(refused(of_length(most, "+", 0) + P1, 15, 0));
    // As deep as may be, as often as it goes.
    let deep = in_brackets("0:1", MOST_DEPTH);
    let with = |window: &str| format!("tc 9\nphase 9 1\nflop 0 0 0 {window}\n");
    for (joint, greatest) in [("+", 900), ("|", 1)] {
        let row = vec![deep.as_str(); 900].join(joint);
        let plan = Plan { cycle: 9, phases: vec![[9, 1]], synchronizers: vec![[0, 1, 0, 0, 0, greatest]], arcs: vec![] };
        all.push(image(with(&row), plan.image()));
        // Only the last one is too deep.
        all.push(refused(with(&format!("{row}{joint}({deep})")), 15, 2));
    }
    all.push(refused(with(&"(".repeat(32_000)), 15, 2));
    all.push(refused(with(&in_brackets("0:1", 16_000)), 15, 2));
    all
}

// ---- Damage to a text. ----

/// Words, numbers, and every other byte by itself.
fn tokens(text: &str) -> Vec<String> {
    let kind = |byte: char| if byte.is_ascii_digit() { 1 } else { u32::from(byte.is_ascii_alphabetic()) * 2 };
    let mut all: Vec<String> = Vec::new();
    let mut before = 0;
    for byte in text.chars() {
        match all.last_mut() {
            Some(token) if kind(byte) > 0 && kind(byte) == before => token.push(byte),
            _ => all.push(byte.to_string()),
        }
        before = kind(byte);
    }
    all
}

fn each_token(base: &str) -> Vec<Written> {
    let tokens = tokens(base);
    let mut all = Vec::new();
    for at in 0..tokens.len() {
        let mut dropped = tokens.clone();
        dropped.remove(at);
        let mut doubled = tokens.clone();
        doubled.insert(at, tokens[at].clone());
        let mut swapped = tokens.clone();
        swapped.swap(at, (at + 1) % tokens.len());
        // Fields and atoms that trade places.
        let mut farther = tokens.clone();
        farther.swap(at, (at + 2) % tokens.len());
        all.extend([dropped, doubled, swapped, farther].iter().map(|tokens| unknown(tokens.concat())));
    }
    all
}

const BYTES: &[u8] = b" \t\r\n\0+-|:()0159atc#\x0b\x7f\x80\xa0\xff";

fn each_byte(base: &str) -> Vec<Written> {
    let base = base.as_bytes();
    let mut all = Vec::new();
    for at in 0..=base.len() {
        let (before, rest) = base.split_at(at);
        for &byte in BYTES {
            all.push(unknown([before, &[byte], rest].concat()));
        }
        if let Some((&old, behind)) = rest.split_first() {
            all.push(unknown([before, behind].concat()));
            for &byte in BYTES.iter().chain(&[old ^ 0x20, old ^ 0x80, old.wrapping_add(1), old.wrapping_sub(1)]) {
                all.push(unknown([before, &[byte], behind].concat()));
            }
        }
    }
    all
}

/// The front of a text. A line that is cut lacks its line feed; where lines are whole, the last phase or a synchronizer may be missing.
fn cut(base: &str, length: usize) -> Written {
    let front = &base[..length];
    let lines = front.matches('\n').count() as u32;
    if front.ends_with('\n') {
        unknown(front)
    } else {
        refused(front, 15, lines)
    }
}

fn each_number(base: &str) -> Vec<Written> {
    let tokens = tokens(base);
    let new = [
        "",
        "0",
        "1",
        "2",
        "99",
        "100",
        "101",
        "0000000000",
        "0000000001",
        "0000000100",
        "00000000001",
        "00000000100",
        "999999999",
        "1000000000",
        "1000000001",
        "1999999999",
        "2147483648",
        "4294967295",
        "4294967296",
        "4294967297",
        "4294967396",
        "9999999999",
        "10000000000",
        "18446744073709551616",
        "18446744073709551716",
        "-1",
        "+1",
        "-0",
        "1.5",
        "1e2",
        "0x1",
        "1_0",
        "ten",
        "1 ",
        " 1",
        "١",
    ];
    let mut all = Vec::new();
    for (at, token) in tokens.iter().enumerate().filter(|(_, token)| token.parse::<u64>().is_ok()) {
        let old: u64 = token.parse().unwrap_or(0);
        let near = [(old + 1).to_string(), old.saturating_sub(1).to_string(), format!("{old:010}"), format!("{old:011}")];
        for new in new.iter().map(|new| new.to_string()).chain(near) {
            let mut tokens = tokens.clone();
            tokens[at] = new;
            all.push(unknown(tokens.concat()));
        }
    }
    all
}

fn each_line(base: &str) -> Vec<Written> {
    let lines: Vec<&str> = base.split_inclusive('\n').collect();
    let mut all = Vec::new();
    for at in 0..lines.len() {
        let mut without = lines.clone();
        let line = without.remove(at);
        all.push(unknown(without.concat()));
        for to in 0..lines.len() {
            let mut moved = without.clone();
            moved.insert(to, line);
            all.push(unknown(moved.concat()));
            let mut doubled = lines.clone();
            doubled.insert(to, line);
            all.push(unknown(doubled.concat()));
            let mut swapped = lines.clone();
            swapped.swap(at, to);
            all.push(unknown(swapped.concat()));
            // A second fault: the lowest line is said.
            all.push(unknown(swapped.concat().replace("40\n", "40 \n")));
            all.push(unknown(swapped.concat().replace(':', ";")));
        }
    }
    all
}

// ---- Windows of signs. ----

const SIGNS: [&str; 6] = ["1:3", "2:9", "+", "|", "(", ")"];

fn with_window(window: &str) -> Written {
    unknown(format!("tc 9\nphase 9 1\nlatch 0 1 2 {window}\n"))
}

/// Every row of up to five signs.
fn windows_of_few_signs() -> Vec<Written> {
    let mut rows = vec![String::new()];
    let mut all = Vec::new();
    for _ in 0..5 {
        rows = rows.iter().flat_map(|row| SIGNS.map(|sign| row.clone() + sign)).collect();
        all.extend(rows.iter().map(|row| with_window(row)));
    }
    all
}

/// Longer rows: mostly a sign that may stand there, sometimes any; brackets are closed, or not.
fn signs_by_chance(random: &mut Random) -> Written {
    let (mut row, mut open, mut atom_is_next) = (String::new(), 0u32, true);
    let wrong = random.pick(&[0, 0, 2, 10]);
    for _ in 0..random.between(1, 60) {
        let sign = match (random.chance(wrong), atom_is_next) {
            (true, _) => random.pick(&SIGNS),
            (_, true) => random.pick(&["1:3", "2:9", "0:0", "("]),
            (_, false) if open > 0 => random.pick(&["+", "|", ")", ")"]),
            (_, false) => random.pick(&["+", "|"]),
        };
        open = if sign == "(" { open + 1 } else { open.saturating_sub(u32::from(sign == ")")) };
        atom_is_next = ["(", "+", "|"].contains(&sign);
        row += sign;
    }
    if random.chance(95) {
        row += if atom_is_next { "4:7" } else { "" };
        row += &")".repeat(open as usize);
    }
    with_window(&row)
}

// ---- Texts of circuits. ----

fn plain_text(plan: &Plan) -> String {
    text_of(&mut Random::new(0), plan, 0)
}

/// The text of a plan, whatever its numbers are. Of 100 windows and numbers so many are written otherwise than in the shortest way.
fn text_of(random: &mut Random, plan: &Plan, fancy: u32) -> String {
    let mut text = format!("tc {}\n", number(random, plan.cycle, fancy));
    for [closing, active] in &plan.phases {
        text += &format!("phase {} {}\n", number(random, *closing, fancy), number(random, *active, fancy));
    }
    for [phase, kind, setup, hold, least, greatest] in &plan.synchronizers {
        // A kind has no number in a text.
        let name = if *kind == 0 { "latch" } else { "flop" };
        let [phase, setup, hold] = [phase, setup, hold].map(|value| number(random, *value, fancy));
        text += &format!("{name} {phase} {setup} {hold} {}\n", window(random, *least, *greatest, fancy));
    }
    for [from, to, least, greatest] in &plan.arcs {
        let [from, to] = [from, to].map(|value| number(random, *value, fancy));
        text += &format!("arc {from} {to} {}\n", window(random, *least, *greatest, fancy));
    }
    text
}

fn number(random: &mut Random, value: u32, fancy: u32) -> String {
    let width = if fancy > 0 && random.chance(fancy / 2) { random.between(1, 10) as usize } else { 0 };
    format!("{value:0width$}")
}

/// A window with this meaning. Where there is none, an atom that is at fault.
fn window(random: &mut Random, low: u32, high: u32, fancy: u32) -> String {
    if low > high || fancy == 0 || !random.chance(fancy) {
        return format!("{low}:{high}");
    }
    let depth = random.pick(&[0, 1, 2, 3, MOST_DEPTH]);
    if depth == MOST_DEPTH {
        let outside = random.between(0, MOST_DEPTH as u32) as usize;
        return in_brackets(&expression(random, low, high, depth - outside), outside);
    }
    expression(random, low, high, depth)
}

/// Branches of which one has the low end, and one, perhaps the same, the high end.
fn expression(random: &mut Random, low: u32, high: u32, depth: usize) -> String {
    let count = random.pick(&[1, 1, 1, 2, 3]);
    let (lowest, highest) = (random.between(0, count - 1), random.between(0, count - 1));
    let branches: Vec<String> = (0..count)
        .map(|i| {
            let from = if i == lowest { low } else { random.between(low, high) };
            let to = if i == highest { high } else { random.between(from, high) };
            branch(random, from, to, depth)
        })
        .collect();
    branches.join("|")
}

/// Atoms whose ends add up.
fn branch(random: &mut Random, low: u32, high: u32, depth: usize) -> String {
    let (mut low_left, mut length_left) = (low, high - low);
    let mut atoms = Vec::new();
    for _ in 1..random.pick(&[1, 1, 1, 2, 3]) {
        let (from, length) = (random.between(0, low_left), random.between(0, length_left));
        atoms.push(atom(random, from, from + length, depth));
        low_left -= from;
        length_left -= length;
    }
    atoms.push(atom(random, low_left, low_left + length_left, depth));
    atoms.join("+")
}

fn atom(random: &mut Random, low: u32, high: u32, depth: usize) -> String {
    if depth > 0 && random.chance(40) {
        return in_brackets(&expression(random, low, high, depth - 1), 1);
    }
    format!("{}:{}", number(random, low, 20), number(random, high, 20))
}

type Maker = fn(&mut Random, Size) -> (Plan, images::Expect);

const MAKERS: [Maker; 4] = [images::free, images::tight, images::chain, images::ring];

/// A small circuit with arcs, for damage of every token.
fn small(random: &mut Random) -> String {
    loop {
        let plan = images::tight(random, Size::Tiny).0;
        if plan.arcs.len() > 1 {
            return text_of(random, &plan, 60);
        }
    }
}

fn good(random: &mut Random) -> Written {
    let size = random.pick(&[Size::Tiny, Size::Small, Size::Small, Size::Middle]);
    let fancy = random.pick(&[0, 30, 70]);
    let plan = random.pick(&MAKERS)(random, size).0;
    let text = text_of(random, &plan, fancy);
    if text.len() > MOST_TEXT_BYTES {
        return refused(text, 15, 0);
    }
    image(text, plan.image())
}

/// As many arcs of a great circuit as a text has room for.
fn good_and_great(random: &mut Random) -> Written {
    let mut plan = random.pick(&MAKERS)(random, Size::Greatest).0;
    let mut text = plain_text(&plan);
    while text.len() > MOST_TEXT_BYTES {
        plan.arcs.truncate(plan.arcs.len() * 19 / 20);
        text = plain_text(&plan);
    }
    image(text, plan.image())
}

/// A few numbers of a good circuit replaced by others near a limit, or two records made equal: what rules 3 and 6 to 9 are for.
fn edited_plan(random: &mut Random) -> Plan {
    let maker = random.pick(&MAKERS);
    let size = random.pick(&[Size::Tiny, Size::Tiny, Size::Small]);
    let mut plan = maker(random, size).0;
    let (k, l) = (plan.phases.len() as u32, plan.synchronizers.len() as u32);
    let cycle = plan.cycle;
    for _ in 0..random.pick(&[1, 1, 1, 2, 3]) {
        let new = match random.between(0, 7) {
            0 => 0,
            1 => cycle,
            2 => cycle + 1,
            3 => LIMIT,
            4 => random.pick(&[LIMIT + 1, u32::MAX]),
            5 => k,
            6 => l,
            _ => random.between(0, 20),
        };
        match random.between(0, 9) {
            0 => plan.cycle = new,
            1 if l > 0 => plan.phases = Vec::new(),
            2 | 3 => edit(random, &mut plan.phases, new),
            4 | 5 => edit(random, &mut plan.synchronizers, new),
            _ => edit(random, &mut plan.arcs, new),
        }
    }
    plan
}

fn edit<const N: usize>(random: &mut Random, table: &mut [[u32; N]], new: u32) {
    if table.is_empty() {
        return;
    }
    let record = random.place(table.len());
    if random.chance(25) {
        let other = random.place(table.len());
        table.swap(record, other);
    } else if random.chance(20) {
        table[record] = table[random.place(table.len())];
    } else {
        table[record][random.place(N)] = new;
    }
}

fn edited(random: &mut Random) -> Written {
    let plan = edited_plan(random);
    let fancy = random.pick(&[0, 0, 40]);
    unknown(text_of(random, &plan, fancy))
}

fn edited_and_damaged(random: &mut Random) -> Written {
    let plan = edited_plan(random);
    let mut text = text_of(random, &plan, 30).into_bytes();
    for _ in 0..random.pick(&[1, 1, 2]) {
        let at = random.place(text.len());
        match random.between(0, 2) {
            0 => text[at] = random.pick(BYTES),
            1 => text.insert(at, random.pick(BYTES)),
            _ => drop(text.remove(at)),
        }
    }
    unknown(text)
}

/// Words, numbers and signs in any order, now and then whole lines.
fn words_by_chance(random: &mut Random) -> Written {
    let words = ["tc", "phase", "latch", "flop", "arc", "0", "1", "9", "9", "0:1", "2:3", "(1:2)", "1:2+3:4", "1:2|3:4", "\t", "-1", ""];
    let lines = ["phase 9 1\n", "latch 0 1 2 3:4\n", "flop 0 1 2 3:4\n", "arc 0 0 1:1\n", "arc 1 0 5:6\n"];
    let mut text = String::from(if random.chance(90) { "tc 9\n" } else { "" });
    for _ in 0..random.between(0, 12) {
        if random.chance(90) {
            text += random.pick(&lines);
            continue;
        }
        let line: Vec<&str> = (0..random.between(1, 5)).map(|_| random.pick(&words)).collect();
        text += &line.join(" ");
        text += if random.chance(95) { "\n" } else { "" };
    }
    unknown(text)
}
