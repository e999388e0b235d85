//! P1 to P15, with the numbers that were given with the rules; those of P11 to P15 were worked out by hand. None was taken from a
//! program's output.
#![forbid(unsafe_code)]

use crate::images::Plan;
use crate::independent::{check, judge_ring, path, report, timing, Numbers, Refusal, Timing, Way, MARK};

type Window = [u32; 2];

/// The ring of P1: latch delays, then the windows of arc 0 and arc 1.
fn ring(delays: Window, first: Window, second: Window) -> Vec<u8> {
    Plan {
        cycle: 100,
        phases: vec![[50, 40], [100, 40]],
        synchronizers: vec![[0, 0, 10, 5, delays[0], delays[1]], [1, 0, 10, 5, delays[0], delays[1]]],
        arcs: vec![[1, 0, first[0], first[1]], [0, 1, second[0], second[1]]],
    }
    .image()
}

fn flip_flops(window: Window) -> Vec<u8> {
    Plan { cycle: 100, phases: vec![[100, 50]], synchronizers: vec![[0, 1, 10, 10, 8, 8]; 2], arcs: vec![[0, 1, window[0], window[1]]] }
        .image()
}

pub fn p1() -> Vec<u8> {
    ring([5, 10], [10, 20], [20, 60])
}

pub fn p2() -> Vec<u8> {
    ring([5, 10], [10, 20], [20, 61])
}

pub fn p3() -> Vec<u8> {
    ring([5, 10], [10, 10], [20, 70])
}

pub fn p4() -> Vec<u8> {
    ring([5, 10], [0, 0], [20, 80])
}

pub fn p5() -> Vec<u8> {
    ring([10, 10], [20, 20], [60, 60])
}

/// P6 asks for a path in P1.
pub fn p6() -> Vec<u8> {
    p1()
}

pub fn p7() -> Vec<u8> {
    flip_flops([2, 80])
}

pub fn p8() -> Vec<u8> {
    flip_flops([1, 80])
}

pub fn p9() -> Vec<u8> {
    Plan { cycle: 100, phases: vec![[100, 40]], synchronizers: vec![[0; 6]; 3], arcs: vec![[0, 1, 100, 130], [1, 2, 100, 130]] }.image()
}

pub fn p10() -> Vec<u8> {
    Plan { cycle: 100, phases: vec![[100, 40]], synchronizers: vec![], arcs: vec![] }.image()
}

/// Two phases that close together, and two latches, with the phase of each.
fn two_latches(phases: [[u32; 2]; 2], on: [u32; 2], arcs: &[[u32; 4]]) -> Vec<u8> {
    Plan { cycle: 100, phases: phases.to_vec(), synchronizers: on.map(|phase| [phase, 0, 10, 5, 5, 5]).to_vec(), arcs: arcs.to_vec() }
        .image()
}

/// The same behind a phase 0, which a flip-flop is on.
fn three_around(phases: [[u32; 2]; 2], on: [u32; 2]) -> Vec<u8> {
    Plan {
        cycle: 100,
        phases: vec![[40, 20], phases[0], phases[1]],
        synchronizers: vec![[on[0], 0, 10, 5, 5, 10], [on[1], 0, 10, 5, 5, 10], [0, 1, 5, 5, 8, 8]],
        arcs: vec![[2, 0, 20, 40], [0, 1, 30, 90], [1, 2, 10, 20]],
    }
    .image()
}

pub fn p11() -> Vec<u8> {
    two_latches([[100, 50], [100, 50]], [0, 1], &[[0, 1, 10, 10]])
}

/// P11 with its phases exchanged.
pub fn p12() -> Vec<u8> {
    two_latches([[100, 50], [100, 50]], [1, 0], &[[0, 1, 10, 10]])
}

pub fn p13() -> Vec<u8> {
    two_latches([[0, 50], [100, 50]], [0, 1], &[[1, 0, 10, 20], [0, 1, 20, 60]])
}

pub fn p14() -> Vec<u8> {
    three_around([[100, 50], [100, 30]], [1, 2])
}

/// P14 with its last two phases exchanged.
pub fn p15() -> Vec<u8> {
    three_around([[100, 30], [100, 50]], [2, 1])
}

/// Images with their names.
pub fn all() -> [(&'static str, Vec<u8>); 15] {
    [
        ("P1", p1()),
        ("P2", p2()),
        ("P3", p3()),
        ("P4", p4()),
        ("P5", p5()),
        ("P6", p6()),
        ("P7", p7()),
        ("P8", p8()),
        ("P9", p9()),
        ("P10", p10()),
        ("P11", p11()),
        ("P12", p12()),
        ("P13", p13()),
        ("P14", p14()),
        ("P15", p15()),
    ]
}

// Places of a synchronizer's six results.
const EARLY_DEPARTURE: usize = 0;
const LATE_DEPARTURE: usize = 1;
const EARLY_ARRIVAL: usize = 2;
const LATE_ARRIVAL: usize = 3;
const HOLD_SLACK: usize = 4;
const SETUP_SLACK: usize = 5;

/// The results of a sound circuit, six to a synchronizer, and the missed setups and holds.
fn times(image: &[u8]) -> (Vec<Vec<i64>>, u32, u32) {
    let l = check(image).expect("a known circuit is good").synchronizers as usize;
    let (mut results, mut arcs) = (vec![0; 6 * l], vec![0; l]);
    match timing(image, &mut results, &mut arcs) {
        Ok(Timing::Timed { missed_setups, missed_holds }) => {
            (results.chunks(6).map(|six| six.to_vec()).collect(), missed_setups, missed_holds)
        }
        other => panic!("a sound circuit gave {other:?}"),
    }
}

fn text(image: &[u8]) -> String {
    let mut text = vec![0; report(image, &mut [])];
    report(image, &mut text);
    String::from_utf8(text).expect("a report is plain text")
}

fn way(image: &[u8], synchronizer: u32) -> (u32, Vec<u32>) {
    let mut arcs = vec![7; 3];
    let Way { launch, arcs: count } = path(image, synchronizer, &mut arcs).expect("a known path");
    assert!(arcs[count as usize..].iter().all(|&arc| arc == 7), "the rest of the buffer stays");
    arcs.truncate(count as usize);
    (launch, arcs)
}

/// Holds the independent program against the known numbers, and gives how many numbers and texts were held. It panics where one differs.
pub fn test() -> usize {
    let mut held = 0;
    macro_rules! same {
        ($left:expr, $right:expr) => {{
            assert_eq!($left, $right);
            held += 1;
        }};
    }

    same!(text(&p1()), "timed 2 0 0\n0 60 60 25 60 20 30\n1 60 80 35 80 30 10\n");
    same!(check(&p1()), Ok(Numbers { cycle: 100, phases: 2, synchronizers: 2, arcs: 2 }));
    same!(times(&p1()), (vec![vec![60, 60, 25, 60, 20, 30], vec![60, 80, 35, 80, 30, 10]], 0, 0));

    let mut arcs = [7; 3];
    same!(timing(&p2(), &mut [7; 12], &mut arcs), Ok(Timing::Growing { arcs: 2, gain: 1 }));
    same!(arcs, [1, 0, 7]);
    same!(text(&p2()), "loop 2 1\n1\n0\n");

    let (six, setups, _) = times(&p3());
    same!(six[1][SETUP_SLACK], 0);
    same!(setups, 0);

    let (six, setups, holds) = times(&p4());
    same!(six[1][LATE_ARRIVAL], 100);
    same!(six[1][SETUP_SLACK], -10);
    same!((setups, holds), (1, 0));
    same!(six[0][HOLD_SLACK], 10);
    same!(six[1][HOLD_SLACK], 30);

    let six = times(&p5()).0;
    same!((six[0][EARLY_DEPARTURE], six[0][LATE_DEPARTURE]), (60, 60));
    same!((six[1][EARLY_DEPARTURE], six[1][LATE_DEPARTURE]), (80, 80));

    same!(way(&p6(), 0), (0, vec![1, 0]));

    let (six, setups, holds) = times(&p7());
    same!(six[1][SETUP_SLACK], 2);
    same!(six[1][HOLD_SLACK], 0);
    same!((setups, holds), (0, 0));
    same!(six[0][EARLY_ARRIVAL..], [MARK; 4]);

    let (six, _, holds) = times(&p8());
    same!(six[1][HOLD_SLACK], -1);
    same!(holds, 1);

    let (six, setups, _) = times(&p9());
    same!((six[1][LATE_ARRIVAL], six[2][LATE_ARRIVAL]), (90, 120));
    same!((six[1][EARLY_ARRIVAL], six[2][EARLY_ARRIVAL]), (60, 60));
    same!((six[1][SETUP_SLACK], six[2][SETUP_SLACK]), (10, -20));
    same!(setups, 1);
    same!(way(&p9(), 2), (0, vec![0, 1]));

    same!(text(&p10()), "timed 0 0 0\n");

    // Phases that close together, and the same exchanged.
    for image in [p11(), p12()] {
        same!(text(&image), "timed 2 0 1\n0 50 50 - - - -\n1 50 50 -35 -35 -40 125\n");
        same!(way(&image, 1), (0, vec![0]));
    }
    same!(text(&p13()), "timed 2 0 2\n0 50 50 -35 -25 -40 115\n1 50 50 -25 15 -30 75\n");
    for image in [p14(), p15()] {
        same!(text(&image), "timed 3 0 1\n0 68 88 68 88 63 2\n1 70 88 3 88 -2 2\n2 100 100 45 78 40 17\n");
        same!(way(&image, 2), (2, vec![0, 1, 2]));
    }
    same!(Plan::of(&p11()).exchanged(0).image(), p12());
    same!(Plan::of(&p14()).exchanged(1).image(), p15());

    // The refusals of the calls, on the known circuits.
    let refusal = |number| Refusal { number, record: 0 };
    same!(timing(&p1(), &mut [7; 11], &mut [7; 1]).unwrap_err(), refusal(10));
    same!(timing(&p1(), &mut [7; 12], &mut [7; 1]).unwrap_err(), refusal(11));
    same!(path(&p1(), 2, &mut [7; 1]).unwrap_err(), refusal(11));
    same!(path(&p1(), 2, &mut [7; 2]).unwrap_err(), refusal(12));
    same!(path(&p7(), 0, &mut [7; 2]).unwrap_err(), refusal(13));
    same!(path(&p2(), 0, &mut [7; 2]).unwrap_err(), refusal(14));

    // The judge takes P2's ring, and no other way to write it.
    same!(judge_ring(&p2(), &[1, 0], 1), Ok(()));
    for (ring, gain) in [(&[][..], 0), (&[0, 1], 1), (&[1], 1), (&[1, 0, 1, 0], 2), (&[1, 2], 1), (&[1, 0], 2)] {
        same!(judge_ring(&p2(), ring, gain).is_err(), true);
    }
    same!(judge_ring(&p1(), &[1, 0], 0).is_err(), true);
    held
}

#[test]
fn known_circuits() {
    test();
}
