//! Times of the fast version on full-size sheets, kind by kind.

use crate::fast;
use crate::known::wire;
use crate::questions::loop_room;
use crate::random::Random;
use crate::shapes;
use crate::sheet::{Sheet, MOST_BLOCKS, MOST_WIRES};
use std::hint::black_box;
use std::time::{Duration, Instant};

pub struct Kind {
    pub name: &'static str,
    pub sheet: fn(&mut Random) -> Sheet,
}

pub fn with_ranges(mut sheet: Sheet, reach: i16) -> Sheet {
    for b in &mut sheet.blocks[1..] {
        (b.lower, b.upper) = (-reach, reach);
    }
    sheet
}

fn random(rng: &mut Random, most: u16, reach: i16) -> Sheet {
    with_ranges(shapes::connected(rng, MOST_BLOCKS, MOST_WIRES, most, 10_000), reach)
}

/// A chain whose wires stand in reverse, a few registers on it, and back; further wires run along with more registers.
fn chain(rng: &mut Random, every: usize) -> Sheet {
    let n = MOST_BLOCKS;
    let mut sheet = shapes::chain(rng, n, 0, 10_000, true);
    for w in &mut sheet.wires {
        w.registers = (w.to as usize % every == 0) as u16;
    }
    sheet.wires.insert(0, wire(n - 1, 0, 1));
    while sheet.wires.len() < MOST_WIRES {
        let from = rng.below(n - 1);
        let to = from + 1 + rng.below(n - 1 - from);
        sheet.wires.insert(0, wire(from, to, (to - from) as u16));
    }
    with_ranges(sheet, 100)
}

/// From the last block down to the host and back, a register on each wire: no order of register-free wires helps here.
fn descending(rng: &mut Random) -> Sheet {
    let n = MOST_BLOCKS;
    let mut sheet = shapes::chain(rng, n, 0, 10_000, true);
    sheet.wires = (0..MOST_WIRES).map(|j| wire((j + 1) % n, j % n, 1 + (j / n) as u16)).collect();
    with_ranges(sheet, 100)
}

pub const KINDS: [Kind; 8] = [
    Kind { name: "random, 0 to 2 registers, wide ranges", sheet: |rng| random(rng, 2, 500) },
    Kind { name: "random, 0 or 1 registers, wide ranges", sheet: |rng| random(rng, 1, 500) },
    Kind { name: "random, 0 to 2 registers, ranges -3..3", sheet: |rng| random(rng, 2, 3) },
    Kind { name: "random, 0 to 2,000 registers", sheet: |rng| random(rng, 2_000, 500) },
    Kind { name: "chain in reverse, 1 register in 8 wires", sheet: |rng| chain(rng, 8) },
    Kind { name: "chain in reverse, 1 register on the way back", sheet: |rng| chain(rng, MOST_BLOCKS) },
    Kind { name: "chain against the block numbers", sheet: descending },
    // Any ranges: hardly ever are any lags permitted.
    Kind { name: "random, no permitted lags", sheet: |rng| shapes::connected(rng, MOST_BLOCKS, MOST_WIRES, 2, 10_000) },
];

/// The quickest of several runs, so that other work on the machine counts little.
pub fn quickest(mut run: impl FnMut()) -> Duration {
    let mut once = || {
        let start = Instant::now();
        run();
        start.elapsed()
    };
    (0..5).map(|_| once()).min().expect("five runs")
}

struct Times {
    sum: Duration,
    worst: Duration,
}

fn show(times: &Times, count: usize) -> String {
    let micros = |d: Duration| d.as_nanos() as f64 / 1_000.0;
    format!("{:>8.2} {:>8.2}", micros(times.sum) / count as f64, micros(times.worst))
}

fn measure(sheets: &[Vec<u8>], mut run: impl FnMut(&[u8])) -> String {
    let mut times = Times { sum: Duration::ZERO, worst: Duration::ZERO };
    for bytes in sheets {
        let took = quickest(|| run(black_box(bytes)));
        times.sum += took;
        times.worst = times.worst.max(took);
    }
    show(&times, sheets.len())
}

/// Prints mean and worst time of each question for so many sheets of each kind.
pub fn run(count: usize, seed: u64) {
    println!("microseconds for one sheet of 64 blocks and 256 wires, mean and worst of {count}, each the quickest of 5 runs");
    println!("{:>17} {:>17} {:>17} {:>17}", "check", "period", "best", "together");
    let mut lags = vec![0; MOST_BLOCKS];
    let room = loop_room(MOST_BLOCKS);
    for kind in KINDS {
        let mut rng = Random::new(seed);
        let sheets: Vec<Vec<u8>> = (0..count).map(|_| (kind.sheet)(&mut rng).bytes()).collect();
        let columns = [
            measure(&sheets, |bytes| {
                black_box(fast::check(bytes));
            }),
            measure(&sheets, |bytes| {
                black_box(fast::period(bytes));
            }),
            measure(&sheets, |bytes| {
                black_box(fast::best(bytes, &mut lags, room));
            }),
            measure(&sheets, |bytes| {
                black_box(fast::together(bytes, &mut lags, room));
            }),
        ];
        println!("{}  {}", columns.join(" "), kind.name);
    }
}
