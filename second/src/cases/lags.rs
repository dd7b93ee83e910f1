//! Cases on the two lag questions: every entry of small tables, all kinds of ranges, ceilings, lists, full size.

use super::moves::permitted_pair;
use super::{refused, sounds, Book};
use crate::known::{self, block, wire};
use crate::lags::delays;
use crate::paths;
use crate::questions::loop_room;
use crate::random::Random;
use crate::record::MOST_GIVEN;
use crate::shapes;
use crate::sheet::Sheet;

pub fn cases(book: &mut Book, rng: &mut Random) {
    scope_lines(book);
    around_every_delay(book, rng);
    small_shapes(book, rng);
    narrow_ranges(book, rng);
    permitted_ranges(book, rng);
    ceilings(book, rng);
    lists(book);
    refused_sheets(book, rng);
    full_size(book, rng);
}

/// Periods that no table has, and those next to the largest that one can have.
const FAR: [u32; 6] = [0, 629_999, 630_000, 630_001, u32::MAX - 1, u32::MAX];

fn with_ranges(mut sheet: Sheet, lower: i16, upper: i16) -> Sheet {
    for b in &mut sheet.blocks[1..] {
        (b.lower, b.upper) = (lower, upper);
    }
    sheet
}

/// The best period and lags at these periods.
fn at(book: &mut Book, sheet: &Sheet, periods: impl IntoIterator<Item = u32>) {
    book.best(sheet);
    for c in periods {
        book.lags_at(sheet, c);
    }
}

/// Each delay of the table, one below it and one above it.
fn around(sheet: &Sheet) -> Vec<u32> {
    let delays = delays(&paths::table(sheet));
    let mut periods: Vec<u32> = delays.iter().flat_map(|&d| [d.saturating_sub(1), d, d + 1]).collect();
    periods.sort_unstable();
    periods.dedup();
    periods
}

fn scope_lines(book: &mut Book) {
    for sheet in [known::ring(), known::ring_limited((0, 2), (-2, 0)), known::ring_limited((1, 1), (-2, 0))] {
        at(book, &sheet, (0..=14).chain(FAR));
    }
    at(book, &known::host_alone(), FAR.into_iter().chain([1]));
    for sheet in [known::sheet(&[0, 4], &[]), known::forced_ring(), known::parallel_pair(), known::sheet(&[0, 0, 0], &[])] {
        at(book, &sheet, (0..9).chain(FAR));
    }
    for sheet in [with_ranges(known::correlator(), -500, 500), known::correlator(), known::detour(), known::filter()] {
        let periods = around(&sheet);
        at(book, &sheet, periods);
    }
    // Lags of the correlator's ranges that leave out 0, or leave no choice.
    for (lower, upper) in [(0, 0), (1, 1), (-1, -1), (-3, -1), (1, 3), (-1, 0), (0, 1)] {
        at(book, &with_ranges(known::correlator(), lower, upper), [10, 13, 17, 24]);
    }
    // Limits of delays and ranges.
    for (lower, upper) in [(-500, 500), (-1_000, 0), (0, 1_000), (1_000, 1_000), (-1_000, -1_000)] {
        let lone = with_ranges(known::sheet(&[0, 10_000], &[]), lower, upper);
        at(book, &lone, [0, 9_999, 10_000, 10_001]);
        let ring = with_ranges(known::ring(), lower, upper);
        at(book, &ring, [6, 7, 8, 12]);
    }
    // The single block, with a wire back to itself.
    for registers in [1, 2, 2_000] {
        at(book, &known::sheet(&[0, 5], &[(1, 1, registers)]), [4, 5, 6]);
    }
    // A larger delay on a path with more registers is no rule.
    at(book, &known::sheet(&[0, 1, 100, 1], &[(1, 2, 0), (2, 3, 1), (1, 3, 0), (3, 1, 1)]), [1, 2, 99, 100, 101, 102]);
    // All delays 0: every period is met.
    at(book, &known::sheet(&[0, 0, 0], &[(0, 1, 0), (1, 2, 3), (2, 0, 1)]), [0, 1]);
}

fn around_every_delay(book: &mut Book, rng: &mut Random) {
    for round in 0..44 {
        let n = 2 + round % 4;
        let m = n + rng.below(n + 1);
        let most = rng.pick(&[1, 1, 2]);
        let mut sheet = shapes::connected(rng, n, m, most, 12);
        if round % 3 > 0 {
            sheet = with_ranges(sheet, -3, 3);
        }
        let periods = around(&sheet);
        at(book, &sheet, periods);
    }
    // Delays far apart, with 16 and more bits.
    for _ in 0..8 {
        let sheet = with_ranges(shapes::connected(rng, 9, 14, 1, 10_000), -9, 9);
        let mut periods = around(&sheet);
        rng.shuffle(&mut periods);
        at(book, &sheet, periods.into_iter().take(12));
    }
}

fn small_shapes(book: &mut Book, rng: &mut Random) {
    for n in 1..=8 {
        for (most, delay) in [(0, 9), (1, 9), (2, 99)] {
            for mut sheet in sounds::shapes_of(rng, n, most, delay) {
                if rng.chance(60) {
                    sheet = with_ranges(sheet, -4, 4);
                }
                let periods = around(&sheet);
                let c = rng.pick(&periods);
                at(book, &sheet, [c]);
            }
        }
    }
}

/// Small ranges about 0, or not: many sheets without permitted lags.
fn narrow_ranges(book: &mut Book, rng: &mut Random) {
    for round in 0..150 {
        let n = 2 + rng.below(4);
        let m = 1 + rng.below(2 * n);
        let mut sheet = shapes::sound(rng, n, m, 2, 9);
        for b in &mut sheet.blocks[1..] {
            b.lower = rng.between(-2, 2) as i16;
            // Every third sheet leaves no choice at all.
            b.upper = b.lower + if round % 3 == 0 { 0 } else { rng.below(3) as i16 };
        }
        let c = rng.between(0, 25) as u32;
        at(book, &sheet, [c]);
    }
    // Two ranges too far apart for the path between them, by one and just not.
    for gap in [-1, 0, 1] {
        for (lower, upper) in [(5, 7), (-7, -5), (1_000, 1_000), (400, 500)] {
            let mut sheet = known::sheet(&[0, 2, 3, 4], &[(1, 2, 1), (2, 3, 2), (3, 1, 4)]);
            (sheet.blocks[1].lower, sheet.blocks[1].upper) = (lower, upper);
            // Lag 1 is at most lag 3 and the path's 3 registers.
            (sheet.blocks[3].lower, sheet.blocks[3].upper) = (lower - 3 - gap, lower - 3 - gap);
            (sheet.blocks[2].lower, sheet.blocks[2].upper) = (lower - 9, lower);
            at(book, &sheet, [3, 4, 8, 9]);
        }
    }
}

/// Ranges around permitted lags, tight ones and wide ones, that reach every part of -1,000 to 1,000.
fn permitted_ranges(book: &mut Book, rng: &mut Random) {
    for round in 0..130 {
        let n = 2 + rng.below(5);
        let (reach, most) = [(1, 2), (2, 3), (3, 9), (1_000, 2_000), (999, 1_000)][round % 5];
        let (sheet, _) = permitted_pair(rng, n, reach, most);
        let periods = around(&sheet);
        let c = rng.pick(&periods);
        at(book, &sheet, [c]);
    }
}

fn ceilings(book: &mut Book, rng: &mut Random) {
    // The wire's end is held back, or its start is pushed.
    for registers in [1_000, 1_997, 1_998, 1_999, 2_000] {
        for (lower, upper) in [(-3, 3), (0, 2), (1, 3), (2, 5), (-3, -1), (0, 1_000)] {
            for (from, to) in [(0, 1), (1, 0)] {
                let sheet = with_ranges(known::sheet(&[0, 5], &[(from, to, registers)]), lower, upper);
                at(book, &sheet, [4, 5]);
            }
        }
    }
    // Between two blocks whose lags can be 2,000 apart.
    for registers in [0, 1, 999, 1_000, 1_001, 1_999, 2_000] {
        for (one, two) in [((-1_000, -1_000), (1_000, 1_000)), ((-1_000, -999), (0, 1_000)), ((1_000, 1_000), (-1_000, -1_000)), ((0, 1_000), (-1_000, 0))] {
            let blocks = vec![block(0, 0, 0), block(3, one.0, one.1), block(4, two.0, two.1)];
            at(book, &Sheet { blocks, wires: vec![wire(1, 2, registers)] }, [6, 7]);
        }
    }
    // A ceiling that hands a block's upper limit on, against the wires.
    for _ in 0..60 {
        let n = 2 + rng.below(4);
        let m = n + rng.below(4);
        let mut sheet = shapes::connected(rng, n, m, 2, 9);
        for w in &mut sheet.wires {
            if rng.chance(50) {
                w.registers = rng.between(1_994, 2_000) as u16;
            }
        }
        for b in &mut sheet.blocks[1..] {
            b.lower = rng.between(-4, 3) as i16;
            b.upper = rng.between(b.lower as i64, 6) as i16;
        }
        let periods = around(&sheet);
        let c = rng.pick(&periods);
        at(book, &sheet, [c]);
    }
}

/// Both lists too short, just long enough and longer, for each answer.
fn lists(book: &mut Book) {
    let sheets = [
        (known::host_alone(), 0),
        (known::parallel_pair(), 0),
        (known::ring(), 7),
        (known::ring(), 6),
        (known::ring_limited((1, 1), (-2, 0)), 12),
    ];
    for (sheet, c) in &sheets {
        let (n, bytes) = (sheet.n(), sheet.bytes());
        let room = loop_room(n);
        for a in [0, n - 1, n, n + 1, MOST_GIVEN] {
            for b in [0, room - 1, room, room + 1, MOST_GIVEN] {
                book.lags_lent(&bytes, *c, a, b);
                book.best_lent(&bytes, a, b);
            }
        }
        // Lengths that suit another list.
        for (a, b) in [(n, n), (n, n * n), (room, n), (room, room), (n, n * (n + 1)), (n * n, room)] {
            book.lags_lent(&bytes, *c, a, b);
            book.best_lent(&bytes, a, b);
        }
    }
}

/// Every refusal of the sheet, with lists that suit and lists that are too short.
fn refused_sheets(book: &mut Book, rng: &mut Random) {
    for bytes in refused::headers() {
        for (a, b) in [(5, 40), (0, 0)] {
            book.lags_lent(&bytes, 12, a, b);
            book.best_lent(&bytes, a, b);
        }
    }
    for (round, bytes) in refused::entries(rng).into_iter().enumerate() {
        let n = bytes[0] as usize;
        let room = loop_room(n);
        let (a, b) = [(n, room), (n, room - 1), (n - 1, room), (n, room), (n - 1, room - 1), (n, room + 1)][round % 6];
        let c = rng.pick(&[0, 4, 9, u32::MAX]);
        book.lags_lent(&bytes, c, a, b);
        book.best_lent(&bytes, a, b);
    }
    // No permitted lags and a refused sheet together.
    for at in [0, 1, 3] {
        let mut sheet = known::ring_limited((1, 1), (-2, 0));
        sheet.wires[at].spare = 1;
        book.best(&sheet);
        book.lags_at(&sheet, 6);
        sheet.blocks[at].delay = 10_001;
        book.best(&sheet);
        sheet = known::ring_limited((1, 1), (-2, 0));
        sheet.wires.push(wire(at, at, 0));
        book.best(&sheet);
        book.lags_at(&sheet, 6);
    }
}

fn full_size(book: &mut Book, rng: &mut Random) {
    let mut sheets = vec![
        with_ranges(shapes::connected(rng, 64, 256, 2, 999), -500, 500),
        with_ranges(shapes::connected(rng, 64, 256, 1, 10_000), -9, 9),
        with_ranges(shapes::connected(rng, 64, 256, 3, 99), 0, 5),
        with_ranges(shapes::sound(rng, 64, 256, 2, 99), -2, 2),
        with_ranges(shapes::connected(rng, 64, 256, 2_000, 9_999), -500, 500),
        with_ranges(shapes::layers(rng, 64, 256, 4, 1, 99), -500, 500),
        with_ranges(shapes::ring(rng, 64, 63, 10_000), -63, 63),
        with_ranges(shapes::chain(rng, 64, 2, 99, true), -70, 70),
        // Random ranges: no lags are permitted.
        shapes::connected(rng, 64, 256, 2, 99),
    ];
    // The longest sums: a loop over all blocks with a register on each wire, and one for all of them.
    let mut longest = with_ranges(shapes::ring(rng, 64, 63, 0), -63, 63);
    for b in &mut longest.blocks[1..] {
        b.delay = 10_000;
    }
    sheets.push(longest.clone());
    for w in &mut longest.wires {
        w.registers = 1;
    }
    sheets.push(longest);
    let mut lone = shapes::chain(rng, 64, 9, 9, false);
    lone.wires.clear();
    sheets.push(lone);
    for sheet in &sheets {
        let periods = around(sheet);
        let c = rng.pick(&periods);
        at(book, sheet, [c]);
    }
    // Around the best period of one of them, and lists one short.
    if let Some((least, _)) = crate::lags::best(&sheets[0]) {
        at(book, &sheets[0], [least - 1, least, least + 1, u32::MAX]);
    }
    for (a, b) in [(64, 4_223), (63, 4_224), (64, 4_224)] {
        book.best_lent(&sheets[0].bytes(), a, b);
        book.lags_lent(&sheets[8].bytes(), 0, a, b);
    }
}
