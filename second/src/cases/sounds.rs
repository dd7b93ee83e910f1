//! Cases on sound sheets: what each shape's path table holds.

use super::Book;
use crate::known;
use crate::random::Random;
use crate::shapes;
use crate::sheet::Sheet;

pub fn cases(book: &mut Book, rng: &mut Random) {
    scope_lines(book);
    small(book, rng);
    medium(book, rng);
    full_size(book, rng);
}

/// Each sheet that the scope names, and its limits.
fn scope_lines(book: &mut Book) {
    let mut sheets = vec![
        known::ring(),
        known::correlator(),
        known::filter(),
        known::host_alone(),
        known::parallel_pair(),
        known::detour(),
        known::ring_limited((0, 2), (-2, 0)),
        known::ring_limited((1, 1), (-2, 0)),
        known::sheet(&[0, 4], &[]),
        // Delay at its limit and past it.
        known::sheet(&[0, 10_000], &[]),
        known::sheet(&[0, 10_001], &[]),
        // A wire back to its own block, with and without a register.
        known::sheet(&[0, 4], &[(1, 1, 1)]),
        known::sheet(&[0, 4], &[(1, 1, 0)]),
        known::sheet(&[0, 4], &[(1, 1, 2_000)]),
        // Paths pass through the host.
        known::sheet(&[0, 3, 5], &[(1, 0, 0), (0, 2, 0), (2, 1, 1)]),
        known::sheet(&[0, 3, 5], &[(1, 0, 0), (0, 2, 0), (1, 2, 1), (2, 1, 1)]),
        known::sheet(&[0, 3, 5], &[(1, 0, 0), (0, 2, 0), (1, 2, 0), (2, 1, 1)]),
        // A larger delay on a path with more registers does not count.
        known::sheet(&[0, 1, 100, 1], &[(1, 2, 0), (2, 3, 1), (1, 3, 0), (3, 1, 1)]),
        // Equal registers: the larger delay counts, whichever way is found first.
        known::sheet(&[0, 1, 100, 1, 5], &[(1, 2, 1), (2, 3, 0), (1, 4, 0), (4, 3, 1), (3, 1, 1)]),
        known::sheet(&[0, 1, 5, 1, 100], &[(1, 2, 1), (2, 3, 0), (1, 4, 0), (4, 3, 1), (3, 1, 1)]),
        known::sheet(&[0, 1, 5, 1, 100], &[(1, 3, 1), (1, 2, 1), (2, 3, 0), (1, 4, 0), (4, 3, 1)]),
        // Parallel wires: the fewest registers count, in either order.
        known::sheet(&[0, 3, 4], &[(1, 2, 3), (1, 2, 1), (1, 2, 2), (2, 1, 0)]),
        known::sheet(&[0, 3, 4], &[(1, 2, 1), (1, 2, 2), (1, 2, 3), (2, 1, 0)]),
        // All delays 0: no path and a path of delay 0 differ in registers.
        known::sheet(&[0, 0, 0], &[(1, 2, 0)]),
        known::sheet(&[0, 0, 0], &[(0, 1, 2_000), (1, 2, 2_000)]),
    ];
    for (lower, upper) in [(-500, 500), (-500, 501), (-1000, 0), (0, 1000), (1000, 1000), (-1000, -1000)] {
        let mut sheet = known::ring();
        (sheet.blocks[2].lower, sheet.blocks[2].upper) = (lower, upper);
        sheets.push(sheet);
    }
    for sheet in &sheets {
        book.both(&sheet.bytes());
        let mut reversed = sheet.clone();
        reversed.wires.reverse();
        book.roomy(&reversed.bytes());
    }
}

/// One sheet of each shape with n blocks and these limits.
pub fn shapes_of(rng: &mut Random, n: usize, most: u16, delay: u32) -> Vec<Sheet> {
    let closing = rng.below(n);
    let width = 1 + rng.below(n.min(3));
    let more = rng.below(2 * n + 1);
    vec![
        shapes::ring(rng, n, closing, delay),
        shapes::chain(rng, n, most, delay, false),
        shapes::chain(rng, n, most, delay, true),
        shapes::tree(rng, n, most, delay, true),
        shapes::tree(rng, n, most, delay, false),
        shapes::sound(rng, n, more, most, delay),
        shapes::connected(rng, n, n + more, most, delay),
        shapes::layers(rng, n, n + more, width, most, delay),
        shapes::parallel(rng, n, 2, most, delay),
        shapes::hub(rng, n.max(2), delay),
    ]
}

fn small(book: &mut Book, rng: &mut Random) {
    for n in 1..=8 {
        for (most, delay) in [(0, 9), (1, 0), (2, 9), (2, 10_000), (2_000, 10_000)] {
            for sheet in shapes_of(rng, n, most, delay) {
                book.roomy(&sheet.bytes());
                if rng.chance(15) {
                    book.check(&sheet.bytes());
                }
            }
        }
    }
    // Many ties: few registers, different delays, many wires.
    for _ in 0..140 {
        let n = 3 + rng.below(6);
        let m = n + rng.below(3 * n);
        let most = rng.pick(&[1, 1, 2]);
        book.roomy(&shapes::connected(rng, n, m, most, 99).bytes());
    }
    // Fully independent ends, unreachable blocks and repeated wires.
    for _ in 0..80 {
        let n = 2 + rng.below(7);
        let m = rng.below(n + 2);
        book.either(&shapes::sound(rng, n, m, 2, 20).bytes());
    }
}

fn medium(book: &mut Book, rng: &mut Random) {
    for n in [9, 12, 17, 31] {
        for (i, sheet) in shapes_of(rng, n, 2, 99).iter().enumerate() {
            if i % 2 == n % 2 || n < 13 {
                book.roomy(&sheet.bytes());
            }
        }
    }
}

fn full_size(book: &mut Book, rng: &mut Random) {
    // Longest possible sums: 63 delays of 10,000 and 63 wires of 2,000 registers.
    let mut longest = shapes::chain(rng, 64, 0, 0, true);
    for block in &mut longest.blocks[1..] {
        block.delay = 10_000;
    }
    book.both(&longest.bytes());
    for wire in &mut longest.wires {
        wire.registers = 2_000;
    }
    book.both(&longest.bytes());
    let sheets = [
        shapes::connected(rng, 64, 256, 2, 9_999),
        shapes::connected(rng, 64, 256, 1, 99),
        shapes::connected(rng, 64, 256, 2_000, 10_000),
        shapes::sound(rng, 64, 256, 2, 10_000),
        shapes::sound(rng, 64, 90, 2, 99),
        shapes::layers(rng, 64, 256, 4, 1, 99),
        shapes::parallel(rng, 64, 4, 2, 999),
        shapes::ring(rng, 64, 63, 10_000),
        shapes::hub(rng, 64, 99),
    ];
    for sheet in &sheets {
        book.roomy(&sheet.bytes());
    }
    for sheet in &sheets[..2] {
        book.check(&sheet.bytes());
    }
}
