//! Cases on moves: permitted ones of many shapes, each refusal at every kind of place, the two lent lists.

use super::Book;
use crate::known::{self, block, wire};
use crate::random::Random;
use crate::record::MOST_ENTRIES;
use crate::shapes;
use crate::sheet::{Sheet, Wire, MOST_REGISTERS};

pub fn cases(book: &mut Book, rng: &mut Random) {
    scope_lines(book);
    permitted(book, rng);
    lags_outside(book, rng);
    wires_outside(book, rng);
    both_outside(book, rng);
    lists(book, rng);
    refused_sheets(book, rng);
    full_size(book, rng);
}

fn scope_lines(book: &mut Book) {
    let pair = known::parallel_pair();
    for lag in -4..=4 {
        book.moving(&pair, &[0, lag]);
    }
    let ring = known::ring();
    for a in -1..=1 {
        for b in -1..=1 {
            for c in -1..=1 {
                book.moving(&ring, &[0, a, b, c]);
            }
        }
    }
    for sheet in [known::host_alone(), known::correlator(), known::filter(), known::detour()] {
        let n = sheet.n();
        book.moving(&sheet, &vec![0; n]);
        book.moving(&sheet, &vec![1; n]);
        for i in 1..n {
            let mut lags = vec![0; n];
            lags[i] = 1;
            book.moving(&sheet, &lags);
            lags[i] = -1;
            book.moving(&sheet, &lags);
        }
    }
    // Mirrored lags would be permitted too, and give another sheet.
    let even = known::sheet(&[0, 3, 4], &[(0, 1, 5), (1, 2, 5), (2, 0, 5)]);
    for lags in [[0, 1, -1], [0, -1, 1], [0, 2, 1], [0, -2, -1], [0, 2, 2], [0, -2, -2]] {
        book.moving(&even, &lags);
    }
    // No permitted lags at all: every list is refused, and each for its own reason.
    let none = known::ring_limited((1, 1), (-2, 0));
    for lags in [[0, 1, 0, 0], [0, 1, 1, 0], [0, 1, 1, 1], [0, 0, 0, 0], [0, 1, 2, -2], [0, 1, 2, 0]] {
        book.moving(&none, &lags);
    }
    // A move all but undone: where 0 was out of range the way back is refused.
    let far = Sheet { blocks: vec![block(0, 0, 0), block(3, 1, 4)], wires: vec![wire(0, 1, 2), wire(1, 0, 4)] };
    let near = Sheet { blocks: vec![block(0, 0, 0), block(3, 0, 3)], wires: vec![wire(0, 1, 3), wire(1, 0, 3)] };
    for lag in -2..=5 {
        book.moving(&far, &[0, lag]);
        book.moving(&near, &[0, lag]);
    }
}

/// A sheet of one of the shapes, as a move is to leave it.
fn goal(rng: &mut Random, n: usize, most: u16) -> Sheet {
    let m = n + rng.below(n + 2);
    let closing = rng.below(n);
    match rng.below(8) {
        0 => shapes::ring(rng, n, closing, 9),
        1 => shapes::chain(rng, n, most, 9, true),
        2 => shapes::tree(rng, n, most, 9, true),
        3 => shapes::parallel(rng, n, 2, most, 9),
        4 => shapes::hub(rng, n.max(2), 9),
        5 => shapes::layers(rng, n, m, 2, most, 9),
        6 => shapes::sound(rng, n, m, most, 9),
        _ => shapes::connected(rng, n, m, most, 9),
    }
}

/// A sheet and permitted lags up to `reach` that move it to a goal; wires that would need too many registers are left out.
pub fn permitted_pair(rng: &mut Random, n: usize, reach: i64, most: u16) -> (Sheet, Vec<i16>) {
    let mut sheet = goal(rng, n, most);
    let n = sheet.n();
    let mut lags: Vec<i16> = (0..n).map(|_| rng.between(-reach, reach) as i16).collect();
    lags[0] = 0;
    let before = |w: &Wire| w.registers as i64 - lags[w.to as usize] as i64 + lags[w.from as usize] as i64;
    sheet.wires.retain(|w| (0..=MOST_REGISTERS as i64).contains(&before(w)));
    for w in &mut sheet.wires {
        w.registers = before(w) as u16;
    }
    for (b, &lag) in sheet.blocks.iter_mut().zip(&lags).skip(1) {
        // The lag lies at the lower end, at the upper end or between; many ranges have no 0.
        let (below, above) = rng.pick(&[(0, 0), (0, 3), (3, 0), (1, 1), (2, 5), (400, 600)]);
        b.lower = (lag - below).max(-1_000);
        b.upper = (lag + above).min(1_000);
    }
    (sheet, lags)
}

fn permitted(book: &mut Book, rng: &mut Random) {
    for round in 0..155 {
        let n = 1 + rng.below(6);
        let (reach, most) = [(1, 2), (2, 3), (3, 9), (1_000, 2_000), (999, 1_000)][round % 5];
        let (sheet, lags) = permitted_pair(rng, n, reach, most);
        book.moving(&sheet, &lags);
    }
    // Lags of 0 copy the sheet, where every range has 0.
    for n in 1..6 {
        let mut sheet = shapes::connected(rng, n, n + 2, 2, 9);
        book.moving(&sheet, &vec![0; n]);
        for b in &mut sheet.blocks[1..] {
            (b.lower, b.upper) = (-1, 0);
        }
        book.moving(&sheet, &vec![0; n]);
    }
    // A lag at each limit.
    for (lower, upper) in [(-1_000, 0), (0, 1_000), (1_000, 1_000), (-1_000, -1_000), (-500, 500), (1, 1), (-7, -3)] {
        for lag in [lower - 1, lower, lower + 1, upper - 1, upper, upper + 1] {
            let mut sheet = known::sheet(&[0, 3], &[(0, 1, 1_000), (1, 0, 1_000), (1, 1, 1)]);
            (sheet.blocks[1].lower, sheet.blocks[1].upper) = (lower, upper);
            book.moving(&sheet, &[0, lag]);
        }
    }
}

/// The first, a middle and the last number below `count`.
fn places(rng: &mut Random, count: usize) -> [usize; 3] {
    [0, rng.below(count), count - 1]
}

fn lags_outside(book: &mut Book, rng: &mut Random) {
    for _ in 0..18 {
        let n = 2 + rng.below(5);
        let (sheet, lags) = permitted_pair(rng, n, 3, 9);
        for at in places(rng, sheet.n()) {
            let limits = sheet.blocks[at];
            for bad in [limits.lower - 1, limits.upper + 1, i16::MIN, i16::MAX] {
                let mut lags = lags.clone();
                lags[at] = bad;
                if rng.chance(60) {
                    book.moving(&sheet, &lags);
                }
            }
        }
        // The first of several is named.
        let mut lags = lags;
        for _ in 0..3 {
            let at = rng.below(sheet.n());
            lags[at] = rng.pick(&[i16::MIN, -1_001, 1_001, i16::MAX]);
        }
        book.moving(&sheet, &lags);
    }
    // The host, whose range is 0 alone.
    for host in [1, -1, 2, 1_000, -1_000, 256, -256, i16::MIN, i16::MAX] {
        book.moving(&known::ring(), &[host, 0, 0, 0]);
        book.moving(&known::ring(), &[host, 3, host, host]);
        book.moving(&known::host_alone(), &[host]);
    }
    // Numbers that would be in range if a byte or the sign were lost.
    for lag in [256, 257, -255, -256, -257, 512, 32_766, 32_767, -32_767, -32_768, -32_766, 255, 254, 3, -3] {
        for at in 1..4 {
            let mut lags = [0; 4];
            lags[at] = lag;
            book.moving(&known::ring(), &lags);
        }
    }
}

fn wires_outside(book: &mut Book, rng: &mut Random) {
    // Each limit and one past it, on the first, a middle and the last wire.
    for _ in 0..16 {
        let n = 2 + rng.below(4);
        let (sheet, lags) = permitted_pair(rng, n, 20, 1_000);
        let ends: Vec<usize> = (0..sheet.wires.len()).filter(|&j| sheet.wires[j].from != sheet.wires[j].to).collect();
        if ends.is_empty() {
            continue;
        }
        for at in places(rng, ends.len()) {
            let w = sheet.wires[ends[at]];
            let gain = lags[w.to as usize] as i64 - lags[w.from as usize] as i64;
            for after in [-1, 0, 2_000, 2_001] {
                // Other wires would decide if this one's number could not be reached.
                if (1..=2_000).contains(&(after - gain)) {
                    let mut sheet = sheet.clone();
                    sheet.wires[ends[at]].registers = (after - gain) as u16;
                    book.moving(&sheet, &lags);
                }
            }
        }
    }
    // Gains from -1,000 to 1,000 on a single wire, both ways.
    for (lag, registers) in [
        (1_000, 1_000), (1_000, 1_001), (1_000, 0), (1_000, 999), (-1_000, 1_000), (-1_000, 999), (-1_000, 2_000), (-1_000, 0),
        (1, 1_999), (1, 2_000), (-1, 1), (-1, 0), (0, 0), (0, 2_000),
    ] {
        let to = Sheet { blocks: vec![block(0, 0, 0), block(1, lag, lag)], wires: vec![wire(0, 1, registers)] };
        let from = Sheet { blocks: to.blocks.clone(), wires: vec![wire(1, 0, registers)] };
        book.moving(&to, &[0, lag]);
        book.moving(&from, &[0, lag]);
    }
    // Between two blocks the gain reaches 2,000.
    for (lags, registers) in [
        ([0, -1_000, 1_000], 0), ([0, -1_000, 1_000], 1), ([0, 1_000, -1_000], 2_000), ([0, 1_000, -1_000], 1_999),
        ([0, -1_000, 999], 1), ([0, -1_000, 999], 2), ([0, 1_000, 1_000], 0), ([0, 1_000, 1_000], 2_000),
    ] {
        let blocks = lags.iter().map(|&lag| block(0, lag, lag)).collect();
        book.moving(&Sheet { blocks, wires: vec![wire(1, 2, registers)] }, &lags);
    }
    // A wire back to its own block keeps its registers.
    for registers in [1, 2, 1_999, 2_000] {
        let own = known::sheet(&[0, 4], &[(1, 1, registers), (0, 0, registers)]);
        for lag in [-2, 0, 2] {
            book.moving(&own, &[0, lag]);
        }
    }
    // Parallel wires: the first that leaves its limits is named, in either order.
    for wires in [[(0, 1, 3), (0, 1, 1), (0, 1, 2)], [(0, 1, 1), (0, 1, 2), (0, 1, 3)], [(1, 0, 1), (0, 1, 2), (1, 0, 2)]] {
        for lag in -2..=2 {
            book.moving(&known::sheet(&[0, 1], &wires), &[0, lag]);
        }
    }
    // The first of several.
    for _ in 0..50 {
        let n = 2 + rng.below(4);
        let m = n + rng.below(5);
        let mut sheet = shapes::connected(rng, n, m, 2, 9);
        for b in &mut sheet.blocks[1..] {
            (b.lower, b.upper) = (-3, 3);
        }
        let mut lags: Vec<i16> = (0..n).map(|_| rng.between(-3, 3) as i16).collect();
        lags[0] = 0;
        book.moving(&sheet, &lags);
    }
}

/// A lag outside its range comes first, wherever the wires are.
fn both_outside(book: &mut Book, rng: &mut Random) {
    for _ in 0..50 {
        let n = 2 + rng.below(5);
        let (mut sheet, mut lags) = permitted_pair(rng, n, 3, 9);
        let at = rng.below(sheet.n());
        lags[at] = if rng.chance(50) { sheet.blocks[at].upper + 1 } else { sheet.blocks[at].lower - 1 };
        if let Some(w) = sheet.wires.iter_mut().find(|w| w.from != w.to) {
            w.registers = rng.pick(&[1, 2_000]);
        }
        book.moving(&sheet, &lags);
    }
    // Each part of 8 and 9 alone and together.
    let pair = known::parallel_pair();
    for lags in [[0, -3], [0, 3], [1, -3], [1, 1], [-1, -2], [1, 0]] {
        book.moving(&pair, &lags);
    }
}

fn lists(book: &mut Book, rng: &mut Random) {
    let sheets = [known::host_alone(), known::parallel_pair(), known::ring(), shapes::connected(rng, 6, 8, 2, 9)];
    for sheet in &sheets {
        let (n, bytes) = (sheet.n(), sheet.bytes());
        let lags: Vec<i16> = sheet.blocks.iter().map(|b| b.lower).collect();
        let size = bytes.len();
        for a in [0, n - 1, n, n + 1, n + 3] {
            for b in [0, size - 1, size, size + 1, MOST_ENTRIES] {
                let mut given = lags.clone();
                given.resize(a, rng.pick(&[i16::MIN, 1, -1, i16::MAX]));
                book.moving_into(&bytes, &given, b);
            }
        }
        // Lengths that suit another list.
        for (a, b) in [(n, n), (n, size - 8), (n, 16), (size, n), (n, 2 * size)] {
            let mut given = lags.clone();
            given.resize(a, 7);
            book.moving_into(&bytes, &given, b);
        }
        book.moving_into(&bytes, &vec![0; n], size);
        book.moving_into(&bytes, &vec![0; n], size + 100);
    }
    // Lags past the blocks are not read, whatever they are.
    for more in [&[1][..], &[i16::MIN, i16::MAX], &[0; 9], &[-1_001]] {
        let given = [&[0, 0, 0, 1], more].concat();
        book.moving_into(&known::ring().bytes(), &given, 80);
    }
    let mut long = vec![0; 300];
    long[3] = 1;
    book.moving_into(&known::ring().bytes(), &long, 81);
}

/// Good lags on bad sheets, and every set of refusals together.
fn refused_sheets(book: &mut Book, rng: &mut Random) {
    let ring = known::ring().bytes();
    for length in [0, 1, 2, 8, 15, 16, 17, 79, 81, 88] {
        let mut bytes = ring.clone();
        bytes.resize(length, 0);
        for (a, b) in [(4, 80), (3, 80), (0, 0)] {
            book.moving_into(&bytes, &vec![0; a], b);
        }
    }
    for (at, value) in [(0, 0), (0, 65), (0, 3), (0, 5), (1, 1), (2, 3), (2, 5), (3, 2), (4, 17), (8, 40), (12, 88), (15, 1)] {
        let mut bytes = ring.clone();
        bytes[at] = value;
        for (a, b) in [(5, 88), (0, 0)] {
            book.moving_into(&bytes, &vec![0; a], b);
        }
    }
    let bad_blocks = [block(10_001, 0, 0), block(1, 1, 0), block(1, -500, 501), block(1, -1_001, -1_001)];
    for round in 0..128 {
        let n = 2 + rng.below(4);
        let (mut sheet, mut lags) = permitted_pair(rng, n, 2, 3);
        let n = sheet.n();
        sheet.wires.push(wire(0, 1, 2_000));
        sheet.wires.push(wire(0, n - 1, 500));
        // Every set of faults with every group, without bad blocks in some groups, which would hide the rest.
        let group = round / 16;
        let faults = round % 16 & [15, 14, 12, 14, 15, 15, 15, 15][group];
        if faults & 1 != 0 {
            let at = rng.below(n);
            sheet.blocks[at] = rng.pick(&bad_blocks);
        }
        if faults & 2 != 0 {
            let bad = [wire(n, 0, 0), wire(0, n, 0), wire(0, 0, 2_001), Wire { spare: 1, ..wire(0, 0, 1) }];
            let at = rng.below(sheet.wires.len());
            sheet.wires[at] = rng.pick(&bad);
        }
        if faults & 4 != 0 {
            let at = rng.below(n);
            sheet.wires.push(wire(at, (at + 1) % n, 0));
            sheet.wires.push(wire((at + 1) % n, at, 0));
        }
        if faults & 8 != 0 {
            let at = rng.below(n);
            lags[at] = rng.pick(&[i16::MIN, 1_001, -1_001, i16::MAX]);
        }
        let mut bytes = sheet.bytes();
        let mut size = bytes.len();
        match group {
            4 => size -= 1 + rng.below(8),
            5 => lags.truncate(rng.below(n)),
            6 => {
                size -= 8;
                lags.pop();
            }
            7 => bytes[rng.pick(&[2, 4, 8, 12])] ^= 4,
            _ => {}
        }
        book.moving_into(&bytes, &lags, size);
    }
}

fn full_size(book: &mut Book, rng: &mut Random) {
    let mut sheet = shapes::connected(rng, 64, 256, 1_000, 10_000);
    let lags: Vec<i16> = (0..64).map(|i| if i == 0 { 0 } else { rng.between(-100, 100) as i16 }).collect();
    for (b, &lag) in sheet.blocks.iter_mut().zip(&lags).skip(1) {
        (b.lower, b.upper) = (lag - 500, lag + 500);
    }
    for w in &mut sheet.wires {
        w.registers += 200;
    }
    let size = sheet.bytes().len();
    book.moving(&sheet, &lags);
    book.moving_into(&sheet.bytes(), &lags, MOST_ENTRIES);
    book.moving_into(&sheet.bytes(), &lags, size - 1);
    // The last block and the last wire.
    let mut high = lags.clone();
    high[63] += 501;
    book.moving(&sheet, &high);
    let mut apart = lags.clone();
    apart[1] = lags[2] - 1;
    sheet.wires[255] = wire(1, 2, 2_000);
    book.moving(&sheet, &apart);
    // Blocks without wires, and one block with the most wires.
    let mut lone = shapes::chain(rng, 64, 9, 9, false);
    lone.wires.clear();
    let upper: Vec<i16> = lone.blocks.iter().map(|b| b.upper).collect();
    let lower: Vec<i16> = lone.blocks.iter().map(|b| b.lower).collect();
    book.moving(&lone, &upper);
    book.moving(&lone, &lower);
    book.moving_into(&lone.bytes(), &upper[..63], lone.bytes().len());
    let wires = (0..256).map(|j| wire(j % 2, 1 - j % 2, 3 + j as u16)).collect();
    let many = Sheet { blocks: vec![block(0, 0, 0), block(1, -3, 3)], wires };
    book.moving(&many, &[0, 3]);
    book.moving(&many, &[0, -3]);
    let mut last = many.clone();
    last.wires[255].registers = 2;
    book.moving(&last, &[0, 3]);
}
