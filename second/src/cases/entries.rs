//! Cases on every limit of blocks and wires, at first, middle and last places and combined.

use super::Book;
use crate::known::{block, wire};
use crate::random::Random;
use crate::shapes;
use crate::sheet::{Block, Sheet, Wire};

pub fn cases(book: &mut Book, rng: &mut Random) {
    block_limits(book, rng);
    wire_limits(book, rng);
    combined(book, rng);
}

/// Blocks at each limit and one past it, sound ones among them.
fn edge_blocks() -> Vec<Block> {
    let mut edges = Vec::new();
    for delay in [0, 1, 9_999, 10_000, 10_001, 65_535, 65_536, 75_536, 1 << 24, 1 << 31, u32::MAX] {
        edges.push(block(delay, 0, 0));
    }
    let ranges = [
        (-1000, -1000), (-1000, 0), (-1000, -1), (0, 1000), (1000, 1000), (1, 1000), (-500, 500), (0, 1), (-1, 0),
        (-1001, -1001), (-1001, -1000), (-1001, 0), (-1001, -1), (1001, 1001), (1000, 1001), (1, 1001), (0, 1001),
        (-500, 501), (-501, 500), (-1000, 1), (-1, 1000), (-1000, 1000), (1, 0), (0, -1), (2, -2), (1000, -1000),
        (1000, 999), (-999, -1000), (i16::MIN, i16::MIN), (i16::MIN, i16::MAX), (i16::MAX, i16::MIN),
        (i16::MAX, i16::MAX), (i16::MIN, 0), (0, i16::MAX), (0, i16::MIN), (i16::MAX, 0), (-32_000, 32_000),
    ];
    for (lower, upper) in ranges {
        edges.push(block(7, lower, upper));
    }
    edges.push(block(10_000, -1000, 0));
    edges.push(block(10_001, -1001, 1001));
    edges
}

fn edge_wires(n: usize) -> Vec<Wire> {
    let last = n - 1;
    let mut edges: Vec<Wire> = [1, 2, 1_999, 2_000, 2_001, 2_048, 4_096, 32_767, 32_768, 65_535]
        .iter()
        .map(|&registers| wire(0, last, registers))
        .collect();
    let ends = [
        (last, 0), (0, last), (last, last), (n, 0), (0, n), (n, n), (65_535, 0), (0, 65_535), (65_535, 65_535),
        (256, 0), (0, 256), (n + 1, 0), (64, 1), (1, 64), (32_768, 0), (0, 32_768),
    ];
    for (from, to) in ends {
        edges.push(wire(from, to, 1));
    }
    for spare in [1, 2, 256, 32_768, 65_535] {
        edges.push(Wire { spare, ..wire(0, last, 1) });
    }
    edges.push(Wire { spare: 1, ..wire(n, n, 2_001) });
    edges
}

fn block_limits(book: &mut Book, rng: &mut Random) {
    let base = shapes::connected(rng, 5, 6, 2, 9);
    for edge in edge_blocks() {
        for at in [0, 1, 2, 4] {
            let mut sheet = base.clone();
            sheet.blocks[at] = edge;
            if at == 2 {
                book.either(&sheet.bytes());
            } else {
                book.both(&sheet.bytes());
            }
        }
        // The host alone obeys both rules.
        book.either(&Sheet { blocks: vec![edge], wires: vec![] }.bytes());
    }
    let wide = shapes::chain(rng, 64, 1, 9, false);
    for edge in [block(10_001, 0, 0), block(0, -500, 501), block(0, 1, 0), block(0, 0, 1001), block(0, -1001, 0)] {
        for at in [0, 1, 31, 62, 63] {
            let mut sheet = wide.clone();
            sheet.wires.truncate(3);
            sheet.blocks[at] = edge;
            book.either(&sheet.bytes());
        }
    }
    // The first of several bad blocks is named.
    for _ in 0..40 {
        let n = 3 + rng.below(8);
        let mut sheet = shapes::sound(rng, n, 4, 2, 9);
        for _ in 0..2 + rng.below(3) {
            let at = rng.below(n);
            sheet.blocks[at] = rng.pick(&edge_blocks());
        }
        book.either(&sheet.bytes());
    }
}

fn wire_limits(book: &mut Book, rng: &mut Random) {
    let base = shapes::connected(rng, 5, 5, 2, 9);
    for edge in edge_wires(5) {
        for at in [0, 2, 4] {
            let mut sheet = base.clone();
            sheet.wires[at] = edge;
            book.both(&sheet.bytes());
        }
    }
    for edge in edge_wires(1) {
        book.either(&Sheet { blocks: vec![block(0, 0, 0)], wires: vec![edge] }.bytes());
    }
    for edge in edge_wires(64) {
        let mut sheet = shapes::chain(rng, 64, 1, 9, true);
        sheet.wires.truncate(2);
        sheet.wires.push(edge);
        book.check(&sheet.bytes());
    }
    let many = shapes::connected(rng, 2, 256, 2, 9);
    let far = [wire(2, 0, 1), wire(0, 2, 1), wire(0, 1, 2_001), Wire { spare: 1, ..wire(0, 1, 1) }];
    for (i, edge) in far.into_iter().enumerate() {
        for at in [127 + i, 255] {
            let mut sheet = many.clone();
            sheet.wires[at] = edge;
            book.either(&sheet.bytes());
        }
    }
    for _ in 0..60 {
        let n = 2 + rng.below(6);
        let m = 3 + rng.below(6);
        let mut sheet = shapes::sound(rng, n, m, 2, 9);
        for _ in 0..2 + rng.below(3) {
            let at = rng.below(m);
            sheet.wires[at] = rng.pick(&edge_wires(n));
        }
        book.either(&sheet.bytes());
    }
}

/// Any mixture of a wrong header, short lists, bad blocks, bad wires and a loop.
fn combined(book: &mut Book, rng: &mut Random) {
    let bad_blocks = [block(10_001, 0, 0), block(1, 1, 0), block(1, -500, 501), block(1, -1001, -1001), block(u32::MAX, 1, 1)];
    for round in 0..420 {
        let n = 2 + rng.below(6);
        let m = 3 + rng.below(6);
        let mut sheet = shapes::sound(rng, n, m, 2, 9);
        // The low bits of the round choose the faults, so that every set occurs.
        if round & 1 != 0 {
            let at = rng.below(n);
            sheet.blocks[at] = rng.pick(&bad_blocks);
        }
        if round & 2 != 0 {
            let bad = [wire(n, 0, 0), wire(0, n, 0), wire(0, 0, 2_001), Wire { spare: 1, ..wire(0, 0, 1) }];
            let at = rng.below(m);
            sheet.wires[at] = rng.pick(&bad);
        }
        if round & 4 != 0 {
            let at = rng.below(n);
            let next = (at + 1) % n;
            sheet.wires.push(wire(at, next, 0));
            sheet.wires.push(wire(next, at, 0));
        }
        let mut bytes = sheet.bytes();
        if round & 8 != 0 && round & 16 != 0 {
            match rng.below(4) {
                0 => bytes[0] = rng.pick(&[0, 65, 255]),
                1 => bytes[3] = 2,
                2 => bytes[rng.pick(&[4, 8, 12])] ^= 4,
                _ => bytes.truncate(15 + rng.below(3)),
            }
        }
        let full = n * n;
        let lists = match round / 32 % 4 {
            0 => (full, full),
            1 => (full, rng.below(full)),
            2 => (rng.below(full), full),
            _ => (rng.below(full), rng.below(full)),
        };
        if rng.chance(75) {
            book.table(&bytes, lists.0, lists.1);
        } else {
            book.check(&bytes);
        }
    }
}
