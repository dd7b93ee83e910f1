//! Sheets that every question refuses: each fault at each kind of place, and faults together.

use crate::known::{self, block, wire};
use crate::random::Random;
use crate::shapes;
use crate::sheet::{Sheet, Wire};

/// The ring with one byte of its header changed, cut short or grown: refusals 1, 2 and 3.
pub fn headers() -> Vec<Vec<u8>> {
    let ring = known::ring().bytes();
    let mut refused = Vec::new();
    for length in [0, 1, 2, 8, 15, 16, 17, 79, 81, 88] {
        let mut bytes = ring.clone();
        bytes.resize(length, 0);
        refused.push(bytes);
    }
    let changes = [
        (0, 0), (0, 65), (0, 3), (0, 5), (1, 1), (2, 3), (2, 5), (3, 1), (3, 2), (4, 17), (5, 1), (8, 40), (8, 56), (12, 88), (15, 1),
    ];
    for (at, value) in changes {
        let mut bytes = ring.clone();
        bytes[at] = value;
        refused.push(bytes);
    }
    refused.push(vec![0; 16]);
    refused.push(vec![255; 24]);
    refused
}

/// Every set of a bad block, a bad wire and a register-free loop, each at first, middle and last places.
pub fn entries(rng: &mut Random) -> Vec<Vec<u8>> {
    let bad_blocks = [block(10_001, 0, 0), block(1, 1, 0), block(1, -500, 501), block(1, -1_001, -1_001), block(1, 1_000, 1_001)];
    let mut refused = Vec::new();
    for round in 0..84 {
        let n = 2 + rng.below(4);
        let m = 1 + rng.below(5);
        let mut sheet = shapes::sound(rng, n, m, 2, 9);
        let faults = 1 + round % 7;
        let at = [0, n - 1, rng.below(n)][round / 7 % 3];
        if faults & 1 != 0 {
            sheet.blocks[at] = rng.pick(&bad_blocks);
        }
        if faults & 4 != 0 {
            let next = (at + 1) % n;
            sheet.wires.push(wire(at, next, 0));
            sheet.wires.push(wire(next, at, 0));
        }
        if faults & 2 != 0 {
            let bad = [wire(n, 0, 0), wire(0, n, 0), wire(0, 0, 2_001), Wire { spare: 1, ..wire(0, 0, 1) }];
            let last = sheet.wires.len() - 1;
            let at = [0, last, rng.below(last + 1)][round / 7 % 3];
            sheet.wires[at] = rng.pick(&bad);
        }
        refused.push(sheet.bytes());
    }
    // The host's own rule.
    for bad in [block(1, 0, 0), block(0, -1, 0), block(0, 0, 1), block(0, 1, 1), block(0, -1, -1)] {
        refused.push(Sheet { blocks: vec![bad], wires: vec![] }.bytes());
    }
    // The smallest block on any loop, not on the first found.
    for (one, two) in [(4, 1), (1, 4), (3, 2), (5, 0)] {
        refused.push(known::sheet(&[0; 6], &[(one, one, 0), (1, 2, 1), (two, two, 0)]).bytes());
    }
    refused.push(known::sheet(&[0; 6], &[(1, 4, 0), (4, 5, 0), (5, 4, 0), (5, 2, 0), (2, 3, 0), (3, 2, 0)]).bytes());
    refused
}
