//! Sheets of many shapes: rings, chains, trees, parallel wires, random ones, with and without loops.

use crate::known::{block, wire};
use crate::random::Random;
use crate::sheet::{Block, Sheet, Wire};

/// A sound lag range; some exclude 0, some lie at the limits.
fn range(rng: &mut Random) -> (i16, i16) {
    match rng.below(8) {
        0 => (0, 0),
        1 => (-2, 2),
        2 => rng.pick(&[(-1000, 0), (0, 1000), (-500, 500), (1000, 1000), (-1000, -1000)]),
        3 => rng.pick(&[(1, 1), (-1, -1), (1, 3), (-3, -1)]),
        4 => (-1, 1),
        _ => {
            let lower = rng.between(-1000, 1000);
            let upper = rng.between(lower, (lower + 1000).min(1000));
            (lower as i16, upper as i16)
        }
    }
}

/// The host and n - 1 sound blocks with delays from 0 to `most`.
pub fn blocks(rng: &mut Random, n: usize, most: u32) -> Vec<Block> {
    (0..n)
        .map(|i| {
            let (lower, upper) = range(rng);
            let delay = rng.between(0, most as i64) as u32;
            if i == 0 { block(0, 0, 0) } else { block(delay, lower, upper) }
        })
        .collect()
}

fn order(rng: &mut Random, n: usize) -> Vec<usize> {
    let mut order: Vec<usize> = (0..n).collect();
    rng.shuffle(&mut order);
    order
}

// Wires against a fixed order of the blocks carry a register, so no loop is register-free.
fn guarded(rng: &mut Random, rank: &[usize], from: usize, to: usize, most: u16) -> Wire {
    let least = if rank[from] < rank[to] { 0 } else { 1 };
    wire(from, to, rng.between(least, most.max(1) as i64) as u16)
}

/// Any wires, made sound by an order of the blocks; some blocks may be unreachable.
pub fn sound(rng: &mut Random, n: usize, m: usize, most: u16, delay: u32) -> Sheet {
    let rank = order(rng, n);
    let blocks = blocks(rng, n, delay);
    let wires = (0..m)
        .map(|_| {
            let (from, to) = (rng.below(n), rng.below(n));
            guarded(rng, &rank, from, to, most)
        })
        .collect();
    Sheet { blocks, wires }
}

/// A sound sheet in which every block reaches every other; m is at least n.
pub fn connected(rng: &mut Random, n: usize, m: usize, most: u16, delay: u32) -> Sheet {
    let round = order(rng, n);
    let mut rank = vec![0; n];
    for (i, &b) in round.iter().enumerate() {
        rank[b] = i;
    }
    let mut sheet = Sheet { blocks: blocks(rng, n, delay), wires: Vec::new() };
    for i in 0..m {
        let (from, to) = if i < n {
            (round[i], round[(i + 1) % n])
        } else {
            (rng.below(n), rng.below(n))
        };
        let w = guarded(rng, &rank, from, to, most);
        sheet.wires.push(w);
    }
    rng.shuffle(&mut sheet.wires);
    sheet
}

/// Any wires with registers below `bound`; register-free loops are likely.
pub fn any(rng: &mut Random, n: usize, m: usize, bound: usize) -> Sheet {
    let blocks = blocks(rng, n, 9);
    let wires = (0..m)
        .map(|_| wire(rng.below(n), rng.below(n), rng.below(bound) as u16))
        .collect();
    Sheet { blocks, wires }
}

/// One wire to the next block and one from the last to the first; the wire `closing` has the register.
pub fn ring(rng: &mut Random, n: usize, closing: usize, delay: u32) -> Sheet {
    let wires = (0..n)
        .map(|i| wire(i, (i + 1) % n, if i == closing { 1 } else { 0 }))
        .collect();
    Sheet { blocks: blocks(rng, n, delay), wires }
}

/// 0 to 1 to 2 and on, with registers up to `most`, its wires in order or reversed.
pub fn chain(rng: &mut Random, n: usize, most: u16, delay: u32, reversed: bool) -> Sheet {
    let mut wires: Vec<Wire> = (1..n)
        .map(|i| wire(i - 1, i, rng.between(0, most as i64) as u16))
        .collect();
    if reversed {
        wires.reverse();
    }
    Sheet { blocks: blocks(rng, n, delay), wires }
}

/// Each block hangs below a smaller one; the wires lead away from the host or towards it.
pub fn tree(rng: &mut Random, n: usize, most: u16, delay: u32, away: bool) -> Sheet {
    let mut wires = Vec::new();
    for i in 1..n {
        let parent = rng.below(i);
        let registers = rng.between(0, most as i64) as u16;
        wires.push(if away { wire(parent, i, registers) } else { wire(i, parent, registers) });
    }
    rng.shuffle(&mut wires);
    Sheet { blocks: blocks(rng, n, delay), wires }
}

/// Layers of blocks, each wired to the next layer; many ways with equal registers, different delays.
pub fn layers(rng: &mut Random, n: usize, m: usize, width: usize, most: u16, delay: u32) -> Sheet {
    let mut wires = Vec::new();
    for _ in 0..m {
        let from = rng.below(n);
        let first = (from / width + 1) * width;
        // The last layer returns to the host over a register.
        if first >= n {
            wires.push(wire(from, 0, 1 + rng.below(most as usize + 1) as u16));
        } else {
            let to = first + rng.below(width.min(n - first));
            wires.push(wire(from, to, rng.between(0, most as i64) as u16));
        }
    }
    Sheet { blocks: blocks(rng, n, delay), wires }
}

/// Every wire of a connected sheet several times, with different registers.
pub fn parallel(rng: &mut Random, n: usize, copies: usize, most: u16, delay: u32) -> Sheet {
    let mut sheet = connected(rng, n, n, most, delay);
    for i in 0..n {
        for _ in 1..copies {
            let mut w = sheet.wires[i];
            // More registers than the first never makes a loop register-free.
            w.registers = (w.registers as i64 + rng.between(0, 2)) as u16;
            sheet.wires.push(w);
        }
    }
    rng.shuffle(&mut sheet.wires);
    sheet
}

/// The best ways between blocks lead through the host.
pub fn hub(rng: &mut Random, n: usize, delay: u32) -> Sheet {
    let mut wires = Vec::new();
    let half = n / 2;
    for i in 1..n {
        if i <= half {
            wires.push(wire(i, 0, 0));
        } else {
            wires.push(wire(0, i, rng.below(2) as u16));
            wires.push(wire(i, 1 + rng.below(half.max(1)), 1));
        }
    }
    for _ in 0..n / 2 {
        let (from, to) = (1 + rng.below(n - 1), 1 + rng.below(n - 1));
        wires.push(wire(from, to, 1 + rng.below(3) as u16));
    }
    rng.shuffle(&mut wires);
    Sheet { blocks: blocks(rng, n, delay), wires }
}

/// A sound sheet and a register-free loop through these blocks in this order, wires shuffled.
pub fn planted(rng: &mut Random, n: usize, m: usize, through: &[usize]) -> Sheet {
    let mut sheet = sound(rng, n, m, 2, 9);
    for (i, &from) in through.iter().enumerate() {
        sheet.wires.push(wire(from, through[(i + 1) % through.len()], 0));
    }
    rng.shuffle(&mut sheet.wires);
    sheet
}

/// Words of so many links that name blocks and wires of this sheet; they seldom form a chain.
pub fn words(rng: &mut Random, sheet: &Sheet, links: usize) -> Vec<u16> {
    let (n, m) = (sheet.blocks.len(), sheet.wires.len().max(1));
    let mut words = Vec::new();
    for _ in 0..links {
        let kind = rng.between(1, 5) as u16;
        words.push(kind);
        match kind {
            1 | 5 => words.push(rng.below(m) as u16),
            3 | 4 => words.push(rng.below(n) as u16),
            _ => {
                let count = rng.below(3);
                words.extend([rng.below(n) as u16, count as u16]);
                words.extend((0..count).map(|_| rng.below(m) as u16));
            }
        }
    }
    words
}

#[cfg(test)]
mod tests {
    use super::*;
    use crate::questions::{check, DONE};

    #[test]
    fn sound_shapes_are_sound() {
        let mut rng = Random::new(5);
        for n in 2..=64 {
            let m = n + rng.below(193);
            let width = 1 + rng.below(n);
            let closing = rng.below(n);
            let all = [
                sound(&mut rng, n, m, 2, 9),
                connected(&mut rng, n, m, 2_000, 10_000),
                ring(&mut rng, n, closing, 9),
                chain(&mut rng, n, 2_000, 10_000, true),
                tree(&mut rng, n, 2, 9, n % 2 == 0),
                layers(&mut rng, n, m, width, 2, 9),
                parallel(&mut rng, n, 3, 2, 9),
                hub(&mut rng, n, 9),
            ];
            for (i, s) in all.iter().enumerate() {
                assert_eq!(check(&s.bytes()), DONE, "shape {i}, {n} blocks");
            }
        }
    }

    #[test]
    fn planted_loops_are_found() {
        let mut rng = Random::new(6);
        for n in 2..=20 {
            let s = planted(&mut rng, n, n, &[n - 1]);
            assert_eq!(check(&s.bytes()).number, 7);
        }
    }
}
