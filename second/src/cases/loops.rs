//! Cases on register-free loops: where they lie, how they are reached, which block is named.

use super::Book;
use crate::known::sheet;
use crate::random::Random;
use crate::shapes;

pub fn cases(book: &mut Book, rng: &mut Random) {
    by_hand(book);
    planted(book, rng);
    random(book, rng);
    large(book, rng);
}

fn by_hand(book: &mut Book) {
    let kinds: &[(usize, &[(usize, usize, u16)])] = &[
        // Wires back to their own block, at the first, a middle and the last block.
        (1, &[(0, 0, 0)]),
        (1, &[(0, 0, 1), (0, 0, 0)]),
        (1, &[(0, 0, 1)]),
        (5, &[(2, 2, 0)]),
        (5, &[(4, 4, 0)]),
        (5, &[(4, 4, 0), (2, 2, 0)]),
        (5, &[(4, 4, 1), (2, 2, 2_000)]),
        // Two blocks.
        (2, &[(0, 1, 0), (1, 0, 0)]),
        (2, &[(0, 1, 0), (1, 0, 1)]),
        (5, &[(3, 4, 0), (4, 3, 0)]),
        (5, &[(4, 3, 0), (3, 4, 0)]),
        // Parallel wires: one without registers is enough, one with hides nothing.
        (2, &[(0, 1, 0), (1, 0, 1), (1, 0, 0)]),
        (2, &[(0, 1, 0), (1, 0, 0), (1, 0, 1)]),
        (2, &[(0, 1, 2), (0, 1, 1), (1, 0, 0)]),
        (3, &[(1, 2, 5), (1, 2, 0), (2, 1, 3), (2, 1, 0)]),
        (3, &[(1, 2, 5), (1, 2, 0), (2, 1, 3), (2, 1, 1)]),
        // Blocks that reach a loop, or are reached by one, lie on none.
        (6, &[(0, 1, 0), (1, 2, 0), (2, 3, 0), (3, 4, 0), (4, 3, 0)]),
        (6, &[(4, 3, 0), (3, 4, 0), (3, 2, 0), (2, 1, 0), (1, 0, 0)]),
        (6, &[(0, 1, 0), (1, 4, 0), (4, 5, 0), (5, 4, 0), (4, 2, 0), (2, 3, 0)]),
        // The first loop by wire order has no smallest block.
        (6, &[(4, 5, 0), (5, 4, 0), (1, 2, 0), (2, 1, 0)]),
        (6, &[(0, 4, 0), (4, 5, 0), (5, 4, 0), (5, 3, 0), (3, 2, 0), (2, 3, 0)]),
        (7, &[(0, 6, 0), (6, 5, 0), (5, 6, 0), (0, 3, 0), (3, 4, 0), (4, 1, 0), (1, 3, 0)]),
        (7, &[(1, 6, 0), (6, 6, 0), (6, 2, 0), (2, 5, 0), (5, 2, 0)]),
        // One wire belongs to a small and a large loop.
        (6, &[(3, 4, 0), (4, 3, 0), (4, 5, 0), (5, 1, 0), (1, 3, 0)]),
        (6, &[(5, 4, 0), (4, 5, 0), (4, 3, 0), (3, 2, 0), (2, 4, 0)]),
        // Two loops share a block, so a closed path passes it twice.
        (6, &[(3, 5, 0), (5, 3, 0), (5, 2, 0), (2, 5, 0)]),
        (6, &[(3, 5, 0), (5, 3, 0), (5, 4, 0), (4, 1, 0), (1, 5, 0)]),
        (7, &[(6, 5, 0), (5, 6, 0), (5, 4, 0), (4, 5, 0), (4, 3, 0), (3, 4, 0), (3, 2, 0), (2, 3, 0)]),
        // The return is longer than the way there.
        (7, &[(1, 2, 0), (2, 3, 0), (3, 4, 0), (4, 5, 0), (5, 6, 0), (6, 1, 0)]),
        (7, &[(6, 5, 0), (5, 4, 0), (4, 3, 0), (3, 2, 0), (2, 1, 0), (1, 6, 0)]),
        (7, &[(6, 1, 0), (5, 6, 0), (4, 5, 0), (3, 4, 0), (2, 3, 0), (1, 2, 0)]),
        // A short way round has a register, the long one none.
        (6, &[(1, 2, 0), (2, 1, 1), (2, 3, 0), (3, 4, 0), (4, 1, 0)]),
        (6, &[(2, 1, 1), (1, 2, 0), (2, 3, 0), (3, 4, 0), (4, 1, 1)]),
        (6, &[(5, 0, 0), (0, 5, 1), (5, 3, 0), (3, 0, 0), (0, 4, 0), (4, 5, 0)]),
        // The loop through the host counts as any other.
        (4, &[(0, 1, 0), (1, 2, 0), (2, 3, 0), (3, 0, 0)]),
        (4, &[(3, 0, 0), (2, 3, 0), (1, 2, 0), (0, 1, 0)]),
        (4, &[(3, 0, 0), (0, 3, 0), (1, 2, 0), (2, 1, 0)]),
        (4, &[(1, 2, 0), (2, 1, 0), (3, 0, 0), (0, 3, 1)]),
        // Many register-free wires and no loop.
        (5, &[(0, 1, 0), (0, 2, 0), (0, 3, 0), (1, 3, 0), (2, 3, 0), (1, 4, 0), (3, 4, 0)]),
        (5, &[(4, 3, 0), (4, 2, 0), (3, 1, 0), (2, 1, 0), (1, 0, 0), (0, 4, 1)]),
    ];
    for (n, wires) in kinds {
        let mut delays = vec![1; *n];
        delays[0] = 0;
        let mut sheet = sheet(&delays, wires);
        book.both(&sheet.bytes());
        // The answer does not depend on the order of the wires.
        sheet.wires.reverse();
        book.both(&sheet.bytes());
    }
}

fn planted(book: &mut Book, rng: &mut Random) {
    for _ in 0..220 {
        let n = 2 + rng.below(9);
        let m = rng.below(10);
        let length = 1 + rng.below(n);
        let mut blocks: Vec<usize> = (0..n).collect();
        rng.shuffle(&mut blocks);
        book.either(&shapes::planted(rng, n, m, &blocks[..length]).bytes());
    }
    // The smallest block of the loop is a given one.
    for n in [3, 8, 12] {
        for least in 0..n {
            let mut blocks: Vec<usize> = (least..n).collect();
            rng.shuffle(&mut blocks);
            let keep = 1 + rng.below(blocks.len());
            let at = blocks.iter().position(|&b| b == least).expect("the least is there");
            blocks.swap(0, at);
            book.either(&shapes::planted(rng, n, 2, &blocks[..keep]).bytes());
        }
    }
}

/// Few registers on random wires: about half of these have a loop.
fn random(book: &mut Book, rng: &mut Random) {
    for round in 0..260 {
        let n = 2 + rng.below(8);
        let m = n / 2 + rng.below(n + 3);
        book.either(&shapes::any(rng, n, m, 2 + round % 2).bytes());
    }
}

fn large(book: &mut Book, rng: &mut Random) {
    // One long ring without registers over all blocks, over all but the first, and its last part.
    for first in [0, 1, 62, 63] {
        let through: Vec<usize> = (first..64).collect();
        book.either(&shapes::planted(rng, 64, 0, &through).bytes());
        let backwards: Vec<usize> = (first..64).rev().collect();
        book.either(&shapes::planted(rng, 64, 20, &backwards).bytes());
    }
    // The full number of wires, the last of which closes the loop.
    for _ in 0..2 {
        let mut sheet = shapes::connected(rng, 64, 254, 3, 9);
        let (u, v) = (rng.below(64), rng.below(64));
        sheet.wires.push(crate::known::wire(u, v, 0));
        sheet.wires.push(crate::known::wire(v, u, 0));
        book.either(&sheet.bytes());
    }
}
