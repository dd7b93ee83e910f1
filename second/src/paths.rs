//! Paths of a sound sheet: register-free loops by bit rows, the path table by Floyd and Warshall, the period.

use crate::sheet::Sheet;

pub const NO_PATH: (u32, u32) = (u32::MAX, 0);

/// The smallest block that reaches itself over register-free wires.
pub fn smallest_loop_block(sheet: &Sheet) -> Option<usize> {
    let n = sheet.n();
    let mut reach = vec![0u64; n];
    for w in sheet.wires.iter().filter(|w| w.registers == 0) {
        reach[w.from as usize] |= 1 << w.to;
    }
    // Transitive closure: whoever reaches k reaches all that k reaches.
    for k in 0..n {
        let through = reach[k];
        for row in reach.iter_mut() {
            if *row >> k & 1 == 1 {
                *row |= through;
            }
        }
    }
    (0..n).find(|&i| reach[i] >> i & 1 == 1)
}

/// Fewest registers and, among paths with that many, the largest delay; row by row.
pub struct Table {
    pub n: usize,
    entries: Vec<(u32, u32)>,
}

impl Table {
    pub fn at(&self, u: usize, v: usize) -> (u32, u32) {
        self.entries[u * self.n + v]
    }
}

fn better(new: (u32, u32), old: (u32, u32)) -> bool {
    new.0 < old.0 || (new.0 == old.0 && new.1 > old.1)
}

/// Every closed path must have a register, else no entry would be the largest.
pub fn table(sheet: &Sheet) -> Table {
    let n = sheet.n();
    let mut entries = vec![NO_PATH; n * n];
    for (u, block) in sheet.blocks.iter().enumerate() {
        entries[u * n + u] = (0, block.delay);
    }
    for w in &sheet.wires {
        let (u, v) = (w.from as usize, w.to as usize);
        let direct = (w.registers as u32, sheet.blocks[u].delay + sheet.blocks[v].delay);
        // A wire back to its own block has a register and never beats the block alone.
        if better(direct, entries[u * n + v]) {
            entries[u * n + v] = direct;
        }
    }
    for k in 0..n {
        for u in 0..n {
            let first = entries[u * n + k];
            if first == NO_PATH {
                continue;
            }
            for v in 0..n {
                let second = entries[k * n + v];
                if second == NO_PATH {
                    continue;
                }
                // Both parts count k, the joined path passes it once.
                let joined = (first.0 + second.0, first.1 + second.1 - sheet.blocks[k].delay);
                if better(joined, entries[u * n + v]) {
                    entries[u * n + v] = joined;
                }
            }
        }
    }
    Table { n, entries }
}

/// The largest delay of a register-free path, taking blocks away once nothing register-free leads to them.
pub fn period(sheet: &Sheet) -> u32 {
    let n = sheet.n();
    let free = || sheet.wires.iter().filter(|w| w.registers == 0);
    let mut waiting = vec![0; n];
    for w in free() {
        waiting[w.to as usize] += 1;
    }
    let mut longest: Vec<u32> = sheet.blocks.iter().map(|b| b.delay).collect();
    let mut ready: Vec<usize> = (0..n).filter(|&b| waiting[b] == 0).collect();
    while let Some(u) = ready.pop() {
        for w in free().filter(|w| w.from as usize == u) {
            let v = w.to as usize;
            longest[v] = longest[v].max(longest[u] + sheet.blocks[v].delay);
            waiting[v] -= 1;
            if waiting[v] == 0 {
                ready.push(v);
            }
        }
    }
    longest.into_iter().max().unwrap_or(0)
}

#[cfg(test)]
mod tests {
    use super::*;
    use crate::known;
    use crate::random::Random;
    use crate::shapes;

    #[test]
    fn the_ring() {
        let t = table(&known::ring());
        assert_eq!(t.at(3, 1), (2, 8));
        assert_eq!(t.at(1, 0), (1, 12));
        assert_eq!(t.at(1, 3), (0, 12));
        assert_eq!(t.at(0, 0), (0, 0));
        assert_eq!(t.at(2, 1), (2, 12));
        assert_eq!(t.at(2, 2), (0, 4));
    }

    #[test]
    fn the_correlator() {
        let t = table(&known::correlator());
        // 4, 5, 6, 7 without a register, on to the host, and from there into 1.
        assert_eq!(t.at(4, 7), (0, 24));
        assert_eq!(t.at(4, 0), (0, 24));
        assert_eq!(t.at(4, 1), (1, 27));
        // From 1 the direct wire to 7 has no register, every other way has one.
        assert_eq!(t.at(1, 7), (0, 10));
        assert_eq!(t.at(1, 6), (1, 13));
        assert_eq!(t.at(1, 5), (2, 16));
        assert_eq!(t.at(2, 0), (0, 17));
        assert_eq!(t.at(2, 1), (1, 20));
        // From 3 to 5 the way over 4 has a register, the direct wire has none.
        assert_eq!(t.at(3, 5), (0, 10));
        assert_eq!(t.at(3, 7), (0, 24));
        assert_eq!(t.at(0, 4), (4, 12));
        assert_eq!(t.at(7, 6), (2, 20));
        assert_eq!(t.at(5, 5), (0, 7));
    }

    #[test]
    fn the_filter() {
        // Document 003's tables; its printed 1 to 4 has 3 registers, but the wire has 2.
        let registers = [[0, 1, 1, 2], [1, 0, 2, 3], [1, 0, 0, 3], [1, 0, 2, 0]];
        let delays = [[1, 4, 3, 3], [2, 1, 4, 4], [4, 3, 2, 6], [4, 3, 6, 2]];
        let t = table(&known::filter());
        for u in 0..4 {
            for v in 0..4 {
                assert_eq!(t.at(u + 1, v + 1), (registers[u][v], delays[u][v]), "{u} {v}");
            }
            assert_eq!(t.at(0, u + 1), NO_PATH);
            assert_eq!(t.at(u + 1, 0), NO_PATH);
        }
        assert_eq!(t.at(0, 0), (0, 0));
    }

    #[test]
    fn loops_of_the_known_sheets() {
        assert_eq!(smallest_loop_block(&known::ring()), None);
        assert_eq!(smallest_loop_block(&known::correlator()), None);
        assert_eq!(smallest_loop_block(&known::filter()), None);
        // 1 reaches a loop but lies on none; the first loop by wire order is not the smallest.
        let s = known::sheet(&[0; 6], &[(1, 4, 0), (4, 5, 0), (5, 4, 0), (5, 2, 0), (2, 3, 0), (3, 2, 0)]);
        assert_eq!(smallest_loop_block(&s), Some(2));
        let own = known::sheet(&[0; 3], &[(2, 2, 0), (1, 1, 1)]);
        assert_eq!(smallest_loop_block(&own), Some(2));
    }

    #[test]
    fn periods_by_the_table() {
        assert_eq!(period(&known::ring()), 12);
        assert_eq!(period(&known::correlator()), 24);
        assert_eq!(period(&known::filter()), 3);
        assert_eq!(period(&known::host_alone()), 0);
        // The single block counts, also without any wire.
        assert_eq!(period(&known::sheet(&[0, 4], &[])), 4);
        let mut rng = Random::new(79);
        for round in 0..300 {
            let (n, m) = (1 + rng.below(64), rng.below(257));
            let s = shapes::sound(&mut rng, n, m, 1 + round % 4, 10_000);
            let free = table(&s).entries.iter().filter(|e| e.0 == 0).map(|e| e.1).max();
            assert_eq!(Some(period(&s)), free);
        }
    }

    // Follows every path that passes no block twice.
    fn follow(sheet: &Sheet, at: usize, seen: u64, so_far: (u32, u32), best: &mut [(u32, u32)]) {
        if better(so_far, best[at]) {
            best[at] = so_far;
        }
        for w in sheet.wires.iter().filter(|w| w.from as usize == at && seen >> w.to & 1 == 0) {
            let to = w.to as usize;
            let next = (so_far.0 + w.registers as u32, so_far.1 + sheet.blocks[to].delay);
            follow(sheet, to, seen | 1 << to, next, best);
        }
    }

    #[test]
    fn small_tables_by_following_every_path() {
        // A fewest-register path of a sound sheet passes no block twice.
        let mut rng = Random::new(77);
        for round in 0..600 {
            let n = 1 + rng.below(7);
            let m = rng.below(16);
            let s = shapes::sound(&mut rng, n, m, 1 + round % 3, 9);
            assert_eq!(smallest_loop_block(&s), None);
            let t = table(&s);
            for u in 0..n {
                let mut best = vec![NO_PATH; n];
                follow(&s, u, 1 << u, (0, s.blocks[u].delay), &mut best);
                for v in 0..n {
                    assert_eq!(t.at(u, v), best[v]);
                }
            }
        }
    }

    #[test]
    fn loops_by_walking() {
        // n steps over register-free wires find every return.
        let mut rng = Random::new(78);
        for _ in 0..600 {
            let n = 1 + rng.below(9);
            let m = rng.below(20);
            let s = shapes::any(&mut rng, n, m, 2);
            let returns = |b: usize| {
                let mut here: u64 = 1 << b;
                for _ in 0..n {
                    let mut next = 0u64;
                    for w in s.wires.iter().filter(|w| w.registers == 0 && here >> w.from & 1 == 1) {
                        next |= 1 << w.to;
                    }
                    if next >> b & 1 == 1 {
                        return true;
                    }
                    here = next;
                }
                false
            };
            assert_eq!(smallest_loop_block(&s), (0..n).find(|&b| returns(b)));
        }
    }
}
