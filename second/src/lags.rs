//! Lags that meet a period: all rules as one matrix over pairs of blocks, closed by Floyd and Warshall.

use crate::paths::{self, Table, NO_PATH};
use crate::sheet::{Sheet, MOST_REGISTERS};

/// No rule yet; two of them added are still far from the end of the numbers.
const NO_RULE: i64 = 1 << 40;

/// Entry a * n + b: lag(a) - lag(b) is at most this.
#[derive(Clone)]
struct Bounds {
    n: usize,
    most: Vec<i64>,
}

impl Bounds {
    fn new(n: usize) -> Bounds {
        let mut most = vec![NO_RULE; n * n];
        for b in 0..n {
            most[b * n + b] = 0;
        }
        Bounds { n, most }
    }

    fn add(&mut self, a: usize, b: usize, k: i64) {
        let entry = &mut self.most[a * self.n + b];
        *entry = k.min(*entry);
    }

    fn contradicts_itself(&self) -> bool {
        (0..self.n).any(|b| self.most[b * self.n + b] < 0)
    }

    /// The tightest bound that any chain of rules gives, or none where some block would be below itself.
    fn closed(mut self) -> Option<Bounds> {
        let n = self.n;
        for k in 0..n {
            // Asked before every block: a chain below itself would be passed again and again, and grow.
            if self.contradicts_itself() {
                return None;
            }
            for a in 0..n {
                let first = self.most[a * n + k];
                for b in 0..n {
                    let joined = first + self.most[k * n + b];
                    if joined < self.most[a * n + b] {
                        self.most[a * n + b] = joined;
                    }
                }
            }
        }
        (!self.contradicts_itself()).then_some(self)
    }

    /// For each block the largest lag, where the host's is 0.
    fn largest(&self) -> Vec<i16> {
        // A block's own limits join it to the host, so every bound is a lag.
        (0..self.n).map(|b| self.most[b * self.n] as i16).collect()
    }
}

/// The rules that make lags permitted.
fn permitted_rules(sheet: &Sheet) -> Bounds {
    let mut bounds = Bounds::new(sheet.n());
    for (i, block) in sheet.blocks.iter().enumerate() {
        bounds.add(i, 0, block.upper as i64);
        bounds.add(0, i, -(block.lower as i64));
    }
    for w in &sheet.wires {
        let (from, to, registers) = (w.from as usize, w.to as usize, w.registers as i64);
        bounds.add(from, to, registers);
        bounds.add(to, from, MOST_REGISTERS as i64 - registers);
    }
    bounds
}

/// A path slower than c keeps a register, the block alone too.
fn add_path_rules(bounds: &mut Bounds, table: &Table, c: u32) {
    for u in 0..table.n {
        for v in 0..table.n {
            let (registers, delay) = table.at(u, v);
            if (registers, delay) != NO_PATH && delay > c {
                bounds.add(u, v, registers as i64 - 1);
            }
        }
    }
}

/// The largest permitted lags, if there are any.
pub fn largest_permitted(sheet: &Sheet) -> Option<Vec<i16>> {
    permitted_rules(sheet).closed().map(|bounds| bounds.largest())
}

/// The largest permitted lags that meet c, if there are any.
pub fn largest_at(sheet: &Sheet, c: u32) -> Option<Vec<i16>> {
    let mut bounds = permitted_rules(sheet);
    add_path_rules(&mut bounds, &paths::table(sheet), c);
    bounds.closed().map(|bounds| bounds.largest())
}

/// Every delay of the table once, in ascending order.
pub fn delays(table: &Table) -> Vec<u32> {
    let mut delays: Vec<u32> = (0..table.n * table.n).map(|i| table.at(i / table.n, i % table.n).1).collect();
    delays.sort_unstable();
    delays.dedup();
    delays
}

/// The least period met by permitted lags, with the largest lags that meet it: the delays of the table in turn.
pub fn best(sheet: &Sheet) -> Option<(u32, Vec<i16>)> {
    let table = paths::table(sheet);
    let permitted = permitted_rules(sheet).closed()?;
    for c in delays(&table) {
        let mut bounds = permitted.clone();
        add_path_rules(&mut bounds, &table, c);
        if let Some(met) = bounds.closed() {
            return Some((c, met.largest()));
        }
    }
    unreachable!("permitted lags meet the largest delay of the table")
}

#[cfg(test)]
mod tests {
    use super::*;
    use crate::questions;
    use crate::random::Random;
    use crate::shapes;
    use crate::trial;

    /// Block by block the largest lag in any of the lists that meet c.
    fn largest_by_trying(all: &[(Vec<i16>, u32)], c: u32) -> Option<Vec<i16>> {
        let mut meeting = all.iter().filter(|(_, period)| *period <= c).map(|(lags, _)| lags);
        let first = meeting.next()?.clone();
        Some(meeting.fold(first, |most, lags| most.iter().zip(lags).map(|(&a, &b)| a.max(b)).collect()))
    }

    #[test]
    fn lags_by_trying_every_list() {
        let mut rng = Random::new(83);
        let (mut met, mut missed, mut none) = (0, 0, 0);
        for _ in 0..3_000 {
            let sheet = trial::narrow(&mut rng);
            let all = trial::permitted(&sheet);
            assert_eq!(largest_permitted(&sheet), largest_by_trying(&all, u32::MAX));
            for c in (0..3).map(|_| rng.between(0, 30) as u32) {
                let largest = largest_by_trying(&all, c);
                assert_eq!(largest_at(&sheet, c), largest);
                let number = questions::lags_at(&sheet.bytes(), c, &mut [0; 4], 24).number;
                assert_eq!(number, if largest.is_some() { 0 } else if all.is_empty() { 10 } else { 11 });
                match largest {
                    // The largest lags block by block are a list that meets c itself.
                    Some(lags) => {
                        assert!(all.iter().any(|(tried, period)| *tried == lags && *period <= c));
                        met += 1;
                    }
                    None if all.is_empty() => none += 1,
                    None => missed += 1,
                }
            }
            let least = all.iter().map(|(_, period)| *period).min();
            let expected = least.map(|c| (c, largest_by_trying(&all, c).expect("some list meets it")));
            assert_eq!(best(&sheet), expected);
        }
        assert!(met > 1_000 && missed > 1_000 && none > 300);
    }

    #[test]
    fn every_smaller_delay_fails_and_every_larger_period_is_met() {
        let mut rng = Random::new(84);
        for _ in 0..150 {
            let (n, m) = (2 + rng.below(9), rng.below(24));
            let sheet = shapes::sound(&mut rng, n, m, 2, 99);
            let Some((least, lags)) = best(&sheet) else { continue };
            assert_eq!(largest_at(&sheet, least), Some(lags));
            for c in delays(&paths::table(&sheet)) {
                assert_eq!(largest_at(&sheet, c).is_some(), c >= least);
            }
            assert!(least == 0 || largest_at(&sheet, least - 1).is_none());
        }
    }
}
