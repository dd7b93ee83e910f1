//! The cases, kind by kind; each kind has its own seed, so that one can grow without changing the others.

mod entries;
mod frames;
mod lags;
mod links;
mod lists;
mod loops;
mod moves;
mod periods;
mod refused;
mod sounds;
pub mod wild;

use crate::questions::loop_room;
use crate::random::Random;
use crate::record::{Case, MOST_ENTRIES};
use crate::sheet::Sheet;
use std::collections::HashSet;

/// The cases written so far.
pub struct Book {
    pub cases: Vec<Case>,
    rng: Random,
}

/// The square of the block count that these bytes name, as far as a list can be that long.
fn square(sheet: &[u8]) -> usize {
    if sheet.len() < 2 {
        return 0;
    }
    let n = u16::from_le_bytes([sheet[0], sheet[1]]) as usize;
    (n * n).min(MOST_ENTRIES)
}

impl Book {
    fn check(&mut self, sheet: &[u8]) {
        self.cases.push(Case::check(sheet.to_vec()));
    }

    fn table(&mut self, sheet: &[u8], a: usize, b: usize) {
        self.cases.push(Case::table(sheet.to_vec(), a, b));
    }

    /// The table with lists long enough, sometimes a little longer.
    fn roomy(&mut self, sheet: &[u8]) {
        let need = square(sheet);
        let mut more = [0; 2];
        for m in more.iter_mut() {
            if self.rng.chance(30) {
                *m = self.rng.below(4);
            }
        }
        self.table(sheet, (need + more[0]).min(MOST_ENTRIES), (need + more[1]).min(MOST_ENTRIES));
    }

    fn both(&mut self, sheet: &[u8]) {
        self.check(sheet);
        self.roomy(sheet);
    }

    /// The move with a list that the sheet just fills, or sometimes a little longer.
    fn moving(&mut self, sheet: &Sheet, lags: &[i16]) {
        let bytes = sheet.bytes();
        let more = if self.rng.chance(30) { self.rng.below(4) } else { 0 };
        self.moving_into(&bytes, lags, bytes.len() + more);
    }

    fn moving_into(&mut self, sheet: &[u8], lags: &[i16], room: usize) {
        self.cases.push(Case::moving(sheet.to_vec(), lags, room));
    }

    fn a_loop(&mut self, sheet: &Sheet, c: u32, words: &[u16]) {
        self.loop_bytes(&sheet.bytes(), c, words);
    }

    fn loop_bytes(&mut self, sheet: &[u8], c: u32, words: &[u16]) {
        self.cases.push(Case::a_loop(sheet.to_vec(), c, words));
    }

    fn period(&mut self, sheet: &[u8]) {
        self.cases.push(Case::period(sheet.to_vec()));
    }

    /// Lengths that suit the lag questions, sometimes a little longer.
    fn lag_room(&mut self, n: usize) -> (usize, usize) {
        let mut more = || if self.rng.chance(30) { self.rng.below(4) } else { 0 };
        (n + more(), loop_room(n) + more())
    }

    fn lags_at(&mut self, sheet: &Sheet, c: u32) {
        let (a, b) = self.lag_room(sheet.n());
        self.lags_lent(&sheet.bytes(), c, a, b);
    }

    fn lags_lent(&mut self, sheet: &[u8], c: u32, a: usize, b: usize) {
        self.cases.push(Case::lags_at(sheet.to_vec(), c, a, b));
    }

    fn best(&mut self, sheet: &Sheet) {
        let (a, b) = self.lag_room(sheet.n());
        self.best_lent(&sheet.bytes(), a, b);
    }

    fn best_lent(&mut self, sheet: &[u8], a: usize, b: usize) {
        self.cases.push(Case::best(sheet.to_vec(), a, b));
    }

    /// Check or path table, for kinds with many sheets.
    fn either(&mut self, sheet: &[u8]) {
        if self.rng.chance(50) {
            self.check(sheet);
        } else {
            self.roomy(sheet);
        }
    }
}

pub fn all() -> Vec<Case> {
    let mut book = Book { cases: Vec::new(), rng: Random::new(1) };
    let kinds: [fn(&mut Book, &mut Random); 9] = [
        frames::cases,
        entries::cases,
        lists::cases,
        loops::cases,
        sounds::cases,
        moves::cases,
        links::cases,
        periods::cases,
        lags::cases,
    ];
    for (i, kind) in kinds.iter().enumerate() {
        book.rng = Random::new(1_000 + i as u64);
        kind(&mut book, &mut Random::new(2_000 + i as u64));
    }
    // A case that repeats another word for word tells nothing more.
    let mut seen = HashSet::new();
    book.cases.retain(|case| seen.insert(case.clone()));
    book.cases
}

#[cfg(test)]
mod tests {
    use super::*;
    use crate::record::BEFORE;

    #[test]
    fn every_answer_occurs() {
        let mut seen = [[0usize; 13]; 8];
        let mut size = 0;
        let mut text = String::new();
        for case in all() {
            let mut bytes = Vec::new();
            case.write(&mut bytes);
            size += bytes.len();
            seen[case.question as usize][case.expect(&mut text).number as usize] += 1;
        }
        assert!(size <= 2_000_000);
        assert!(text.len() <= 3_000_000);
        assert!(!text.contains("changed"));
        // No answer can look like an untouched entry.
        assert!(!text.contains(&format!(" {BEFORE} ")));
        for number in [0, 1, 2, 3, 5, 6, 7] {
            assert!(seen[1][number] >= 30, "check answers {number}");
        }
        for number in [0, 1, 2, 3, 5, 6, 7] {
            assert!(seen[2][number] >= 4, "period answers {number}");
        }
        for number in 0..8 {
            assert!(seen[3][number] >= 30, "table answers {number}");
        }
        for number in 0..10 {
            assert!(seen[4][number] >= 8, "move answers {number}");
        }
        for number in [0, 1, 2, 3, 4, 5, 6, 7, 10, 11] {
            assert!(seen[5][number] >= 8, "lags at a period answers {number}");
        }
        for number in [0, 1, 2, 3, 4, 5, 6, 7, 10] {
            assert!(seen[6][number] >= 8, "best answers {number}");
        }
        for number in [0, 1, 2, 3, 5, 6, 7, 12] {
            assert!(seen[7][number] >= 4, "the loop check answers {number}");
        }
        assert_eq!((seen[1][4], seen[2][4], seen[7][4]), (0, 0, 0));
        assert_eq!(seen[6][11], 0);
    }
}
