//! Cases on the lengths of the two lists lent for a path table.

use super::Book;
use crate::known;
use crate::random::Random;
use crate::record::MOST_ENTRIES;
use crate::shapes;

pub fn cases(book: &mut Book, rng: &mut Random) {
    for n in 1..=8 {
        let sheet = shapes::connected(rng, n, n + 1, 2, 9).bytes();
        let lengths = [0, n * n - 1, n * n, n * n + 1, MOST_ENTRIES];
        for a in lengths {
            for b in lengths {
                book.table(&sheet, a, b);
            }
        }
        // Lengths that suit another count: one row, all but a row, twice the row.
        for (a, b) in [(n, n), (n * n - n, n * n), (n * n, n * n - n), (2 * n, n * n), (n * n, 2 * n), (1, 1)] {
            book.table(&sheet, a, b);
        }
    }
    for n in [13, 20, 33] {
        let sheet = shapes::connected(rng, n, n, 2, 9).bytes();
        for (a, b) in [(n * n - 1, n * n), (n * n, n * n - 1), (n * n - 1, n * n - 1), (0, n * n), (n * n, 0), (n * n, n * n + 1)] {
            book.table(&sheet, a, b);
        }
    }
    let full = shapes::connected(rng, 64, 64, 2, 9).bytes();
    for (a, b) in [(4095, 4096), (4096, 4095), (4095, 4095), (4095, 4200), (4097, 4100)] {
        book.table(&full, a, b);
    }
    for sheet in [known::ring(), known::correlator(), known::filter(), known::host_alone()] {
        let need = sheet.n() * sheet.n();
        for (a, b) in [(need, need), (need + 1, need + 2), (MOST_ENTRIES, MOST_ENTRIES), (need - 1, need), (need, need - 1)] {
            book.table(&sheet.bytes(), a, b);
        }
    }
    for _ in 0..80 {
        let n = 1 + rng.below(8);
        let sheet = shapes::sound(rng, n, n, 2, 9).bytes();
        let mut near = || (n * n + rng.below(4)).saturating_sub(2);
        let (a, b) = (near(), near());
        book.table(&sheet, a, b);
    }
}
