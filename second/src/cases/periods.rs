//! Cases on the period as it stands.

use super::{refused, sounds, Book};
use crate::known;
use crate::random::Random;
use crate::shapes;

pub fn cases(book: &mut Book, rng: &mut Random) {
    for sheet in [
        known::ring(),
        known::correlator(),
        known::filter(),
        known::host_alone(),
        known::parallel_pair(),
        known::detour(),
        known::forced_ring(),
        // No permitted lags, which the period does not ask for.
        known::ring_limited((1, 1), (-2, 0)),
        known::sheet(&[0, 4], &[]),
        known::sheet(&[0, 10_000], &[]),
        // Through the host, and where a register cuts the longest path.
        known::sheet(&[0, 3, 5], &[(1, 0, 0), (0, 2, 0), (2, 1, 1)]),
        known::sheet(&[0, 3, 5], &[(1, 0, 1), (0, 2, 0), (2, 1, 1)]),
        known::sheet(&[0, 3, 5], &[(1, 2, 1), (1, 2, 0), (1, 2, 2)]),
        known::sheet(&[0, 3, 5], &[(1, 1, 1), (2, 2, 2_000)]),
    ] {
        book.period(&sheet.bytes());
    }
    for bytes in refused::headers().iter().chain(&refused::entries(rng)) {
        book.period(bytes);
    }
    for n in 1..=7 {
        for (most, delay) in [(0, 9), (1, 9), (2, 10_000)] {
            for sheet in sounds::shapes_of(rng, n, most, delay) {
                book.period(&sheet.bytes());
            }
        }
    }
    full_size(book, rng);
}

fn full_size(book: &mut Book, rng: &mut Random) {
    let mut longest = shapes::chain(rng, 64, 0, 0, true);
    for block in &mut longest.blocks[1..] {
        block.delay = 10_000;
    }
    book.period(&longest.bytes());
    book.period(&shapes::connected(rng, 64, 256, 1, 10_000).bytes());
    book.period(&shapes::layers(rng, 64, 256, 4, 0, 9_999).bytes());
    book.period(&shapes::planted(rng, 64, 250, &[63, 20, 41]).bytes());
}
