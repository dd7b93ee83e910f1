//! Cases on lengths, counts, offsets and totals, on truncation, extension and damage.

use super::Book;
use crate::known;
use crate::random::Random;
use crate::shapes;
use crate::sheet::{total, wire_table};

pub fn cases(book: &mut Book, rng: &mut Random) {
    short_slices(book, rng);
    counts(book, rng);
    offsets(book, rng);
    slice_lengths(book, rng);
    random_bytes(book, rng);
    damaged_bytes(book, rng);
}

fn put16(bytes: &mut [u8], at: usize, value: u16) {
    bytes[at..at + 2].copy_from_slice(&value.to_le_bytes());
}

fn put32(bytes: &mut [u8], at: usize, value: u32) {
    bytes[at..at + 4].copy_from_slice(&value.to_le_bytes());
}

/// A header whose offsets and total suit its counts, without wrapping even for the largest.
fn header(n: usize, m: usize) -> Vec<u8> {
    let mut bytes = vec![0; 16];
    put16(&mut bytes, 0, n as u16);
    put16(&mut bytes, 2, m as u16);
    put32(&mut bytes, 4, 16);
    put32(&mut bytes, 8, wire_table(n) as u32);
    put32(&mut bytes, 12, total(n, m) as u32);
    bytes
}

fn short_slices(book: &mut Book, rng: &mut Random) {
    let ring = known::ring().bytes();
    let host = known::host_alone().bytes();
    for length in 0..=17 {
        for bytes in [ring[..length].to_vec(), host[..length].to_vec(), vec![0; length], vec![255; length]] {
            book.check(&bytes);
            // Short lists must not win over refusals 1, 2 and 3.
            let lists = rng.pick(&[(0, 0), (16, 16), (0, 16), (1, 0), (4200, 4200)]);
            book.table(&bytes, lists.0, lists.1);
        }
        book.both(&rng.bytes(length));
    }
}

fn counts(book: &mut Book, rng: &mut Random) {
    let bad = [
        (0, 0), (0, 1), (0, 4), (0, 256), (0, 257), (65, 0), (65, 1), (65, 256), (65, 257), (66, 4),
        (128, 0), (255, 255), (256, 4), (257, 0), (4096, 0), (32768, 1), (65535, 0), (65535, 65535),
        (1, 257), (64, 257), (4, 258), (4, 260), (1, 512), (4, 4096), (1, 32768), (1, 65535), (64, 65535),
    ];
    for (n, m) in bad {
        // The header alone, then with a body, then within a good sheet.
        let alone = header(n, m);
        book.both(&alone);
        book.table(&alone, 0, 0);
        if total(n, m) <= 640 || (m == 257 && n < 65) {
            let mut whole = alone.clone();
            whole.resize(total(n, m), 0);
            book.both(&whole);
            book.table(&whole, 0, 4200);
        }
        let mut ring = known::ring().bytes();
        put16(&mut ring, 0, n as u16);
        put16(&mut ring, 2, m as u16);
        book.either(&ring);
        let mut body = header(n, m);
        let extra = rng.below(60);
        body.extend(rng.bytes(extra));
        book.either(&body);
    }
    // The limits themselves, all entries zero: only wires from 0 to 0 without registers are refused.
    for (n, m) in [(1, 0), (1, 1), (2, 0), (63, 0), (64, 0), (64, 1), (1, 256), (2, 256)] {
        let mut whole = header(n, m);
        whole.resize(total(n, m), 0);
        book.both(&whole);
        book.table(&whole, 0, 0);
    }
    // Counts changed within a good sheet whose offsets stay.
    for base in [known::ring(), known::correlator(), known::filter()] {
        let good = base.bytes();
        let (n, m) = (base.blocks.len(), base.wires.len());
        for (dn, dm) in [(1, 0), (-1, 0), (0, 1), (0, -1), (1, -1), (-1, 1), (256, 0), (0, 256), (64, 0)] {
            let mut bytes = good.clone();
            put16(&mut bytes, 0, (n as i32 + dn) as u16);
            put16(&mut bytes, 2, (m as i32 + dm) as u16);
            book.both(&bytes);
            // With suitable offsets blocks are read as wires, or wires as blocks.
            if dn + dm == 0 {
                let head = header((n as i32 + dn) as usize, (m as i32 + dm) as usize);
                bytes[..16].copy_from_slice(&head);
                book.both(&bytes);
            }
        }
        let mut swapped = good.clone();
        put16(&mut swapped, 0, (n as u16).swap_bytes());
        put16(&mut swapped, 2, (m as u16).swap_bytes());
        book.both(&swapped);
    }
}

fn offsets(book: &mut Book, rng: &mut Random) {
    let bases = [
        known::host_alone().bytes(),
        known::ring().bytes(),
        known::parallel_pair().bytes(),
        shapes::sound(rng, 9, 12, 2, 9).bytes(),
    ];
    for good in &bases {
        let need = super::square(good);
        for at in [4, 8, 12] {
            let right = u32::from_le_bytes([good[at], good[at + 1], good[at + 2], good[at + 3]]);
            let wrong = [
                right.wrapping_add(1),
                right.wrapping_sub(1),
                right.wrapping_add(u32::MAX),
                right.wrapping_add(8),
                right.wrapping_sub(8),
                right.wrapping_add(16),
                right ^ 1 << 8,
                right ^ 1 << 16,
                right ^ 1 << 24,
                right ^ 1 << 31,
                right.swap_bytes(),
                right.wrapping_neg(),
                0,
                u32::MAX,
            ];
            for value in wrong {
                let mut bytes = good.clone();
                put32(&mut bytes, at, value);
                book.check(&bytes);
                // A wrong offset is refused before a short list is.
                if rng.chance(50) {
                    book.table(&bytes, need, need);
                } else {
                    book.table(&bytes, need - 1, 0);
                }
            }
        }
        // Two fields wrong together, each making up for the other.
        let mut bytes = good.clone();
        for (at, by) in [(4, 8), (8, 8), (12, 8)] {
            let old = u32::from_le_bytes([bytes[at], bytes[at + 1], bytes[at + 2], bytes[at + 3]]);
            put32(&mut bytes, at, old + by);
            book.either(&bytes);
        }
        bytes.extend([0; 8]);
        book.both(&bytes);
    }
}

fn slice_lengths(book: &mut Book, rng: &mut Random) {
    let full = shapes::connected(rng, 64, 256, 2, 9).bytes();
    let bases = [
        known::host_alone().bytes(),
        known::ring().bytes(),
        known::parallel_pair().bytes(),
        known::correlator().bytes(),
        shapes::chain(rng, 2, 1, 9, false).bytes(),
    ];
    for good in &bases {
        let at = good.len();
        for length in [at - 1, at - 2, at - 7, at - 8, at - 9, at + 1, at + 2, at + 7, at + 8, at + 9, at + 16, 2 * at] {
            let mut bytes = good.clone();
            bytes.resize(length, 0);
            book.both(&bytes);
            // The total follows the slice and is wrong all the same.
            if length >= 16 {
                put32(&mut bytes, 12, length as u32);
                book.either(&bytes);
            }
        }
    }
    // The ring cut at every point, and grown.
    let ring = &bases[1];
    for length in 18..=90 {
        let mut bytes = ring.clone();
        bytes.resize(length, 7);
        book.either(&bytes);
    }
    // At full size one byte more or less.
    for length in [2575, 2577, 2584] {
        let mut bytes = full.clone();
        bytes.resize(length, 0);
        book.either(&bytes);
    }
}

fn random_bytes(book: &mut Book, rng: &mut Random) {
    for _ in 0..60 {
        let length = 16 + rng.below(100);
        book.either(&rng.bytes(length));
    }
    // Sound header, random body.
    for _ in 0..120 {
        let (n, m) = (1 + rng.below(6), rng.below(6));
        let mut bytes = header(n, m);
        bytes.extend(rng.bytes(total(n, m) - 16));
        // A sound host lets the other blocks and wires be reached.
        if rng.chance(70) {
            bytes[16..24].fill(0);
        }
        book.either(&bytes);
    }
    // Bodies of small numbers come close to sound ones.
    for _ in 0..240 {
        let (n, m) = (1 + rng.below(4), rng.below(5));
        let mut bytes = header(n, m);
        for _ in 0..(n + m) * 4 {
            let word = if rng.chance(96) { rng.pick(&[0u16, 0, 0, 1, 1, 2]) } else { rng.next() as u16 };
            bytes.extend(word.to_le_bytes());
        }
        bytes[16..24].fill(0);
        for i in 1..n {
            // The high half of a delay is nearly always over the limit.
            bytes[16 + 8 * i + 2] = 0;
        }
        for i in 0..m {
            let at = wire_table(n) + 8 * i;
            if rng.chance(90) {
                put16(&mut bytes, at + 6, 0);
            }
        }
        book.either(&bytes);
    }
}

fn damaged_bytes(book: &mut Book, rng: &mut Random) {
    let ring = known::ring().bytes();
    for at in 0..ring.len() {
        for value in [ring[at] ^ 1, ring[at] ^ 128, rng.next() as u8, 255 - ring[at]] {
            let mut bytes = ring.clone();
            bytes[at] = value;
            book.either(&bytes);
        }
    }
    for _ in 0..300 {
        let n = 2 + rng.below(7);
        let m = n + rng.below(6);
        let mut bytes = shapes::connected(rng, n, m, 2, 9).bytes();
        let at = rng.below(bytes.len());
        bytes[at] = if rng.chance(50) { bytes[at] ^ 1 << rng.below(8) } else { rng.next() as u8 };
        book.either(&bytes);
    }
}
