//! Any number of cases from one seed: sheets of every shape, sound and damaged, lists of every length, loops good and spoilt.

use super::moves::permitted_pair;
use crate::known::wire;
use crate::lags::delays;
use crate::paths;
use crate::questions::{loop_room, BEST, CHECK, LAGS, LOOP, MOVE, PERIOD, TABLE};
use crate::random::Random;
use crate::record::{Case, MOST_ENTRIES, MOST_GIVEN};
use crate::refute::{refute, words};
use crate::shapes;
use crate::sheet::{self, Sheet};

/// Few sheets are large: the second program's own methods take their time on those.
fn block_count(rng: &mut Random) -> usize {
    match rng.below(100) {
        0..=84 => 1 + rng.below(7),
        85..=95 => 8 + rng.below(12),
        96..=97 => 20 + rng.below(20),
        _ => 40 + rng.below(25),
    }
}

fn shape(rng: &mut Random, n: usize) -> Sheet {
    let m = (n + rng.below(2 * n + 2)).min(256);
    let most = rng.pick(&[0, 1, 1, 2, 2, 3, 9, 2_000]);
    let delay = rng.pick(&[0, 1, 9, 9, 9, 99, 10_000]);
    let closing = rng.below(n);
    match rng.below(12) {
        0 => shapes::ring(rng, n, closing, delay),
        1 => shapes::chain(rng, n, most, delay, closing < n / 2),
        2 => shapes::tree(rng, n, most, delay, closing < n / 2),
        3 => shapes::layers(rng, n, m, 1 + closing, most, delay),
        4 => shapes::parallel(rng, n, 2, most.min(1_998), delay),
        5 => shapes::hub(rng, n.max(2), delay),
        6 => shapes::any(rng, n, m, 1 + most as usize),
        7 => permitted_pair(rng, n, 3, 9).0,
        8 => permitted_pair(rng, n, 1_000, 2_000).0,
        9 => shapes::sound(rng, n, m, most, delay),
        _ => shapes::connected(rng, n, m, most, delay),
    }
}

/// Ranges under which permitted lags are likely, or just not.
fn set_ranges(rng: &mut Random, sheet: &mut Sheet) {
    let reach = rng.pick(&[0, 1, 2, 4, 70, 500]);
    for b in &mut sheet.blocks[1..] {
        let shift = if rng.chance(15) { rng.between(-2, 2) as i16 } else { 0 };
        (b.lower, b.upper) = ((shift - reach).max(-500), (shift + reach).min(500));
    }
}

fn set_registers(rng: &mut Random, sheet: &mut Sheet) {
    for w in &mut sheet.wires {
        if rng.chance(20) {
            w.registers = rng.between(1_990, 2_000) as u16;
        }
    }
}

fn any_sheet(rng: &mut Random) -> Sheet {
    let n = block_count(rng);
    let mut sheet = shape(rng, n);
    if rng.chance(60) {
        set_ranges(rng, &mut sheet);
    }
    if rng.chance(8) {
        set_registers(rng, &mut sheet);
    }
    sheet
}

/// A block or a wire out of its limits, or a register-free loop.
fn break_entry(rng: &mut Random, sheet: &mut Sheet) {
    let n = sheet.n();
    let b = rng.below(n);
    let block = &mut sheet.blocks[b];
    match rng.below(8) {
        0 => block.delay = rng.pick(&[10_001, 65_536, u32::MAX]),
        1 => block.upper = block.lower.wrapping_sub(1),
        2 => block.upper = rng.pick(&[1_001, i16::MAX, block.lower.saturating_add(1_001)]),
        3 => block.lower = rng.pick(&[-1_001, i16::MIN]),
        4 => sheet.wires.push(wire(b, b, 0)),
        _ if sheet.wires.is_empty() => block.delay = 10_001,
        kind => {
            let at = rng.below(sheet.wires.len());
            let w = &mut sheet.wires[at];
            match kind {
                5 => w.registers = rng.pick(&[2_001, 65_535, 0]),
                6 => w.spare = 1 << rng.below(16),
                _ if rng.chance(50) => w.from = rng.pick(&[n as u16, 65_535]),
                _ => w.to = rng.pick(&[n as u16, 65_535]),
            }
        }
    }
}

/// Bytes changed, cut off or added, in the header more often than elsewhere.
fn break_bytes(rng: &mut Random, bytes: &mut Vec<u8>) {
    match rng.below(6) {
        0 => bytes.truncate(rng.below(bytes.len())),
        1 => {
            let more = 1 + rng.below(16);
            bytes.extend(rng.bytes(more));
        }
        2 => {
            let length = rng.below(120);
            *bytes = rng.bytes(length);
        }
        kind => {
            let end = if kind == 3 { 16 } else { bytes.len() };
            for _ in 0..1 + rng.below(2) {
                let at = rng.below(end);
                bytes[at] = if rng.chance(50) { bytes[at] ^ 1 << rng.below(8) } else { rng.next() as u8 };
            }
        }
    }
}

fn damage(rng: &mut Random, sheet: &Sheet) -> Vec<u8> {
    let mut broken = sheet.clone();
    let both = rng.below(5);
    if both < 3 {
        for _ in 0..1 + rng.below(2) {
            break_entry(rng, &mut broken);
        }
    }
    let mut bytes = broken.bytes();
    if both > 1 {
        break_bytes(rng, &mut bytes);
    }
    bytes
}

/// A list's length: as needed, longer, or too short.
fn length(rng: &mut Random, needed: usize, most: usize) -> usize {
    let long = match rng.below(20) {
        0 => needed.saturating_sub(1),
        1 => rng.below(needed + 1),
        2 => 0,
        3..=7 => needed + 1 + rng.below(9),
        _ => needed,
    };
    long.min(most)
}

/// A period of the table or beside one, or far from all.
fn any_period(rng: &mut Random, sheet: &Sheet) -> u32 {
    let sound = paths::smallest_loop_block(sheet).is_none();
    if !sound || rng.chance(15) {
        return rng.pick(&[0, 1, 7, 20, 630_000, u32::MAX - 1, u32::MAX]);
    }
    let around = rng.pick(&delays(&paths::table(sheet)));
    rng.pick(&[around, around, around.saturating_sub(1), around + 1])
}

fn any_lags(rng: &mut Random, sheet: &Sheet) -> Vec<i16> {
    let best = if paths::smallest_loop_block(sheet).is_none() { crate::lags::largest_permitted(sheet) } else { None };
    let mut lags = match best {
        Some(lags) if rng.chance(60) => lags,
        _ => sheet.blocks.iter().map(|b| rng.between(b.lower as i64, b.upper.max(b.lower) as i64) as i16).collect(),
    };
    if rng.chance(35) {
        let at = rng.below(lags.len());
        lags[at] = lags[at].saturating_add(rng.pick(&[-1, 1, 2, -1_000, i16::MAX, i16::MIN]));
    }
    let long = length(rng, lags.len(), MOST_GIVEN);
    lags.resize(long, rng.pick(&[0, 1, i16::MIN]));
    lags
}

fn spoil(rng: &mut Random, words: &mut Vec<u16>) {
    let at = rng.below(words.len());
    match rng.below(5) {
        0 => words.truncate(at),
        1 => drop(words.remove(at)),
        2 => words.insert(at, words[at]),
        3 => words.extend(words.clone()),
        _ => words[at] = rng.pick(&[0, 1, 2, 3, 4, 5, words[at] + 1, 65_535]),
    }
}

fn any_words(rng: &mut Random, sheet: &Sheet, c: u32) -> Vec<u16> {
    // Finding a loop is slow work on large sheets.
    let small = sheet.n() <= 12 && paths::smallest_loop_block(sheet).is_none();
    let found = if small { refute(sheet, rng.chance(75).then_some(c)) } else { None };
    let mut list = match found {
        Some(links) => words(&links),
        None => {
            let count = 1 + rng.below(4);
            shapes::words(rng, sheet, count)
        }
    };
    if rng.chance(45) {
        spoil(rng, &mut list);
    }
    if rng.chance(2) {
        list = list.repeat(rng.pick(&[0, 40, 400]));
    }
    list.truncate(MOST_GIVEN);
    list
}

pub fn one(rng: &mut Random) -> Case {
    let sheet = any_sheet(rng);
    let n = sheet.n();
    let damaged = rng.chance(30);
    let bytes = if damaged { damage(rng, &sheet) } else { sheet.bytes() };
    // Damage often leaves a frame with another number of blocks.
    let framed = sheet::frame(&bytes).map_or(n, |f| f.n);
    match rng.pick(&[CHECK, PERIOD, TABLE, MOVE, LAGS, LAGS, BEST, LOOP]) {
        CHECK => Case::check(bytes),
        PERIOD => Case::period(bytes),
        TABLE => {
            let (a, b) = (length(rng, framed * framed, MOST_ENTRIES), length(rng, framed * framed, MOST_ENTRIES));
            Case::table(bytes, a, b)
        }
        MOVE => {
            let (lags, room) = (any_lags(rng, &sheet), length(rng, bytes.len(), MOST_ENTRIES));
            Case::moving(bytes, &lags, room)
        }
        LOOP => {
            let c = any_period(rng, &sheet);
            let words = any_words(rng, &sheet, c);
            Case::a_loop(bytes, c, &words)
        }
        question => {
            let (a, b) = (length(rng, framed, MOST_GIVEN), length(rng, loop_room(framed), MOST_GIVEN));
            match question {
                LAGS => Case::lags_at(bytes, any_period(rng, &sheet), a, b),
                _ => Case::best(bytes, a, b),
            }
        }
    }
}

#[cfg(test)]
mod tests {
    use super::*;

    #[test]
    fn every_answer_occurs() {
        let mut seen = [[0usize; 13]; 8];
        let mut rng = Random::new(1);
        let mut text = String::new();
        for _ in 0..4_000 {
            let case = one(&mut rng);
            seen[case.question as usize][case.expect(&mut text).number as usize] += 1;
        }
        let frame = [0, 1, 2, 3, 5, 6, 7];
        let own: [&[usize]; 7] = [&[], &[], &[4], &[4, 8, 9], &[4, 10, 11], &[4, 10], &[12]];
        for (i, own) in own.iter().enumerate() {
            for &number in frame.iter().chain(own.iter()) {
                assert!(seen[i + 1][number] > 0, "question {} answers {number}", i + 1);
            }
        }
    }

    fn cases(seed: u64) -> Vec<Case> {
        let mut rng = Random::new(seed);
        (0..50).map(|_| one(&mut rng)).collect()
    }

    #[test]
    fn one_seed_gives_the_same_cases() {
        assert_eq!(cases(3), cases(3));
        assert_ne!(cases(3), cases(4));
    }
}
