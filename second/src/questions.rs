//! The questions: each gives number, place and value and leaves its lists as the scope says.

use crate::lags;
use crate::links;
use crate::paths;
use crate::sheet::{self, refusal, Refusal, Sheet, MOST_REGISTERS};

pub const CHECK: u8 = 1;
pub const PERIOD: u8 = 2;
pub const TABLE: u8 = 3;
pub const MOVE: u8 = 4;
pub const LAGS: u8 = 5;
pub const BEST: u8 = 6;
pub const LOOP: u8 = 7;

#[derive(Clone, Copy, Debug, PartialEq, Eq)]
pub struct Answer {
    pub number: u32,
    pub place: u32,
    pub value: u32,
}

pub const DONE: Answer = Answer { number: 0, place: 0, value: 0 };

impl From<Refusal> for Answer {
    fn from(r: Refusal) -> Answer {
        Answer { number: r.number, place: r.place, value: 0 }
    }
}

/// Refusals 1 to 7 in their order; each list is its length beside the length needed for n blocks.
fn sound_sheet(bytes: &[u8], lists: &[(usize, fn(sheet::Frame) -> usize)]) -> Result<Sheet, Refusal> {
    let frame = sheet::frame(bytes)?;
    // Short lists are judged from the header, before any entry is.
    if let Some(short) = lists.iter().position(|&(length, needed)| length < needed(frame)) {
        return Err(refusal(4, short));
    }
    let sheet = sheet::entries(bytes, frame)?;
    match paths::smallest_loop_block(&sheet) {
        Some(block) => Err(refusal(7, block)),
        None => Ok(sheet),
    }
}

pub fn check(bytes: &[u8]) -> Answer {
    match sound_sheet(bytes, &[]) {
        Ok(_) => DONE,
        Err(r) => r.into(),
    }
}

pub fn path_table(bytes: &[u8], registers: &mut [u32], delays: &mut [u32]) -> Answer {
    let square = |f: sheet::Frame| f.n * f.n;
    match sound_sheet(bytes, &[(registers.len(), square), (delays.len(), square)]) {
        Ok(sheet) => {
            let table = paths::table(&sheet);
            let n = table.n;
            for u in 0..n {
                for v in 0..n {
                    (registers[u * n + v], delays[u * n + v]) = table.at(u, v);
                }
            }
            DONE
        }
        Err(r) => r.into(),
    }
}

pub fn period(bytes: &[u8]) -> Answer {
    match sound_sheet(bytes, &[]) {
        Ok(sheet) => Answer { value: paths::period(&sheet), ..DONE },
        Err(r) => r.into(),
    }
}

/// The moved sheet, or refusal 8 or 9; one lag for each block.
fn moved(sheet: &Sheet, lags: &[i16]) -> Result<Sheet, Refusal> {
    let outside = |(i, b): (usize, &sheet::Block)| !(b.lower..=b.upper).contains(&lags[i]);
    if let Some(bad) = sheet.blocks.iter().enumerate().position(outside) {
        return Err(refusal(8, bad));
    }
    let mut after = sheet.clone();
    for (b, lag) in after.blocks.iter_mut().zip(lags) {
        b.lower -= lag;
        b.upper -= lag;
    }
    for (i, w) in after.wires.iter_mut().enumerate() {
        let registers = w.registers as i32 + lags[w.to as usize] as i32 - lags[w.from as usize] as i32;
        if !(0..=MOST_REGISTERS as i32).contains(&registers) {
            return Err(refusal(9, i));
        }
        w.registers = registers as u16;
    }
    Ok(after)
}

/// Named so because `move` is a word of the language.
pub fn move_sheet(bytes: &[u8], lags: &[i16], out: &mut [u8]) -> Answer {
    let whole = |f: sheet::Frame| sheet::total(f.n, f.m);
    let done = sound_sheet(bytes, &[(lags.len(), |f| f.n), (out.len(), whole)])
        .and_then(|sheet| moved(&sheet, &lags[..sheet.n()]));
    match done {
        Ok(after) => {
            let written = after.bytes();
            out[..written.len()].copy_from_slice(&written);
            DONE
        }
        Err(r) => r.into(),
    }
}

pub const NONE_PERMITTED: u32 = 10;
pub const NONE_MEETS: u32 = 11;

/// The words that a loop list must have room for.
pub fn loop_room(n: usize) -> usize {
    n * (n + 2)
}

/// What a lag question answers: with 0 the lags are written. Which loop comes with 10 or 11 is free,
/// so that no loop is written here and the value, its word count, is left at 0.
fn answer_with_lags(found: Result<(u32, Vec<i16>), Refusal>, lags: &mut [i16]) -> Answer {
    match found {
        Ok((value, largest)) => {
            lags[..largest.len()].copy_from_slice(&largest);
            Answer { value, ..DONE }
        }
        Err(r) => r.into(),
    }
}

fn sound_for_lags(bytes: &[u8], lags: usize, words: usize) -> Result<Sheet, Refusal> {
    sound_sheet(bytes, &[(lags, |f| f.n), (words, |f| loop_room(f.n))])
}

/// The largest permitted lags that meet c; of the loop list only the length counts.
pub fn lags_at(bytes: &[u8], c: u32, lags: &mut [i16], words: usize) -> Answer {
    let found = sound_for_lags(bytes, lags.len(), words).and_then(|sheet| match lags::largest_at(&sheet, c) {
        Some(largest) => Ok((0, largest)),
        None if lags::largest_permitted(&sheet).is_none() => Err(refusal(NONE_PERMITTED, 0)),
        None => Err(refusal(NONE_MEETS, 0)),
    });
    answer_with_lags(found, lags)
}

/// The least period met by permitted lags, and the largest lags that meet it.
pub fn best(bytes: &[u8], lags: &mut [i16], words: usize) -> Answer {
    let found = sound_for_lags(bytes, lags.len(), words)
        .and_then(|sheet| lags::best(&sheet).ok_or(refusal(NONE_PERMITTED, 0)));
    answer_with_lags(found, lags)
}

/// Whether these words are a valid loop at period c; c counts for paths only.
pub fn check_loop(bytes: &[u8], c: u32, words: &[u16]) -> Answer {
    match sound_sheet(bytes, &[]) {
        Ok(sheet) if links::is_valid(&sheet, c, words) => DONE,
        Ok(_) => refusal(12, 0).into(),
        Err(r) => r.into(),
    }
}

#[cfg(test)]
mod tests {
    use super::*;
    use crate::known;
    use crate::random::Random;
    use crate::shapes;

    fn answer(number: u32, place: u32) -> Answer {
        Answer { number, place, value: 0 }
    }

    #[test]
    fn sound_sheets_are_accepted() {
        for s in [known::ring(), known::correlator(), known::filter(), known::host_alone(), known::parallel_pair()] {
            assert_eq!(check(&s.bytes()), DONE);
        }
        // A sheet without permitted lags is sound.
        assert_eq!(check(&known::ring_limited((1, 1), (-2, 0)).bytes()), DONE);
    }

    #[test]
    fn entries_past_the_table_stay() {
        let (mut r, mut d) = (vec![9; 17], vec![9; 18]);
        assert_eq!(path_table(&known::ring().bytes(), &mut r, &mut d), DONE);
        assert_eq!((r[16], d[16], d[17]), (9, 9, 9));
        assert_eq!((r[13], d[13]), (2, 8));
    }

    #[test]
    fn refusals_come_in_their_order() {
        let mut s = known::ring();
        s.wires[3].registers = 0;
        s.wires[0].registers = 0;
        assert_eq!(check(&s.bytes()), answer(7, 0));
        s.wires[2].spare = 1;
        assert_eq!(check(&s.bytes()), answer(6, 2));
        s.blocks[3].delay = 10_001;
        assert_eq!(check(&s.bytes()), answer(5, 3));
        let table = |bytes: &[u8], a: usize, b: usize| path_table(bytes, &mut vec![0; a], &mut vec![0; b]);
        assert_eq!(table(&s.bytes(), 16, 16), answer(5, 3));
        assert_eq!(table(&s.bytes(), 16, 15), answer(4, 1));
        assert_eq!(table(&s.bytes(), 15, 15), answer(4, 0));
        assert_eq!(table(&s.bytes()[..79], 15, 15), answer(3, 0));
    }

    #[test]
    fn a_refusal_writes_nothing() {
        let (mut r, mut d) = (vec![9; 16], vec![9; 15]);
        assert_eq!(path_table(&known::ring().bytes(), &mut r, &mut d), answer(4, 1));
        assert!(r.iter().chain(&d).all(|&x| x == 9));
    }

    #[test]
    fn wires_back_to_their_own_block() {
        let own = |registers| known::sheet(&[0, 5], &[(1, 1, registers)]).bytes();
        assert_eq!(check(&own(1)), DONE);
        assert_eq!(check(&own(0)), answer(7, 1));
    }

    fn after(sheet: &Sheet, lags: &[i16]) -> Result<Sheet, Answer> {
        let bytes = sheet.bytes();
        let mut out = vec![0; bytes.len()];
        match move_sheet(&bytes, lags, &mut out) {
            DONE => Ok(sheet::frame(&out).and_then(|f| sheet::entries(&out, f)).expect("a moved sheet is sound")),
            refused => Err(refused),
        }
    }

    fn registers(sheet: &Sheet) -> Vec<u16> {
        sheet.wires.iter().map(|w| w.registers).collect()
    }

    #[test]
    fn periods() {
        assert_eq!(period(&known::ring().bytes()), Answer { value: 12, ..DONE });
        assert_eq!(period(&known::correlator().bytes()), Answer { value: 24, ..DONE });
        assert_eq!(period(&known::host_alone().bytes()), DONE);
        assert_eq!(period(&[0; 15]), answer(1, 0));
    }

    #[test]
    fn the_ring_moved() {
        let moved = after(&known::ring(), &[0, 0, 0, 1]).expect("permitted");
        assert_eq!(registers(&moved), [1, 0, 1, 0]);
        assert_eq!((moved.blocks[3].lower, moved.blocks[3].upper), (-3, 1));
        assert_eq!(moved.blocks[..3], known::ring().blocks[..3]);
        assert_eq!(paths::period(&moved), 7);
        // Back again.
        assert_eq!(after(&moved, &[0, 0, 0, -1]), Ok(known::ring()));
    }

    #[test]
    fn the_parallel_pair_moved() {
        let pair = known::parallel_pair();
        assert_eq!(after(&pair, &[0, -1]).map(|s| registers(&s)), Ok(vec![0, 2, 1]));
        assert_eq!(after(&pair, &[0, -2]), Err(answer(9, 0)));
        assert_eq!(after(&pair, &[0, 1]), Err(answer(9, 2)));
    }

    #[test]
    fn refusals_of_a_move() {
        let ring = known::ring();
        assert_eq!(after(&ring, &[1, 0, 0, 0]), Err(answer(8, 0)));
        assert_eq!(after(&ring, &[0, 0, 3, -3]), Err(answer(8, 2)));
        assert_eq!(after(&ring, &[0, 0, 0, -3]), Err(answer(8, 3)));
        assert_eq!(after(&ring, &[0, i16::MIN, 0, 0]), Err(answer(8, 1)));
        // A lag outside its range comes before a wire.
        assert_eq!(after(&ring, &[0, -2, 0, 3]), Err(answer(8, 3)));
        assert_eq!(after(&ring, &[0, -2, 0, 0]), Err(answer(9, 0)));
        let full = known::sheet(&[0, 1], &[(0, 1, 1_999)]);
        assert_eq!(after(&full, &[0, 1]).map(|s| registers(&s)), Ok(vec![2_000]));
        assert_eq!(after(&full, &[0, 2]), Err(answer(9, 0)));
    }

    #[test]
    fn lists_of_a_move() {
        let bytes = known::ring().bytes();
        let ask = |lags: usize, room: usize| move_sheet(&bytes, &vec![0; lags], &mut vec![9; room]);
        assert_eq!(ask(3, 79), answer(4, 0));
        assert_eq!(ask(4, 79), answer(4, 1));
        assert_eq!(ask(4, 80), DONE);
        // Further lags are not read, further room stays.
        let mut out = vec![9; 82];
        assert_eq!(move_sheet(&bytes, &[0, 0, 0, 0, 2_000], &mut out), DONE);
        assert_eq!((&out[..80], &out[80..]), (&bytes[..], &[9, 9][..]));
    }

    #[test]
    fn a_move_shifts_every_path() {
        let mut rng = Random::new(80);
        let mut done = 0;
        for _ in 0..2_000 {
            let n = 1 + rng.below(6);
            let m = rng.below(8);
            let mut s = shapes::sound(&mut rng, n, m, 4, 9);
            for b in &mut s.blocks[1..] {
                (b.lower, b.upper) = (-2, 2);
            }
            let mut lags: Vec<i16> = (0..n).map(|_| rng.between(-1, 1) as i16).collect();
            lags[0] = 0;
            let Ok(moved) = after(&s, &lags) else { continue };
            done += 1;
            assert_eq!(check(&moved.bytes()), DONE);
            let (old, new) = (paths::table(&s), paths::table(&moved));
            for u in 0..n {
                for v in 0..n {
                    let (fewest, delay) = old.at(u, v);
                    let shifted = fewest.wrapping_add_signed((lags[v] - lags[u]) as i32);
                    let expected = if fewest == u32::MAX { (fewest, 0) } else { (shifted, delay) };
                    assert_eq!(new.at(u, v), expected);
                }
            }
        }
        assert!(done > 200);
    }

    #[test]
    fn refusals_of_a_loop_check() {
        let words = [4, 1, 1, 1, 1, 2, 3, 3];
        let mut s = known::ring_limited((1, 1), (-2, 0));
        assert_eq!(check_loop(&s.bytes(), 0, &words), DONE);
        assert_eq!(check_loop(&s.bytes(), 0, &words[2..]), answer(12, 0));
        assert_eq!(check_loop(&s.bytes(), 0, &[]), answer(12, 0));
        // The sheet's refusals come first, whatever the words.
        for words in [&words[..], &[], &[9; 5_000]] {
            s.wires[0].registers = 0;
            s.wires[3].registers = 0;
            assert_eq!(check_loop(&s.bytes(), 0, words), answer(7, 0));
            s.wires[2].spare = 1;
            assert_eq!(check_loop(&s.bytes(), 0, words), answer(6, 2));
            s.blocks[3].delay = 10_001;
            assert_eq!(check_loop(&s.bytes(), 0, words), answer(5, 3));
            assert_eq!(check_loop(&s.bytes()[..79], 0, words), answer(3, 0));
            assert_eq!(check_loop(&[0; 16], 0, words), answer(2, 0));
            assert_eq!(check_loop(&[], 0, words), answer(1, 0));
            s = known::ring_limited((1, 1), (-2, 0));
        }
    }

    fn lags_of(sheet: &Sheet, c: u32) -> Result<Vec<i16>, Answer> {
        let mut lags = vec![0; sheet.n()];
        match lags_at(&sheet.bytes(), c, &mut lags, loop_room(sheet.n())) {
            DONE => Ok(lags),
            refused => Err(refused),
        }
    }

    fn best_of(sheet: &Sheet) -> Result<(u32, Vec<i16>), Answer> {
        let mut lags = vec![0; sheet.n()];
        match best(&sheet.bytes(), &mut lags, loop_room(sheet.n())) {
            Answer { number: 0, place: 0, value } => Ok((value, lags)),
            refused => Err(refused),
        }
    }

    #[test]
    fn lags_of_the_ring() {
        let ring = known::ring();
        assert_eq!(best_of(&ring), Ok((7, vec![0, 0, 0, 1])));
        for c in 0..7 {
            assert_eq!(lags_of(&ring, c), Err(answer(11, 0)));
        }
        for c in [7, 8] {
            assert_eq!(lags_of(&ring, c), Ok(vec![0, 0, 0, 1]));
        }
        for c in [9, 10, 11] {
            assert_eq!(lags_of(&ring, c), Ok(vec![0, 0, 1, 1]));
        }
        for c in [12, 13, u32::MAX] {
            assert_eq!(lags_of(&ring, c), Ok(vec![0, 1, 1, 1]));
        }
        // Smaller lags meet 7 too.
        assert_eq!(after(&ring, &[0, -1, -1, 0]).map(|s| paths::period(&s)), Ok(7));
    }

    #[test]
    fn lags_of_the_limited_ring() {
        assert_eq!(best_of(&known::ring_limited((0, 2), (-2, 0))), Ok((12, vec![0; 4])));
        let none = known::ring_limited((1, 1), (-2, 0));
        assert_eq!(best_of(&none), Err(answer(10, 0)));
        for c in [0, 6, 12, u32::MAX] {
            assert_eq!(lags_of(&none, c), Err(answer(10, 0)));
        }
    }

    #[test]
    fn lags_of_small_sheets() {
        assert_eq!(best_of(&known::host_alone()), Ok((0, vec![0])));
        assert_eq!(lags_of(&known::host_alone(), 0), Ok(vec![0]));
        assert_eq!(best_of(&known::sheet(&[0, 4], &[])), Ok((4, vec![0, 2])));
        assert_eq!(lags_of(&known::sheet(&[0, 4], &[]), 3), Err(answer(11, 0)));
        assert_eq!(best_of(&known::parallel_pair()), Ok((0, vec![0, 0])));
    }

    #[test]
    fn lags_of_the_correlator() {
        let mut sheet = known::correlator();
        for b in &mut sheet.blocks[1..] {
            (b.lower, b.upper) = (-500, 500);
        }
        assert_eq!(period(&sheet.bytes()), Answer { value: 24, ..DONE });
        let (least, lags) = best_of(&sheet).expect("0 is permitted");
        assert_eq!(least, 13);
        assert_eq!(after(&sheet, &lags).map(|s| paths::period(&s)), Ok(13));
    }

    #[test]
    fn the_best_period_can_exceed_the_present_one() {
        let sheet = known::forced_ring();
        assert_eq!(period(&sheet.bytes()), Answer { value: 4, ..DONE });
        assert_eq!(best_of(&sheet), Ok((7, vec![0, 1, 0])));
        assert_eq!(lags_of(&sheet, 6), Err(answer(11, 0)));
    }

    #[test]
    fn lists_of_the_lag_questions() {
        let mut s = known::ring();
        let ask = |bytes: &[u8], a: usize, b: usize| {
            let (mut first, mut second) = (vec![9; a], vec![9; a]);
            let answers = [lags_at(bytes, 12, &mut first, b), best(bytes, &mut second, b)];
            assert_eq!(answers[0].number, answers[1].number);
            assert_eq!(answers[0].place, answers[1].place);
            if answers[0].number != 0 {
                assert!(first.iter().chain(&second).all(|&lag| lag == 9));
            } else {
                assert!(first[4..].iter().chain(&second[4..]).all(|&lag| lag == 9));
            }
            (answers[0].number, answers[0].place)
        };
        assert_eq!(ask(&s.bytes(), 4, 24), (0, 0));
        assert_eq!(ask(&s.bytes(), 6, 30), (0, 0));
        assert_eq!(ask(&s.bytes(), 3, 24), (4, 0));
        assert_eq!(ask(&s.bytes(), 4, 23), (4, 1));
        assert_eq!(ask(&s.bytes(), 3, 23), (4, 0));
        s.wires[0].registers = 0;
        s.wires[3].registers = 0;
        assert_eq!(ask(&s.bytes(), 4, 24), (7, 0));
        s.wires[2].spare = 1;
        assert_eq!(ask(&s.bytes(), 4, 24), (6, 2));
        s.blocks[3].delay = 10_001;
        assert_eq!(ask(&s.bytes(), 4, 24), (5, 3));
        assert_eq!(ask(&s.bytes(), 4, 23), (4, 1));
        assert_eq!(ask(&s.bytes()[..79], 0, 0), (3, 0));
        assert_eq!(ask(&[0; 16], 0, 0), (2, 0));
        assert_eq!(ask(&[], 0, 0), (1, 0));
    }
}
