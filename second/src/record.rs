//! One case: its bytes in the case file and its lines in the expected output.

use crate::questions::{self, Answer, BEST, CHECK, LAGS, LOOP, MOVE, NONE_MEETS, NONE_PERMITTED, PERIOD, TABLE};
use crate::sheet;
use std::fmt::{Display, Write};

/// What entry i of a lent list of u32 holds before the call, less i.
pub const BEFORE: u32 = 3_000_000_000;
pub const MOST_ENTRIES: usize = 4_200;
/// Lags or words that a record gives, or that the lag questions are lent.
pub const MOST_GIVEN: usize = 4_300;

#[derive(Clone, Debug, PartialEq, Eq, Hash)]
pub struct Case {
    pub question: u8,
    pub sheet: Vec<u8>,
    pub a: usize,
    pub b: usize,
    pub c: u32,
    /// What stands after the sheet: words, or lags as their 16 bits.
    pub given: Vec<u16>,
}

pub fn list_before(length: usize) -> Vec<u32> {
    (0..length as u32).map(|i| BEFORE + i).collect()
}

fn unchanged_from(list: &[u32], first: usize) -> bool {
    (first..list.len()).all(|i| list[i] == BEFORE + i as u32)
}

/// What byte i of a lent sheet holds before the call.
pub fn byte_before(i: usize) -> u8 {
    ((7 * i + 3) % 256) as u8
}

/// What lag i of a lent list holds before the call: a lag that no range has.
pub fn lag_before(i: usize) -> i16 {
    (20_000 + i) as i16
}

/// What word i of a lent loop list holds before the call: a word that no loop has.
pub fn word_before(i: usize) -> u16 {
    (50_000 + i) as u16
}

fn head(out: &mut String, question: u8, answer: Answer) {
    writeln!(out, "{} {} {} {}", question, answer.number, answer.place, answer.value).unwrap();
}

fn line<T: Display>(out: &mut String, name: &str, list: &[T]) {
    out.push_str(name);
    for x in list {
        write!(out, " {x}").unwrap();
    }
    out.push('\n');
}

fn last_line(out: &mut String, kept: bool) {
    out.push_str(if kept { "kept\n" } else { "changed\n" });
}

impl Case {
    pub fn check(sheet: Vec<u8>) -> Case {
        Case { question: CHECK, sheet, a: 0, b: 0, c: 0, given: Vec::new() }
    }

    pub fn table(sheet: Vec<u8>, a: usize, b: usize) -> Case {
        assert!(a <= MOST_ENTRIES && b <= MOST_ENTRIES);
        Case { question: TABLE, sheet, a, b, c: 0, given: Vec::new() }
    }

    pub fn moving(sheet: Vec<u8>, lags: &[i16], b: usize) -> Case {
        assert!(lags.len() <= MOST_GIVEN && b <= MOST_ENTRIES);
        let given = lags.iter().map(|&lag| lag as u16).collect();
        Case { question: MOVE, sheet, a: lags.len(), b, c: 0, given }
    }

    pub fn a_loop(sheet: Vec<u8>, c: u32, words: &[u16]) -> Case {
        assert!(words.len() <= MOST_GIVEN);
        Case { question: LOOP, sheet, a: words.len(), b: 0, c, given: words.to_vec() }
    }

    pub fn period(sheet: Vec<u8>) -> Case {
        Case { question: PERIOD, ..Case::check(sheet) }
    }

    pub fn lags_at(sheet: Vec<u8>, c: u32, a: usize, b: usize) -> Case {
        assert!(a <= MOST_GIVEN && b <= MOST_GIVEN);
        Case { question: LAGS, sheet, a, b, c, given: Vec::new() }
    }

    pub fn best(sheet: Vec<u8>, a: usize, b: usize) -> Case {
        Case { question: BEST, ..Case::lags_at(sheet, 0, a, b) }
    }

    pub fn write(&self, out: &mut Vec<u8>) {
        let length = u16::try_from(self.sheet.len()).expect("a sheet's length fits 16 bits");
        out.extend([self.question, 0]);
        out.extend(length.to_le_bytes());
        out.extend((self.a as u16).to_le_bytes());
        out.extend((self.b as u16).to_le_bytes());
        out.extend(self.c.to_le_bytes());
        out.extend(&self.sheet);
        for word in &self.given {
            out.extend(word.to_le_bytes());
        }
    }

    /// A lag question's lines: its lags where there are any; the loop that comes with 10 or 11 is only ever judged.
    fn expect_lags(&self, out: &mut String) -> Answer {
        let mut lags: Vec<i16> = (0..self.a).map(lag_before).collect();
        let answer = match self.question {
            LAGS => questions::lags_at(&self.sheet, self.c, &mut lags, self.b),
            _ => questions::best(&self.sheet, &mut lags, self.b),
        };
        let mut written = 0;
        match answer.number {
            NONE_PERMITTED | NONE_MEETS => {
                // The word count stays out, since which loop is free.
                writeln!(out, "{} {} {}", self.question, answer.number, answer.place).unwrap();
                out.push_str("loop yes\n");
            }
            0 => {
                written = sheet::frame(&self.sheet).expect("answer 0 has a frame").n;
                head(out, self.question, answer);
                line(out, "lags", &lags[..written]);
            }
            _ => head(out, self.question, answer),
        }
        last_line(out, (written..self.a).all(|i| lags[i] == lag_before(i)));
        answer
    }

    /// Asks the question and appends the expected lines.
    pub fn expect(&self, out: &mut String) -> Answer {
        match self.question {
            CHECK => {
                let answer = questions::check(&self.sheet);
                head(out, CHECK, answer);
                answer
            }
            TABLE => {
                let mut registers = list_before(self.a);
                let mut delays = list_before(self.b);
                let answer = questions::path_table(&self.sheet, &mut registers, &mut delays);
                head(out, TABLE, answer);
                let mut written = 0;
                if answer.number == 0 {
                    let n = sheet::frame(&self.sheet).expect("answer 0 has a frame").n;
                    written = n * n;
                    line(out, "registers", &registers[..written]);
                    line(out, "delays", &delays[..written]);
                }
                last_line(out, unchanged_from(&registers, written) && unchanged_from(&delays, written));
                answer
            }
            MOVE => {
                let lags: Vec<i16> = self.given.iter().map(|&bits| bits as i16).collect();
                let mut moved: Vec<u8> = (0..self.b).map(byte_before).collect();
                let answer = questions::move_sheet(&self.sheet, &lags, &mut moved);
                head(out, MOVE, answer);
                let mut written = 0;
                if answer.number == 0 {
                    written = self.sheet.len();
                    line(out, "moved", &moved[..written]);
                }
                last_line(out, (written..self.b).all(|i| moved[i] == byte_before(i)));
                answer
            }
            PERIOD => {
                let answer = questions::period(&self.sheet);
                head(out, PERIOD, answer);
                answer
            }
            LAGS | BEST => self.expect_lags(out),
            LOOP => {
                let answer = questions::check_loop(&self.sheet, self.c, &self.given);
                head(out, LOOP, answer);
                answer
            }
            other => panic!("no such question: {other}"),
        }
    }
}

#[cfg(test)]
mod tests {
    use super::*;
    use crate::known;

    #[test]
    fn the_host_alone_as_a_record() {
        let case = Case::table(known::host_alone().bytes(), 2, 1);
        let mut bytes = Vec::new();
        case.write(&mut bytes);
        assert_eq!(bytes.len(), 12 + 24);
        assert_eq!(bytes[..12], [3, 0, 24, 0, 2, 0, 1, 0, 0, 0, 0, 0]);
        let mut text = String::new();
        case.expect(&mut text);
        assert_eq!(text, "3 0 0 0\nregisters 0\ndelays 0\nkept\n");
    }

    #[test]
    fn refused_records() {
        let mut text = String::new();
        Case::check(vec![0; 15]).expect(&mut text);
        Case::table(known::ring().bytes(), 16, 15).expect(&mut text);
        assert_eq!(text, "1 1 0 0\n3 4 1 0\nkept\n");
    }

    #[test]
    fn a_move_as_a_record() {
        let mut bytes = Vec::new();
        let mut text = String::new();
        let case = Case::moving(known::host_alone().bytes(), &[0, -2], 25);
        case.write(&mut bytes);
        assert_eq!(bytes.len(), 12 + 24 + 4);
        assert_eq!(bytes[..12], [4, 0, 24, 0, 2, 0, 25, 0, 0, 0, 0, 0]);
        assert_eq!(bytes[36..], [0, 0, 254, 255]);
        case.expect(&mut text);
        assert_eq!(text, "4 0 0 0\nmoved 1 0 0 0 16 0 0 0 24 0 0 0 24 0 0 0 0 0 0 0 0 0 0 0\nkept\n");
        text.clear();
        Case::moving(known::host_alone().bytes(), &[1], 25).expect(&mut text);
        Case::moving(known::host_alone().bytes(), &[0], 23).expect(&mut text);
        assert_eq!(text, "4 8 0 0\nkept\n4 4 1 0\nkept\n");
    }

    #[test]
    fn a_loop_check_as_a_record() {
        let mut bytes = Vec::new();
        let mut text = String::new();
        let case = Case::a_loop(known::ring().bytes(), 4, &[2, 3, 0]);
        case.write(&mut bytes);
        assert_eq!(bytes.len(), 12 + 80 + 6);
        assert_eq!(bytes[..12], [7, 0, 80, 0, 3, 0, 0, 0, 4, 0, 0, 0]);
        assert_eq!(bytes[92..], [2, 0, 3, 0, 0, 0]);
        case.expect(&mut text);
        Case::a_loop(known::ring().bytes(), 5, &[2, 3, 0]).expect(&mut text);
        assert_eq!(text, "7 0 0 0\n7 12 0 0\n");
    }

    #[test]
    fn the_lag_questions_as_records() {
        let mut bytes = Vec::new();
        let mut text = String::new();
        let case = Case::lags_at(known::ring().bytes(), 9, 5, 24);
        case.write(&mut bytes);
        assert_eq!(bytes.len(), 12 + 80);
        assert_eq!(bytes[..12], [5, 0, 80, 0, 5, 0, 24, 0, 9, 0, 0, 0]);
        case.expect(&mut text);
        Case::lags_at(known::ring().bytes(), 6, 4, 24).expect(&mut text);
        Case::lags_at(known::ring().bytes(), 6, 4, 23).expect(&mut text);
        assert_eq!(text, "5 0 0 0\nlags 0 0 1 1\nkept\n5 11 0\nloop yes\nkept\n5 4 1 0\nkept\n");
        text.clear();
        Case::best(known::ring().bytes(), 4, 24).expect(&mut text);
        Case::best(known::ring_limited((1, 1), (-2, 0)).bytes(), 4, 24).expect(&mut text);
        Case::period(known::ring().bytes()).expect(&mut text);
        assert_eq!(text, "6 0 0 7\nlags 0 0 0 1\nkept\n6 10 0\nloop yes\nkept\n2 0 0 12\n");
    }
}
