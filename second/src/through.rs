//! Random and damaged inputs through a driver of the library's C interface: every answer is judged by the second program's own.

use crate::cases::wild;
use crate::links;
use crate::questions::{self, loop_room, Answer, BEST, CHECK, LAGS, LOOP, MOVE, NONE_MEETS, NONE_PERMITTED, PERIOD, TABLE};
use crate::random::Random;
use crate::record::{byte_before, lag_before, list_before, word_before, Case};
use crate::sheet::{self, Sheet};
use std::io::{self, BufRead, BufReader, Lines, Write};
use std::process::{ChildStdout, Command, Stdio};
use std::thread;

const BATCH: usize = 1_000;
const NAMES: [&str; 7] = ["check", "period", "path table", "move", "lags at c", "best", "check a loop"];
const MOST_NUMBER: usize = 12;

/// What the driver says of one case: every list that the question may write, as numbers.
#[derive(Debug)]
struct Reply {
    question: u32,
    answer: Answer,
    lists: Vec<Vec<u32>>,
    guards: String,
}

/// How many cases had each answer, question by question.
struct Counts([[usize; MOST_NUMBER + 1]; 7]);

fn numbers(line: &str) -> Option<Vec<u32>> {
    line.split(' ').map(|word| word.parse().ok()).collect()
}

/// A list's line: its name and its entries.
fn list(line: &str) -> Option<Vec<u32>> {
    match line.split_once(' ') {
        Some((_, entries)) => numbers(entries),
        None => Some(Vec::new()),
    }
}

fn read_reply(lines: &mut Lines<BufReader<ChildStdout>>) -> Option<Reply> {
    let mut line = || lines.next()?.ok();
    let &[question, number, place, value] = &numbers(&line()?)?[..] else {
        return None;
    };
    let mut lists = Vec::new();
    loop {
        let next = line()?;
        if let Some(guards) = next.strip_prefix("guards ") {
            let guards = guards.to_string();
            return Some(Reply { question, answer: Answer { number, place, value }, lists, guards });
        }
        lists.push(list(&next)?);
    }
}

fn widened<T: Copy + Into<u32>>(list: &[T]) -> Vec<u32> {
    list.iter().map(|&x| x.into()).collect()
}

fn as_words(lags: &[i16]) -> Vec<u32> {
    lags.iter().map(|&lag| lag as u16 as u32).collect()
}

/// The answer and the lists afterwards; with 10 and 11 without word count and words.
fn expected(case: &Case) -> (Answer, Vec<Vec<u32>>) {
    let sheet = &case.sheet;
    match case.question {
        CHECK => (questions::check(sheet), vec![]),
        PERIOD => (questions::period(sheet), vec![]),
        TABLE => {
            let (mut registers, mut delays) = (list_before(case.a), list_before(case.b));
            let answer = questions::path_table(sheet, &mut registers, &mut delays);
            (answer, vec![registers, delays])
        }
        MOVE => {
            let lags: Vec<i16> = case.given.iter().map(|&bits| bits as i16).collect();
            let mut moved: Vec<u8> = (0..case.b).map(byte_before).collect();
            let answer = questions::move_sheet(sheet, &lags, &mut moved);
            (answer, vec![widened(&moved)])
        }
        LOOP => (questions::check_loop(sheet, case.c, &case.given), vec![]),
        question => {
            let mut lags: Vec<i16> = (0..case.a).map(lag_before).collect();
            let answer = match question {
                LAGS => questions::lags_at(sheet, case.c, &mut lags, case.b),
                BEST => questions::best(sheet, &mut lags, case.b),
                other => panic!("no such question: {other}"),
            };
            let words: Vec<u16> = (0..case.b).map(word_before).collect();
            (answer, vec![as_words(&lags), widened(&words)])
        }
    }
}

/// Whether no block is the a of two links.
fn visits_once(sheet: &Sheet, c: u32, words: &[u16]) -> bool {
    let mut seen = vec![false; sheet.n()];
    let rules = links::rules_of(sheet, c, words).unwrap_or_default();
    rules.iter().all(|rule| !std::mem::replace(&mut seen[rule.a], true))
}

/// The loop that comes with 10 is valid even where no path is too slow.
const NO_PATH_EXCEEDS: u32 = u32::MAX;

/// The four properties that the loop with 10 or 11 has, and that nothing past it is written.
fn judge_loop(case: &Case, answer: Answer, words: &[u32]) -> Result<(), String> {
    let sheet = sheet::frame(&case.sheet).and_then(|f| sheet::entries(&case.sheet, f)).expect("10 and 11 are given for sound sheets");
    let count = answer.value as usize;
    if count > loop_room(sheet.n()) || count > words.len() {
        return Err(format!("{count} words are too many"));
    }
    let (counted, rest) = words.split_at(count);
    let counted: Vec<u16> = counted.iter().map(|&word| word as u16).collect();
    let periods = if answer.number == NONE_MEETS { vec![case.c] } else { vec![0, case.c, NO_PATH_EXCEEDS] };
    if let Some(c) = periods.iter().find(|&&c| !links::is_valid(&sheet, c, &counted)) {
        return Err(format!("the loop is not valid at {c}"));
    }
    if !visits_once(&sheet, periods[0], &counted) {
        return Err("a block is visited twice as an a".to_string());
    }
    // A path would not exceed the largest period: validity there has ruled kind 2 out for 10.
    let kept = rest.iter().enumerate().all(|(i, &word)| word == word_before(count + i) as u32);
    if kept { Ok(()) } else { Err("words past the count have changed".to_string()) }
}

fn judge(case: &Case, reply: &Reply) -> Result<(), String> {
    let (answer, lists) = expected(case);
    if reply.question != case.question as u32 {
        return Err("the driver answers another question".to_string());
    }
    if reply.guards != "ok" {
        return Err(format!("guards {}", reply.guards));
    }
    if (reply.answer.number, reply.answer.place) != (answer.number, answer.place) {
        return Err(format!("expected {answer:?}"));
    }
    if [NONE_PERMITTED, NONE_MEETS].contains(&answer.number) {
        if reply.lists.len() != 2 || reply.lists[0] != lists[0] {
            return Err("the lags have changed".to_string());
        }
        return judge_loop(case, reply.answer, &reply.lists[1]);
    }
    if reply.answer.value != answer.value {
        return Err(format!("expected {answer:?}"));
    }
    if reply.lists == lists { Ok(()) } else { Err(format!("expected lists {lists:?}")) }
}

/// The case as a person and a driver can read it.
fn dump(number: usize, case: &Case, why: &str, reply: Option<&Reply>) {
    let mut record = Vec::new();
    case.write(&mut record);
    let hex: String = record.iter().map(|byte| format!("{byte:02x}")).collect();
    eprintln!("input {number} differs: {why}");
    eprintln!("{case:?}");
    eprintln!("as a record, in hexadecimal: {hex}");
    match reply {
        Some(reply) => eprintln!("the driver said: {reply:?}"),
        None => eprintln!("the driver said nothing more"),
    }
}

fn differs(number: usize, case: &Case, why: &str, reply: Option<&Reply>) -> io::Error {
    dump(number, case, why, reply);
    io::Error::other("the library and the second program differ")
}

/// One child answers a batch; a thread of its own writes the cases, since the child answers while it reads.
fn ask_batch(driver: &str, from: usize, cases: &[Case], counts: &mut Counts) -> io::Result<()> {
    let mut words = driver.split_whitespace();
    let program = words.next().ok_or_else(|| io::Error::other("no driver is named"))?;
    let mut child = Command::new(program)
        .args(words)
        .stdin(Stdio::piped())
        .stdout(Stdio::piped())
        .spawn()
        .map_err(|error| io::Error::other(format!("{program}: {error}")))?;
    let mut to_child = child.stdin.take().expect("the child's input is a pipe");
    let mut lines = BufReader::new(child.stdout.take().expect("the child's output is a pipe")).lines();
    let mut input = Vec::new();
    for case in cases {
        case.write(&mut input);
    }
    // A child that has ended is noticed by its missing answers.
    let writer = thread::spawn(move || drop(to_child.write_all(&input)));
    for (i, case) in cases.iter().enumerate() {
        let Some(reply) = read_reply(&mut lines) else {
            return Err(differs(from + i, case, "no answer", None));
        };
        judge(case, &reply).map_err(|why| differs(from + i, case, &why, Some(&reply)))?;
        counts.0[case.question as usize - 1][reply.answer.number as usize] += 1;
    }
    writer.join().expect("the writer does not panic");
    if lines.next().is_some() || !child.wait()?.success() {
        return Err(io::Error::other("the driver says more than was asked, or ends badly"));
    }
    Ok(())
}

fn show(counts: &Counts) {
    for (name, row) in NAMES.iter().zip(&counts.0) {
        let given: Vec<String> =
            row.iter().enumerate().filter(|(_, count)| **count > 0).map(|(number, count)| format!("{number}: {count}")).collect();
        println!("{name}: {} ({})", row.iter().sum::<usize>(), given.join(", "));
    }
}

/// Asks so many inputs; the first difference ends it.
pub fn run(driver: &str, count: usize, seed: u64) -> io::Result<()> {
    let mut rng = Random::new(seed);
    let mut counts = Counts([[0; MOST_NUMBER + 1]; 7]);
    for from in (0..count).step_by(BATCH) {
        let cases: Vec<Case> = (from..count.min(from + BATCH)).map(|_| wild::one(&mut rng)).collect();
        ask_batch(driver, from, &cases, &mut counts)?;
    }
    println!("{count} inputs from seed {seed}, question by question (answer: inputs):");
    show(&counts);
    println!("every number, place, value and list is the second program's, every loop is valid, every guard is whole");
    Ok(())
}

#[cfg(test)]
mod tests {
    use super::*;
    use crate::known;

    fn reply(case: &Case, answer: Answer, lists: Vec<Vec<u32>>) -> Reply {
        Reply { question: case.question as u32, answer, lists, guards: "ok".to_string() }
    }

    fn words_with(case: &Case, start: &[u32]) -> Vec<u32> {
        let mut words: Vec<u32> = (0..case.b).map(|i| word_before(i) as u32).collect();
        words[..start.len()].copy_from_slice(start);
        words
    }

    #[test]
    fn the_right_answer_is_accepted_and_any_other_is_not() {
        let mut rng = Random::new(11);
        for _ in 0..400 {
            let case = wild::one(&mut rng);
            let (answer, lists) = expected(&case);
            if [NONE_PERMITTED, NONE_MEETS].contains(&answer.number) {
                continue;
            }
            let right = reply(&case, answer, lists.clone());
            assert_eq!(judge(&case, &right), Ok(()));
            for wrong in [
                Answer { number: answer.number + 1, ..answer },
                Answer { place: answer.place + 1, ..answer },
                Answer { value: answer.value + 1, ..answer },
            ] {
                assert!(judge(&case, &reply(&case, wrong, lists.clone())).is_err());
            }
            for i in 0..lists.len() {
                let mut changed = lists.clone();
                if let Some(last) = changed[i].last_mut() {
                    *last ^= 1;
                    assert!(judge(&case, &reply(&case, answer, changed)).is_err());
                }
            }
            assert!(judge(&case, &Reply { guards: "broken".to_string(), ..right }).is_err());
        }
    }

    #[test]
    fn loops_are_judged() {
        let case = Case::lags_at(known::ring().bytes(), 6, 4, 24);
        let lags = as_words(&(0..4).map(lag_before).collect::<Vec<_>>());
        let ask = |value: u32, start: &[u32]| {
            let answer = Answer { number: NONE_MEETS, place: 0, value };
            judge(&case, &reply(&case, answer, vec![lags.clone(), words_with(&case, start)]))
        };
        let valid = [2, 1, 1, 1, 2, 2, 1, 2, 2, 3, 2, 3, 0];
        assert_eq!(ask(13, &valid), Ok(()));
        assert!(ask(12, &valid).is_err());
        assert!(ask(25, &valid).is_err());
        assert!(ask(0, &[]).is_err());
        // One word past the count.
        assert!(ask(13, &[&valid[..], &[0]].concat()).is_err());
        // Valid, but block 1 is visited twice.
        let twice = [&[2, 1, 0], &valid[..]].concat();
        assert!(ask(16, &twice).is_err());
    }

    #[test]
    fn a_loop_with_ten_has_no_path() {
        let mut sheet = known::ring_limited((1, 1), (-2, 0));
        sheet.wires[0].registers = 2;
        let case = Case::best(sheet.bytes(), 4, 24);
        let lags = as_words(&(0..4).map(lag_before).collect::<Vec<_>>());
        let ask = |start: &[u32]| {
            let answer = Answer { number: NONE_PERMITTED, place: 0, value: start.len() as u32 };
            judge(&case, &reply(&case, answer, vec![lags.clone(), words_with(&case, start)]))
        };
        assert_eq!(ask(&[4, 1, 1, 1, 1, 2, 3, 3]), Ok(()));
        assert!(ask(&[4, 1, 2, 1, 2, 1, 2, 3, 3]).is_err());
    }
}
