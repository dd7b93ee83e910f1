//! The second program: `second cases DIR` writes the cases and expected answers, the other commands ask one sheet.

mod against;
mod bench;
mod cases;
mod fast;
mod known;
mod lags;
mod links;
mod paths;
mod questions;
mod random;
mod record;
mod refute;
mod shapes;
mod sheet;
mod through;
#[cfg(test)]
mod trial;

use std::path::Path;
use std::process::ExitCode;
use std::str::FromStr;
use std::{env, fs, io};

const USAGE: &str = "usage: second cases DIR | second one FILE | second lags FILE C | second move FILE LAG... \
                     | second loop FILE C WORD... | second fast-bench COUNT SEED | second against TIMER COUNT SEED \
                     | second through DRIVER COUNT SEED";

fn write_cases(dir: &Path) -> io::Result<()> {
    let (mut input, mut expected) = (Vec::new(), String::new());
    for case in cases::all() {
        case.write(&mut input);
        case.expect(&mut expected);
    }
    fs::create_dir_all(dir)?;
    fs::write(dir.join("stdin"), input)?;
    fs::write(dir.join("stdout"), expected)
}

fn show(answer: questions::Answer) -> String {
    match answer.number {
        0 => "done".to_string(),
        number => format!("refusal {number} at {}", answer.place),
    }
}

fn ask_one(bytes: &[u8]) {
    println!("check: {}", show(questions::check(bytes)));
    let n = sheet::frame(bytes).map_or(0, |f| f.n);
    let (mut registers, mut delays) = (vec![0; n * n], vec![0; n * n]);
    let answer = questions::path_table(bytes, &mut registers, &mut delays);
    println!("path table: {}", show(answer));
    if answer.number != 0 {
        return;
    }
    println!("period: {}", questions::period(bytes).value);
    ask_best(bytes, n);
    println!("registers/delay, a row for each start, - without a path");
    for u in 0..n {
        let row: Vec<String> = (u * n..u * n + n)
            .map(|i| match registers[i] {
                u32::MAX => "-".to_string(),
                fewest => format!("{fewest}/{}", delays[i]),
            })
            .collect();
        println!("{u:>2}: {}", row.join(" "));
    }
}

fn show_lags(name: &str, answer: questions::Answer, lags: &[i16]) {
    match answer.number {
        0 => println!("{name}: lags {lags:?}"),
        _ => println!("{name}: {}", show(answer)),
    }
}

fn ask_lags(bytes: &[u8], c: u32) {
    let n = sheet::frame(bytes).map_or(0, |f| f.n);
    let mut lags = vec![0; n];
    let answer = questions::lags_at(bytes, c, &mut lags, questions::loop_room(n));
    show_lags(&format!("at {c}"), answer, &lags);
}

fn ask_best(bytes: &[u8], n: usize) {
    let mut lags = vec![0; n];
    let answer = questions::best(bytes, &mut lags, questions::loop_room(n));
    let name = if answer.number == 0 { format!("best {}", answer.value) } else { "best".to_string() };
    show_lags(&name, answer, &lags);
}

fn show_moved(bytes: &[u8], lags: &[i16]) {
    let mut out = vec![0; bytes.len()];
    let answer = questions::move_sheet(bytes, lags, &mut out);
    println!("move: {}", show(answer));
    if answer.number != 0 {
        return;
    }
    println!("period: {}, then {}", questions::period(bytes).value, questions::period(&out).value);
    let read = |b: &[u8]| sheet::frame(b).and_then(|f| sheet::entries(b, f)).expect("answer 0 means sound");
    for (i, (old, new)) in read(bytes).wires.iter().zip(&read(&out).wires).enumerate() {
        println!("wire {i}: {} to {}, {} then {} registers", old.from, old.to, old.registers, new.registers);
    }
}

/// Words given as arguments, if each is a number of its kind.
fn numbers<T: FromStr>(words: &[&str]) -> Option<Vec<T>> {
    words.iter().map(|word| word.parse().ok()).collect()
}

fn bad_usage() -> ExitCode {
    eprintln!("{USAGE}");
    ExitCode::from(2)
}

fn main() -> ExitCode {
    let words: Vec<String> = env::args().skip(1).collect();
    let words: Vec<&str> = words.iter().map(String::as_str).collect();
    let outcome = match words[..] {
        ["cases", dir] => write_cases(Path::new(dir)),
        ["one", file] => fs::read(file).map(|bytes| ask_one(&bytes)),
        ["move", file, ref lags @ ..] => {
            let Some(lags) = numbers::<i16>(lags) else {
                return bad_usage();
            };
            fs::read(file).map(|bytes| show_moved(&bytes, &lags))
        }
        ["lags", file, c] => {
            let Ok(c) = c.parse() else {
                return bad_usage();
            };
            fs::read(file).map(|bytes| ask_lags(&bytes, c))
        }
        ["loop", file, c, ref words @ ..] => {
            let (Ok(c), Some(words)) = (c.parse(), numbers(words)) else {
                return bad_usage();
            };
            fs::read(file).map(|bytes| println!("loop: {}", show(questions::check_loop(&bytes, c, &words))))
        }
        ["fast-bench", count, seed] => match (count.parse(), seed.parse()) {
            (Ok(count @ 1..), Ok(seed)) => {
                bench::run(count, seed);
                Ok(())
            }
            _ => return bad_usage(),
        },
        ["against", timer, count, seed] => match (count.parse(), seed.parse()) {
            (Ok(count @ 1..), Ok(seed)) => against::run(timer, count, seed),
            _ => return bad_usage(),
        },
        ["through", driver, count, seed] => match (count.parse(), seed.parse()) {
            (Ok(count), Ok(seed)) => through::run(driver, count, seed),
            _ => return bad_usage(),
        },
        _ => return bad_usage(),
    };
    match outcome {
        Ok(()) => ExitCode::SUCCESS,
        Err(error) => {
            eprintln!("second: {error}");
            ExitCode::FAILURE
        }
    }
}
