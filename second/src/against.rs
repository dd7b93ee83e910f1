//! The library's times beside those of the fast version, on the same sheets in one run.

use crate::bench::{quickest, with_ranges, KINDS};
use crate::fast;
use crate::questions::loop_room;
use crate::random::Random;
use crate::record::Case;
use crate::shapes;
use crate::sheet::Sheet;
use std::hint::black_box;
use std::io::{self, Write};
use std::process::{Command, Stdio};
use std::{env, fs, thread};

const STAGES: [&str; 5] = ["check", "period", "table", "best", "together"];

/// Mean nanoseconds of each stage; the fast version has no question for the table alone.
type Times = [Option<f64>; STAGES.len()];

/// The times that the timing program prints, a line for each sheet.
fn library_times(timer: &str, sheets: &[Sheet]) -> io::Result<Times> {
    let mut child = Command::new(timer).stdin(Stdio::piped()).stdout(Stdio::piped()).spawn()?;
    let mut to_child = child.stdin.take().expect("the child's input is a pipe");
    let mut input = Vec::new();
    for sheet in sheets {
        Case::check(sheet.bytes()).write(&mut input);
    }
    let writer = thread::spawn(move || drop(to_child.write_all(&input)));
    let said = child.wait_with_output()?;
    writer.join().expect("the writer does not panic");
    let text = String::from_utf8_lossy(&said.stdout).into_owned();
    let rows: Option<Vec<Vec<f64>>> =
        text.lines().map(|line| line.split_whitespace().map(|word| word.parse().ok()).collect()).collect();
    let whole = |rows: &Vec<Vec<f64>>| rows.len() == sheets.len() && rows.iter().all(|row| row.len() > STAGES.len());
    let rows = rows.filter(whole).ok_or_else(|| io::Error::other("the timing program did not time every sheet"))?;
    let mut times = [None; STAGES.len()];
    for (i, time) in times.iter_mut().enumerate() {
        *time = Some(rows.iter().map(|row| row[i]).sum::<f64>() / sheets.len() as f64);
    }
    Ok(times)
}

fn mean(sheets: &[Sheet], mut run: impl FnMut(&[u8], &mut [i16], usize)) -> Option<f64> {
    let mut sum = 0.0;
    for sheet in sheets {
        let (bytes, mut lags) = (sheet.bytes(), vec![0; sheet.n()]);
        sum += quickest(|| run(black_box(&bytes), &mut lags, loop_room(sheet.n()))).as_nanos() as f64;
    }
    Some(sum / sheets.len() as f64)
}

fn fast_times(sheets: &[Sheet]) -> Times {
    [
        mean(sheets, |bytes, _, _| {
            black_box(fast::check(bytes));
        }),
        mean(sheets, |bytes, _, _| {
            black_box(fast::period(bytes));
        }),
        None,
        mean(sheets, |bytes, lags, room| {
            black_box(fast::best(bytes, lags, room));
        }),
        mean(sheets, |bytes, lags, room| {
            black_box(fast::together(bytes, lags, room));
        }),
    ]
}

fn row(name: &str, times: &Times, show: impl Fn(f64) -> String) {
    let cells: Vec<String> = times.iter().map(|time| format!("{:>10}", time.map_or("-".to_string(), &show))).collect();
    println!("  {name:<8}{}", cells.join(""));
}

fn compare(timer: &str, name: &str, sheets: &[Sheet]) -> io::Result<()> {
    let (library, fast) = (library_times(timer, sheets)?, fast_times(sheets));
    let mut ratio = [None; STAGES.len()];
    for i in 0..STAGES.len() {
        ratio[i] = library[i].zip(fast[i]).map(|(library, fast)| library / fast);
    }
    println!("{name}");
    row("library", &library, |nanos| format!("{:.2}", nanos / 1_000.0));
    row("fast", &fast, |nanos| format!("{:.2}", nanos / 1_000.0));
    row("ratio", &ratio, |ratio| format!("{ratio:.2}"));
    Ok(())
}

fn say_processor() {
    let model = fs::read_to_string("/proc/cpuinfo").unwrap_or_default();
    let model = model.lines().find_map(|line| line.strip_prefix("model name")).map_or("", |rest| rest.trim_start_matches([' ', '\t', ':']));
    println!("processor: {} {model}", env::consts::ARCH);
    if env::consts::ARCH != "x86_64" {
        println!("The library is delivered as x86-64 code; timed here is its compiled module, built for this processor.");
    }
}

fn sized(rng: &mut Random, n: usize, m: usize) -> Sheet {
    with_ranges(shapes::connected(rng, n, m, 2, 10_000), 500)
}

/// Prints both times and their ratio for so many sheets of each kind, then how they grow with blocks and wires.
pub fn run(timer: &str, count: usize, seed: u64) -> io::Result<()> {
    say_processor();
    println!("microseconds for one sheet, mean of {count}, each the quickest of 5 runs; together: check, period and best");
    println!("  {:<8}{}", "", STAGES.map(|stage| format!("{stage:>10}")).join(""));
    println!("\n64 blocks, 256 wires");
    for kind in KINDS {
        let mut rng = Random::new(seed);
        let sheets: Vec<Sheet> = (0..count).map(|_| (kind.sheet)(&mut rng)).collect();
        compare(timer, kind.name, &sheets)?;
    }
    println!("\nrandom, 0 to 2 registers, wide ranges, by size");
    for (n, m) in [(8, 32), (16, 64), (32, 128), (64, 64), (64, 128), (64, 256)] {
        let mut rng = Random::new(seed);
        let sheets: Vec<Sheet> = (0..count).map(|_| sized(&mut rng, n, m)).collect();
        compare(timer, &format!("{n} blocks, {m} wires"), &sheets)?;
    }
    Ok(())
}
