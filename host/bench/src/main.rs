//! `bench [PART]`: times the linker and the Rust on the same work, both in one process and in turn, the best of several
//! runs; of the rows with this part in their name. The writer, which the Rust has not, is timed against four copies of its description, and the desk
//! against the same calls made directly.
//! `bench --growth`: works that grow, a line each: what is counted, so many, and nanoseconds of linker and Rust; `tools/growth.py` plots it.
//! `bench --hostile`: calls with counts of 2^24 and 2^32 - 1, each in a process of its own with a limit of time and memory.

mod clock;
mod desk;
mod hostile;
mod work;
mod writer;

use desk::Asked;
use std::process::ExitCode;
use std::time::Duration;
use work::{Work, RUNS};
use writer::Written;

fn main() -> ExitCode {
    if oracle::WATCHED {
        println!("the oracle counts its accesses: build this alone, by `cargo build --release -p bench`");
        return ExitCode::FAILURE;
    }
    let words: Vec<String> = std::env::args().skip(1).collect();
    match words.iter().map(String::as_str).collect::<Vec<_>>()[..] {
        ["--growth"] => growth(),
        ["--hostile"] => hostile::all(),
        ["--hostile", side, case, count] => hostile::one(side, case, count),
        [part] => rows(part),
        _ => rows(""),
    }
    ExitCode::SUCCESS
}

fn rows(part: &str) {
    println!("processor time, best of {RUNS} runs; window and register are fresh copies, made outside the time");
    println!("{:<44} {:>10} {:>10} {:>7}", "", "linker", "Rust", "ratio");
    for work in Work::all().iter().filter(|work| work.name.contains(part)) {
        let (linker, rust) = work.times();
        let ratio = rust.map_or("-".into(), |rust| format!("{:.2}", linker.as_secs_f64() / rust.as_secs_f64()));
        println!("{:<44} {:>10} {:>10} {:>7}", work.name, shown(Some(linker)), shown(rust), ratio);
    }
    println!("{:<44} {:>10} {:>10} {:>7}", "", "writer", "4 copies", "ratio");
    for row in Written::all().iter().filter(|row| row.name.contains(part)) {
        let (writer, copies) = row.times();
        let ratio = writer.as_secs_f64() / copies.as_secs_f64();
        println!("{:<44} {:>10} {:>10} {ratio:>7.2}", row.name, shown(Some(writer)), shown(Some(copies)));
    }
    println!("{:<44} {:>10} {:>10} {:>7}", "", "desk", "direct", "ratio");
    for row in Asked::all().iter().filter(|row| row.name.contains(part)) {
        let (desk, direct) = row.times();
        let ratio = desk.as_secs_f64() / direct.as_secs_f64();
        println!("{:<44} {:>10} {:>10} {ratio:>7.2}", row.name, shown(Some(desk)), shown(Some(direct)));
    }
    let sends = "128 sends, which fill the desk";
    if sends.contains(part) {
        println!("{sends:<44} {:>10}", shown(Some(desk::sends())));
    }
}

fn growth() {
    for (counted, works) in Work::growing() {
        for (size, work) in works {
            let (linker, rust) = work.times();
            println!("{counted}\t{size}\t{}\t{}", linker.as_nanos(), rust.map_or("-".into(), |rust| rust.as_nanos().to_string()));
        }
    }
}

fn shown(time: Option<Duration>) -> String {
    match time.map(|time| time.as_nanos()) {
        None => "-".into(),
        Some(nanos @ 0..10_000) => format!("{nanos} ns"),
        Some(nanos @ 10_000..10_000_000) => format!("{:.1} us", nanos as f64 / 1e3),
        Some(nanos) => format!("{:.2} ms", nanos as f64 / 1e6),
    }
}
