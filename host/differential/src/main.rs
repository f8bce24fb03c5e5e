//! `differential [--seed N] [--sessions M] [--requests R] [--descriptions D]`: M sessions of each family, compared with the Rust, R sessions of
//! requests through the desk, compared with the Rust's `handle`, and D descriptions, the writer's answers compared with its text. With the
//! gate's seed and numbers the stored answers are compared too, and `--store` writes them. `--file PATH` compares one session file and prints what the session program should.

use differential::compare::{compare, Compared, Mismatch, Tally};
use differential::desk::{self, Requests};
use differential::families::Family;
use differential::history::{run_pair, Seen};
use differential::stored::{self, Answers};
use differential::writer::{self, Written};
use differential::{shrink, text};
use sessions::Session;
use std::process::ExitCode;

/// The gate's seed, how many sessions of each family, how many of requests, and how many descriptions.
const SEED: u64 = 1;
const SESSIONS: u64 = 150;
const REQUESTS: u64 = 300;
const DESCRIPTIONS: u64 = 20_000;
const STORED: &str = concat!(env!("CARGO_MANIFEST_DIR"), "/stored.txt");
const STORED_DESK: &str = concat!(env!("CARGO_MANIFEST_DIR"), "/stored_desk.txt");

struct Asked {
    seed: u64,
    sessions: u64,
    requests: u64,
    descriptions: u64,
    store: bool,
    file: Option<String>,
}

fn asked() -> Result<Asked, String> {
    let mut asked =
        Asked { seed: SEED, sessions: SESSIONS, requests: REQUESTS, descriptions: DESCRIPTIONS, store: false, file: None };
    let mut words = std::env::args().skip(1);
    while let Some(word) = words.next() {
        let mut value = || words.next().ok_or(format!("{word} needs a value"));
        match word.as_str() {
            "--seed" => asked.seed = value()?.parse().map_err(|_| "--seed needs a number")?,
            "--sessions" => asked.sessions = value()?.parse().map_err(|_| "--sessions needs a number")?,
            "--requests" => asked.requests = value()?.parse().map_err(|_| "--requests needs a number")?,
            "--descriptions" => asked.descriptions = value()?.parse().map_err(|_| "--descriptions needs a number")?,
            "--file" => asked.file = Some(value()?),
            "--store" => asked.store = true,
            _ => return Err(format!("what is {word}?")),
        }
    }
    Ok(asked)
}

fn main() -> ExitCode {
    match asked().and_then(run) {
        Ok(()) => ExitCode::SUCCESS,
        Err(what) => {
            println!("{what}");
            ExitCode::FAILURE
        }
    }
}

fn run(asked: Asked) -> Result<(), String> {
    if let Some(path) = &asked.file {
        let file = std::fs::read(path).map_err(|error| format!("{path}: {error}"))?;
        let session = Session::from_file(&file).ok_or("no session file")?;
        let compared = compare(&session).ok_or("the Rust's sources are not at hand")?;
        return report(&session, compared);
    }
    compare_pairs(&asked)?;
    compare_descriptions(&asked)?;
    let gate = asked.seed == SEED && asked.sessions == SESSIONS && asked.requests == REQUESTS;
    if !oracle::AT_HAND {
        let calls = replay()? + replay_desk()?;
        println!("the Rust itself was NOT compared, its sources are not at hand: {calls} of its stored answers, 0 mismatches");
        return Ok(());
    }
    let (turns, requests) = compare_requests(&asked)?;
    let (answers, calls) = compare_all(&asked)?;
    for (path, text) in [(STORED, answers.text()), (STORED_DESK, turns.text())] {
        if asked.store {
            std::fs::write(path, text).map_err(|error| format!("{path}: {error}"))?;
        } else if gate && text != std::fs::read_to_string(path).unwrap_or_default() {
            return Err("the stored answers are not those of the Rust: `differential --store` writes them".into());
        }
    }
    if gate {
        println!("{} stored answers replayed, 0 mismatches", replay()? + replay_desk()?);
    }
    println!("the Rust itself was compared: {calls} calls and {requests} requests, 0 mismatches");
    Ok(())
}

/// Demand 3 by running.
fn compare_pairs(asked: &Asked) -> Result<(), String> {
    let mut seen = Seen::default();
    for number in 0..asked.sessions {
        run_pair(asked.seed, number, &mut seen)?;
    }
    println!(
        "history: {} pairs of sessions, {} calls; {} bytes of standing modules are the same with and without",
        seen.pairs, seen.calls, seen.bytes
    );
    println!("  {} imports hold their address, {} of them an exporter's", seen.imports, seen.linked);
    println!(
        "  {} calls besides with a bad window, {} with a bad register, {} of them before the static module's initialize",
        seen.bad_windows, seen.bad_registers, seen.before_crs
    );
    Ok(())
}

/// The writer against its text.
fn compare_descriptions(asked: &Asked) -> Result<(), String> {
    let mut written = Written::default();
    for number in 0..asked.descriptions {
        writer::try_one(asked.seed, number, &mut written)?;
        writer::try_reading(asked.seed, number)?;
    }
    println!(
        "writer: {} descriptions, {} taken, {} of them with a word past the image; the text judged {} places",
        written.descriptions, written.accepted, written.far, written.places
    );
    println!(
        "  refused: {} not of the form, {} without a place, {} not well laid in some place",
        written.not_described, written.no_place, written.not_laid
    );
    Ok(())
}

fn replay() -> Result<u64, String> {
    let answers = std::fs::read_to_string(STORED).map_err(|error| format!("{STORED}: {error}"))?;
    stored::replay(&answers, SEED)
}

fn replay_desk() -> Result<u64, String> {
    let turns = std::fs::read_to_string(STORED_DESK).map_err(|error| format!("{STORED_DESK}: {error}"))?;
    desk::replay(&turns, SEED)
}

/// The desk against the Rust's `handle`; gives the Rust's answers, and how many requests were compared.
fn compare_requests(asked: &Asked) -> Result<(desk::Answers, u64), String> {
    let mut answers = desk::Answers::default();
    let mut all = desk::Tally::default();
    for number in 0..asked.requests {
        let requests = Requests::new(asked.seed, number);
        let compared = desk::compare(&requests).unwrap();
        if let Some(what) = compared.mismatch {
            let made = compared.answers.len();
            return Err(format!("desk session {number} of seed {}, turn {}: {what}\n{requests:x?}", asked.seed, made + 1));
        }
        answers.add(number, &compared.answers);
        all += compared.tally;
    }
    show_desk(&all);
    Ok((answers, all.compared()))
}

fn show_desk(tally: &desk::Tally) {
    println!("desk: {} sessions, {} requests, {} with a touch", tally.sessions, tally.compared(), tally.touched);
    let [done, no_cro, bad_segment, _, _, full, .., elsewhere] = tally.numbers;
    println!("  number 0: {done}, 1: {no_cro}, 2: {bad_segment}, 5: {full}; 9, by the definition alone: {elsewhere}");
    let [others, ids @ ..] = tally.ids;
    println!("  ids 1 to 9: {ids:?}, others: {others}");
    println!("  buffers outside the window {}, across an edge {}", tally.outside, tally.across);
    println!("  bad windows and registers besides: {}", tally.refused);
    println!(
        "  set apart: odd names {}, high batches {} equal and {} not; not compared: too long {}",
        tally.odd_names, tally.high_batches, tally.high_differences, tally.cut
    );
}

/// Compares the sessions of every family; gives the Rust's answers, and how many calls were compared.
fn compare_all(asked: &Asked) -> Result<(Answers, u64), String> {
    let mut answers = Answers::default();
    let mut all = Tally::default();
    for family in Family::ALL {
        let mut tally = Tally::default();
        for number in 0..asked.sessions {
            let session = family.session(asked.seed, number);
            let compared = compare(&session).unwrap();
            if let Some(mismatch) = compared.mismatch {
                println!("{} session {number} of seed {}", family.name(), asked.seed);
                return Err(smallest(&session, mismatch));
            }
            answers.add(family, number, &compared.answers);
            tally += compared.tally;
        }
        show(family.name(), &tally);
        all += tally;
    }
    show("all", &all);
    Ok((answers, all.compared()))
}

fn show(name: &str, tally: &Tally) {
    let ([done, no_cro, bad_segment, _, _, full], [initialize, load, unload]) = (tally.calls, tally.kinds);
    println!("{name}: {} sessions, {} calls", tally.sessions, tally.compared());
    println!("  initialize {initialize}, load {load}, unload {unload}");
    println!(
        "  number 0: {done}, 1: {no_cro}, 2: {bad_segment}, 5: {full}; bad windows and registers besides: {}",
        tally.refused
    );
    let [done, no_cro, bad_segment, _, _, full] = tally.touched;
    println!("  of them with a touch: number 0: {done}, 1: {no_cro}, 2: {bad_segment}, 5: {full}");
    println!("  with 64 modules {}, with 64 missing names {}", tally.most_modules, tally.most_missing);
    println!(
        "  set apart: odd names {}, high batches {} equal and {} not",
        tally.odd_names, tally.high_batches, tally.high_differences
    );
    println!(
        "  5 where buffers grow: {} for the limit, {} for counts or names that the image rewrites",
        tally.limited, tally.rewritten
    );
    println!("  not compared: too long {}; no room, with the model's window alone {}", tally.cut, tally.unseen);
}

fn report(session: &Session, compared: Compared) -> Result<(), String> {
    if let Some(mismatch) = compared.mismatch {
        return Err(format!("step {}: {}", mismatch.step + 1, mismatch.what));
    }
    print!("{}", text::printed(session, &compared).ok_or("a call was not compared")?);
    Ok(())
}

/// Makes the session smaller, writes it as a session file, and says what it shows.
fn smallest(session: &Session, found: Mismatch) -> String {
    let (session, mismatch) = shrink::shrink(session).unwrap_or((session.clone(), found));
    let path = std::env::temp_dir().join("mismatch.session");
    let written = std::fs::write(&path, session.to_file());
    let mut text = format!("step {}: {}\n", mismatch.step + 1, mismatch.what);
    text += &format!("{:?}, window at {:#x}\n", session.room, session.at);
    for step in &session.steps {
        text += &format!("{step:x?}\n");
    }
    for (index, word) in session.window.chunks(4).enumerate().filter(|(_, word)| word.iter().any(|&byte| byte != 0)) {
        text += &format!("{:08x}: {}\n", session.at as usize + 4 * index, text::hex(word));
    }
    match written {
        Ok(()) => text + &format!("session file: {}", path.display()),
        Err(error) => text + &format!("session file not written: {error}\n{}", text::hex(&session.to_file())),
    }
}
