//! `touches FILE`: runs a session file as the session program does, and prints that program's line for each step with the step's
//! touch behind it: `no`, or `yes` and where the first access with a byte outside the window started. It takes more steps and a
//! greater window than that program, and does not look at unused words.

use differential::text::steps_with_touches;
use sessions::Session;
use std::process::ExitCode;

fn run() -> Result<String, String> {
    let path = std::env::args().nth(1).ok_or("usage: touches FILE")?;
    let file = std::fs::read(&path).map_err(|error| format!("{path}: {error}"))?;
    let session = Session::from_file(&file)
        .ok_or_else(|| format!("{path}: no session file; `tools/session.py check` says why, and `make` makes one of a text"))?;
    Ok(steps_with_touches(&session))
}

fn main() -> ExitCode {
    match run() {
        Ok(text) => {
            print!("{text}");
            ExitCode::SUCCESS
        }
        Err(what) => {
            eprintln!("{what}");
            ExitCode::FAILURE
        }
    }
}
