//! What the session program prints for a session, from the Rust's answers; and its steps' lines with their touches, from the
//! linker's.

use crate::compare::Compared;
use crate::under_test::Buffers;
use fillqhano::raw::Answer;
use sessions::{Call, Session, Step};
use std::fmt::Write;

/// What the session program prints; none if not every call was compared.
pub fn printed(session: &Session, compared: &Compared) -> Option<String> {
    if compared.answers.len() < session.steps.len() {
        return None;
    }
    let mut text = format!("session {}\n", session.steps.len());
    for (index, (step, (answer, _))) in session.steps.iter().zip(&compared.answers).enumerate() {
        writeln!(text, "{}", step_line(index, step, answer)).unwrap();
    }
    for module in &compared.state.modules {
        write!(text, "module {:x} {:x} {} ", module.base, module.size, module.auto_link as u32).unwrap();
        write!(text, "{} {} ", module.exports.len(), module.indexed_exports.len()).unwrap();
        writeln!(text, "{}", name(&module.name)).unwrap();
    }
    writeln!(text, "missing {}", compared.state.missing.len()).unwrap();
    for missing in &compared.state.missing {
        writeln!(text, "{}", name(missing)).unwrap();
    }
    Some(text)
}

/// Runs the session on the linker; gives a line for each step, with its touch.
pub fn steps_with_touches(session: &Session) -> String {
    let mut buffers = Buffers::of(session);
    let mut text = String::new();
    for (index, step) in session.steps.iter().enumerate() {
        let answer = buffers.call(step);
        let touch = answer.touch().map_or("no".into(), |first| format!("yes {first:x}"));
        writeln!(text, "{} {touch}", step_line(index, step, &answer)).unwrap();
    }
    text
}

fn step_line(index: usize, step: &Step, answer: &Answer) -> String {
    let call = match step.call {
        Call::Initialize => "initialize",
        Call::Load => "load",
        Call::Unload => "unload",
    };
    format!("{} {call} {} {:x}", index + 1, answer.number, answer.value)
}

/// A name's length, and its bytes if it has any.
fn name(bytes: &[u8]) -> String {
    let space = if bytes.is_empty() { "" } else { " " };
    format!("{}{space}{}", bytes.len(), hex(bytes))
}

pub fn hex(bytes: &[u8]) -> String {
    bytes.iter().map(|byte| format!("{byte:02x}")).collect()
}
