//! Makes a session that shows a mismatch smaller, as long as it shows one.

use crate::compare::{compare, Mismatch};
use sessions::Session;
use std::time::{Duration, Instant};

/// How long it may take.
const LIMIT: Duration = Duration::from_secs(20);

fn mismatch(session: &Session) -> Option<Mismatch> {
    compare(session)?.mismatch
}

/// The smallest session found, and what it shows.
pub fn shrink(session: &Session) -> Option<(Session, Mismatch)> {
    let mut session = session.clone();
    session.steps.truncate(mismatch(&session)?.step + 1);
    drop_steps(&mut session);
    drop_pages(&mut session);
    let end = Instant::now() + LIMIT;
    let mut size = session.window.len() / 2;
    while size > 0 {
        clear(&mut session, size, end);
        size /= 2;
    }
    drop_steps(&mut session);
    let shown = mismatch(&session)?;
    Some((session, shown))
}

fn drop_steps(session: &mut Session) {
    for index in (0..session.steps.len()).rev() {
        let mut smaller = session.clone();
        smaller.steps.remove(index);
        if mismatch(&smaller).is_some() {
            *session = smaller;
        }
    }
}

fn drop_pages(session: &mut Session) {
    while session.window.len() > 0x1000 {
        let mut smaller = session.clone();
        smaller.window.truncate(session.window.len() - 0x1000);
        if mismatch(&smaller).is_none() {
            return;
        }
        *session = smaller;
    }
}

/// Clears blocks of this size, as long as there is time.
fn clear(session: &mut Session, size: usize, end: Instant) {
    for start in (0..session.window.len()).step_by(size) {
        let block = start..(start + size).min(session.window.len());
        if Instant::now() > end || session.window[block.clone()].iter().all(|&byte| byte == 0) {
            continue;
        }
        let mut smaller = session.clone();
        smaller.window[block].fill(0);
        if mismatch(&smaller).is_some() {
            *session = smaller;
        }
    }
}
