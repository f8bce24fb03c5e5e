//! A touch that is told wrongly is noticed: for each wrong way a session of the gate shows a mismatch, and the right way shows
//! none. Without the Rust's sources nothing is compared.

use differential::compare::{compare, compare_by};
use differential::families::Family;
use differential::faults::WRONGLY_TOLD;
use sessions::Session;

#[test]
fn a_touch_told_wrongly_is_noticed() {
    let sessions: Vec<Session> = (0..150).map(|number| Family::Reaching.session(1, number)).collect();
    assert!(sessions.iter().all(|session| compare(session).is_none_or(|compared| compared.mismatch.is_none())));
    for (what, told) in WRONGLY_TOLD {
        let noticed = |session: &Session| compare_by(session, told).is_none_or(|compared| compared.mismatch.is_some());
        assert!(sessions.iter().any(noticed), "{what}");
    }
}
