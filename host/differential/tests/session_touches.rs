//! The program `touches` on the stored sessions (crates/session_cases): its lines are those of the session program, each with a
//! touch behind it.

use differential::cases;
use differential::text::steps_with_touches;
use sessions::Session;

#[test]
fn numbers_and_values_are_the_session_programs() {
    let cases = cases::all();
    assert_eq!(cases.len(), cases::count());
    let (mut yes, mut no) = (0, 0);
    for (file, text) in cases.iter().filter(|case| case.1 != "session bad\n") {
        let session = Session::from_file(file).unwrap();
        let lines = steps_with_touches(&session);
        assert_eq!(lines.lines().count(), session.steps.len());
        for (line, printed) in lines.lines().zip(text.lines().skip(1)) {
            let touch = line.strip_prefix(printed).unwrap_or_else(|| panic!("{line} and not {printed}"));
            if touch == " no" {
                no += 1;
            } else {
                let first = touch.strip_prefix(" yes ").map(|first| u32::from_str_radix(first, 16));
                assert!(matches!(first, Some(Ok(_))), "{line}");
                yes += 1;
            }
        }
    }
    assert!(yes > 100 && no > 100, "{yes} {no}");
}

#[test]
fn document_01s_session_has_no_touch() {
    let file = include_bytes!("../../../crates/session_main/stdin");
    let lines = steps_with_touches(&Session::from_file(file).unwrap());
    assert_eq!(lines, "1 unload 0 0 no\n2 load 1 0 no\n3 load 0 1000 no\n");
}
