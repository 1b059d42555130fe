//! The example session: the stored file is what the program writes, and its answers are these.

use peer::{session, story};

#[test]
fn the_stored_session_is_the_story() {
    let stored = include_bytes!("../../../examples/east-dormitory.session");
    assert_eq!(session::stream(&story::events()), stored);
}

#[test]
fn the_storys_answers() {
    let mut answers = Vec::new();
    session::answer(&session::stream(&story::events()), &mut answers).expect("a list takes everything");
    let expected = include_str!("east-dormitory.answers");
    assert_eq!(String::from_utf8(answers).expect("lines are text"), expected);
}
