//! The program itself: what it makes has as many events as it was asked for, and is answered line by line. Other programs
//! are compared with what it prints, and no lines at all would be alike.

#![forbid(unsafe_code)]

use peer::make::Maker;
use peer::session::{self, Event};
use std::fs;
use std::io::Write;
use std::process::{Command, Output, Stdio};
use std::thread;

/// The seed and the number of events of the session that is stored for `replay`.
const SEED: u64 = 1;
const EVENTS: usize = 5_000;

/// Runs the program, which cargo has put one folder above the tests, on this input.
fn run(words: &[&str], input: &[u8]) -> Output {
    let tests = std::env::current_exe().expect("this test is a file");
    let program = tests
        .parent()
        .and_then(|deps| deps.parent())
        .expect("two folders")
        .join("peer");
    let mut run = Command::new(program)
        .args(words)
        .stdin(Stdio::piped())
        .stdout(Stdio::piped())
        .stderr(Stdio::piped())
        .spawn()
        .expect("the program runs");
    let mut stdin = run.stdin.take().expect("a pipe");
    let input = input.to_vec();
    // A program that does not read its input has closed it, which is no fault.
    let writer = thread::spawn(move || stdin.write_all(&input).is_ok());
    let output = run.wait_with_output().expect("the program ends");
    writer.join().expect("the input is written");
    output
}

/// What the program gives to these words, on this input.
fn given(words: &[&str], input: &[u8]) -> Vec<u8> {
    let output = run(words, input);
    assert!(output.status.success(), "{words:?}: {output:?}");
    output.stdout
}

fn lines(answers: &[u8]) -> Vec<String> {
    let text = String::from_utf8(answers.to_vec()).expect("lines are text");
    text.lines().map(str::to_string).collect()
}

#[test]
fn a_session_has_the_events_that_were_asked_for() {
    let events: Vec<Event> = Maker::from_seed(SEED).take(EVENTS).collect();
    let made = given(&["make", "1", "5000"], &[]);
    assert!(made == session::stream(&events), "the session is another");
    let answers = lines(&given(&["answer"], &made));
    assert_eq!(answers.len(), EVENTS);
    for (index, answer) in answers.iter().enumerate() {
        assert!(answer.starts_with(&format!("{index} ")), "{answer}");
    }
}

#[test]
fn an_ending_comes_after_all_events() {
    let whole = lines(&given(&["answer"], &given(&["make", "1", "5000"], &[])));
    for ending in ["cut", "unreadable"] {
        let answers = lines(&given(&["answer"], &given(&["make", "1", "5000", ending], &[])));
        assert_eq!(answers.len(), EVENTS + 1, "{ending}");
        assert_eq!(answers[..EVENTS], whole);
        assert_eq!(answers[EVENTS], format!("{EVENTS} {ending}"));
    }
}

#[test]
fn the_stored_session_has_all_its_answers() {
    let stored = |name: &str| fs::read(format!("../crates/replay/{name}")).expect("the stored session is there");
    let (made, answers) = (stored("stdin"), stored("stdout"));
    assert_eq!(lines(&answers).len(), EVENTS);
    assert!(
        made == given(&["make", "1", "5000"], &[]),
        "the program makes another session"
    );
    assert!(answers == given(&["answer"], &made), "the program answers otherwise");
}

#[test]
fn the_story_is_the_stored_one() {
    let stored = fs::read("../examples/east-dormitory.session").expect("the example is there");
    assert_eq!(given(&["story"], &[]), stored);
}

#[test]
fn other_words_and_no_events_are_refused() {
    let refused: [&[&str]; 9] = [
        &[],
        &["make"],
        &["make", "1"],
        &["make", "1", "0"],
        &["make", "1", "-5"],
        &["make", "one", "5"],
        &["make", "1", "5", "whole"],
        &["answer", "more"],
        &["tell"],
    ];
    for words in refused {
        let output = run(words, &[]);
        assert_eq!(output.status.code(), Some(2), "{words:?}");
        assert!(output.stdout.is_empty(), "{words:?}");
    }
}
