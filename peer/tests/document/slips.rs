//! Document 01, 'Slips an earlier box made': none of them here.

use crate::{close, data, fresh, handle, nack, returned, take, up};
use peer::answer::Answer;
use peer::receiver::Act;
use peer::table::{Key, Table};

#[test]
fn an_old_copy_does_not_restart() {
    let mut table = Table::empty();
    data(&mut table, 0, 3);
    assert_eq!(data(&mut table, 0, 4_095), returned([4_095]));
}

#[test]
fn no_handle_is_left_in_a_freed_place() {
    let mut table = fresh();
    data(&mut table, 100, 12);
    assert_eq!(close(&mut table, 100), returned([12]));
    let other = Key {
        destination: [9; 6],
        source: [9; 6],
        priority: 7,
    };
    assert_eq!(take(&mut table, other, 50, Act::Data(10, 1)).up, [1]);
    assert_eq!(take(&mut table, other, 50, Act::Data(13, 2)).nack, [11, 12]);
    assert_eq!(take(&mut table, other, 50, Act::Data(11, 3)).up, [3]);
    let closed = take(&mut table, other, 50, Act::Close);
    assert_eq!(closed.returned, [2]);
}

#[test]
fn waiting_numbers_below_the_new_window_go_up() {
    let mut table = fresh();
    data(&mut table, 100, 12);
    let expected = Answer {
        up: vec![handle(12)],
        lost: 32,
        ..nack(44..=74)
    };
    assert_eq!(data(&mut table, 100, 75), expected);
}

#[test]
fn nothing_is_asked_for_that_the_same_call_gave_up() {
    let mut table = fresh();
    let answer = data(&mut table, 100, 60);
    assert_eq!((answer.lost, answer.nack.first()), (18, Some(&29)));
}

#[test]
fn a_restart_does_not_hand_waiting_frames_up() {
    let mut table = fresh();
    data(&mut table, 100, 12);
    let answer = data(&mut table, 100, 1_000);
    assert_eq!(answer.up, up([1_000]).up);
    assert_eq!(answer.returned, [handle(12)]);
    assert_eq!(answer.lost, 0);
}
