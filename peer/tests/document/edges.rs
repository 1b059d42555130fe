//! Document 01, 'Runs at the edges': every case, those of the proved set and the others.

use crate::{close, data, fresh, handle, key, nack, reminder, returned, take, tick, up};
use peer::answer::Answer;
use peer::receiver::Act;
use peer::record::{Cell, Record};
use peer::table::Table;

fn record(table: &Table) -> &Record {
    table.look(&key(0)).expect("the channel is open and sound")
}

/// C, M and the latest time.
fn state(table: &Table) -> (u64, u64, u64) {
    let record = record(table);
    (record.current, record.oldest, record.latest)
}

#[test]
fn data_4095_opens_a_channel_then_0_both_go_up() {
    let mut table = Table::empty();
    assert_eq!(data(&mut table, 100, 4_095), up([4_095]));
    assert_eq!(state(&table), (4_095, 0, 100));
    assert_eq!(data(&mut table, 100, 0), up([0]));
    assert_eq!(state(&table), (0, 1, 100));
}

#[test]
fn data_12_waits_and_11_is_asked_for() {
    let mut table = fresh();
    assert_eq!(data(&mut table, 101, 12), nack([11]));
    assert_eq!(state(&table), (12, 11, 101));
    assert_eq!(record(&table).cells, [Cell::Missing(101), Cell::Waits(handle(12))]);

    let mut filled = table.clone();
    assert_eq!(data(&mut filled, 102, 11), up([11, 12]));
    assert_eq!(state(&filled), (12, 13, 102));
    assert_eq!(record(&filled).span(), 0);

    assert_eq!(data(&mut table, 103, 12), returned([12]));
    assert_eq!(state(&table), (12, 11, 103));
}

#[test]
fn data_10_is_returned() {
    let mut table = fresh();
    assert_eq!(data(&mut table, 105, 10), returned([10]));
    assert_eq!(state(&table), (10, 11, 105));
}

#[test]
fn data_74_gives_32_up_as_lost() {
    let mut table = fresh();
    let expected = Answer {
        lost: 32,
        ..nack(43..=73)
    };
    assert_eq!(data(&mut table, 100, 74), expected);
    assert_eq!(state(&table), (74, 43, 100));
    assert_eq!(record(&table).span(), 32);
}

#[test]
fn data_out_of_reach_restarts_and_in_reach_does_not() {
    let cases = [
        (75, up([75]), (75, 76)),
        (4_042, returned([4_042]), (10, 11)),
        (4_041, up([4_041]), (4_041, 4_042)),
    ];
    for (s, answer, (current, oldest)) in cases {
        let mut table = fresh();
        assert_eq!(data(&mut table, 100, s), answer, "data {s}");
        assert_eq!(state(&table), (current, oldest, 100), "data {s}");
    }
}

#[test]
fn a_restart_returns_what_waits_in_sequence_order() {
    let mut table = fresh();
    data(&mut table, 100, 14);
    data(&mut table, 100, 12);
    data(&mut table, 100, 16);
    let expected = Answer {
        up: vec![handle(2_000)],
        ..returned([12, 14, 16])
    };
    assert_eq!(data(&mut table, 100, 2_000), expected);
    assert_eq!(state(&table), (2_000, 2_001, 100));
}

#[test]
fn reminder_12_asks_for_11_and_12() {
    let mut table = fresh();
    assert_eq!(reminder(&mut table, 120, 12), nack([11, 12]));
    assert_eq!(state(&table), (12, 11, 120));
}

#[test]
fn reminders_at_the_reach() {
    let all_but_the_lost = Answer {
        lost: 32,
        ..nack(43..=74)
    };
    let cases = [
        (74, all_but_the_lost, (74, 43, 130)),
        (75, Answer::refused(8), (10, 11, 100)),
        (10, Answer::default(), (10, 11, 130)),
        (4_042, Answer::default(), (10, 11, 130)),
        (4_041, Answer::refused(8), (10, 11, 100)),
    ];
    for (s, answer, after) in cases {
        let mut table = fresh();
        assert_eq!(reminder(&mut table, 130, s), answer, "reminder {s}");
        assert_eq!(state(&table), after, "reminder {s}");
    }
}

#[test]
fn a_tick_gives_up_after_150() {
    let mut table = fresh();
    data(&mut table, 100, 12);
    assert_eq!(tick(&mut table, 99), Answer::refused(7));
    assert_eq!(tick(&mut table, 249), Answer::default());
    assert_eq!(state(&table), (12, 11, 249));
    let expected = Answer { lost: 1, ..up([12]) };
    assert_eq!(tick(&mut table, 250), expected);
    assert_eq!(state(&table), (12, 13, 250));
}

#[test]
fn a_tick_goes_on_past_what_waits_and_stops_at_a_younger_number() {
    let mut table = fresh();
    data(&mut table, 100, 12);
    data(&mut table, 100, 15);
    data(&mut table, 101, 17);
    let expected = Answer {
        lost: 3,
        ..up([12, 15])
    };
    assert_eq!(tick(&mut table, 250), expected);
    assert_eq!(state(&table), (17, 16, 250));
    assert_eq!(record(&table).cells, [Cell::Missing(101), Cell::Waits(handle(17))]);
}

#[test]
fn a_time_near_the_end_is_never_150_ago() {
    let mut table = Table::empty();
    data(&mut table, u64::MAX - 100, 10);
    data(&mut table, u64::MAX - 100, 12);
    assert_eq!(tick(&mut table, u64::MAX), Answer::default());
    assert_eq!(state(&table), (12, 11, u64::MAX));
}

#[test]
fn a_close_returns_what_waits_and_frees_the_place() {
    let mut table = fresh();
    data(&mut table, 100, 12);
    assert_eq!(close(&mut table, 99), Answer::refused(7));
    assert_eq!(state(&table), (12, 11, 100));
    assert_eq!(close(&mut table, 100), returned([12]));
    assert_eq!(table, Table::empty());
}

#[test]
fn the_65th_channel_opens_after_one_close() {
    let mut table = Table::empty();
    for number in 0..64 {
        assert_eq!(take(&mut table, key(number), 5, Act::Data(1, 7)).number, 0);
    }
    let full = table.clone();
    assert_eq!(take(&mut table, key(64), 5, Act::Data(1, 7)), Answer::refused(5));
    assert_eq!(table, full);
    assert_eq!(take(&mut table, key(33), 5, Act::Close).number, 0);
    assert_eq!(take(&mut table, key(64), 5, Act::Data(1, 7)).up, [7]);
    assert_eq!(table.channel_of(&key(64)), Some(33));
}

#[test]
fn the_most_that_goes_up_and_comes_back() {
    let mut table = fresh();
    for s in 12..=42 {
        data(&mut table, 100, s);
    }
    assert_eq!(record(&table).span(), 32);
    assert_eq!(data(&mut table.clone(), 100, 11), up(11..=42));
    assert_eq!(close(&mut table.clone(), 100), returned(12..=42));
    let pushed_out = Answer { lost: 1, ..up(12..=43) };
    assert_eq!(data(&mut table.clone(), 100, 43), pushed_out);
    let wide = Answer {
        up: (12..=42).map(handle).collect(),
        lost: 33,
        ..nack(75..=105)
    };
    assert_eq!(data(&mut table, 100, 106), wide);
}

#[test]
fn numbers_asked_for_rise_across_the_end_of_the_ring() {
    let mut table = Table::empty();
    data(&mut table, 0, 4_093);
    assert_eq!(data(&mut table, 0, 2), nack([4_094, 4_095, 0, 1]));
}
