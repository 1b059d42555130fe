//! Document 01, 'Numbers the box may answer with': the order of 1 to 8, and that a refusal changes nothing.

use crate::{fresh, key, take};
use peer::answer::Answer;
use peer::receiver::{Act, Buffers, ChannelEvent};
use peer::record::{Cell, Record};
use peer::table::{Key, Owner, Place, Table};

const SHORT: Buffers = Buffers {
    returned: 31,
    ..Buffers::ENOUGH
};

fn too_urgent() -> Key {
    Key { priority: 8, ..key(0) }
}

/// A table whose channels are all this record's.
fn full_of(record: &Record) -> Table {
    let place = |number| Place::Open(Owner::Channel(key(number)), record.clone());
    Table::of_places((0..64).map(place).collect()).expect("64 places")
}

fn sound() -> Record {
    Record::opened(10, 100)
}

fn broken() -> Record {
    Record {
        oldest: 4_096,
        ..sound()
    }
}

/// Each call has the fault of its number and as many of the later ones as can go with it.
#[test]
fn the_first_number_that_applies_is_given() {
    let (sound, broken) = (full_of(&sound()), full_of(&broken()));
    let enough = Buffers::ENOUGH;
    let stranger = key(64);
    let cases = [
        (1, &broken, SHORT, too_urgent(), 0, Act::Data(4_096, 1)),
        (2, &broken, enough, too_urgent(), 0, Act::Data(4_096, 1)),
        (3, &broken, enough, too_urgent(), 0, Act::Data(4_095, 1)),
        (5, &broken, enough, stranger, 0, Act::Data(4_095, 1)),
        (6, &broken, enough, key(0), 99, Act::Data(4_095, 1)),
        (7, &sound, enough, key(0), 99, Act::Data(4_095, 1)),
        (0, &sound, enough, key(0), 100, Act::Data(4_095, 1)),
        (1, &broken, SHORT, too_urgent(), 0, Act::Reminder(4_096)),
        (2, &broken, enough, too_urgent(), 0, Act::Reminder(4_096)),
        (3, &broken, enough, too_urgent(), 0, Act::Reminder(75)),
        (4, &broken, enough, stranger, 0, Act::Reminder(75)),
        (6, &broken, enough, key(0), 99, Act::Reminder(75)),
        (7, &sound, enough, key(0), 99, Act::Reminder(75)),
        (8, &sound, enough, key(0), 100, Act::Reminder(75)),
        (0, &sound, enough, key(0), 100, Act::Reminder(74)),
        (1, &broken, SHORT, too_urgent(), 0, Act::Tick),
        (3, &broken, enough, too_urgent(), 0, Act::Tick),
        (4, &broken, enough, stranger, 0, Act::Tick),
        (6, &broken, enough, key(0), 99, Act::Tick),
        (7, &sound, enough, key(0), 99, Act::Tick),
        (0, &sound, enough, key(0), 100, Act::Tick),
        (1, &broken, SHORT, too_urgent(), 0, Act::Close),
        (3, &broken, enough, too_urgent(), 0, Act::Close),
        (4, &broken, enough, stranger, 0, Act::Close),
        (6, &broken, enough, key(0), 99, Act::Close),
        (7, &sound, enough, key(0), 99, Act::Close),
        (0, &sound, enough, key(0), 100, Act::Close),
    ];
    for (number, table, buffers, key, time, act) in cases {
        let mut after = table.clone();
        let answer = after.take(buffers, &ChannelEvent { key, time, act });
        assert_eq!(answer.number, number, "{act:?}");
        if number != 0 {
            assert_eq!(answer, Answer::refused(number), "{act:?}");
            assert_eq!(after, *table, "{act:?}, refused by {number}");
        }
    }
}

#[test]
fn each_of_the_three_buffers_needs_32_entries() {
    let short = [
        SHORT,
        Buffers {
            up: 0,
            ..Buffers::ENOUGH
        },
        Buffers {
            nack: 31,
            ..Buffers::ENOUGH
        },
    ];
    let event = ChannelEvent {
        key: key(0),
        time: 100,
        act: Act::Tick,
    };
    for buffers in short {
        assert_eq!(fresh().take(buffers, &event), Answer::refused(1));
    }
    assert_eq!(fresh().take(Buffers::ENOUGH, &event).number, 0);
}

#[test]
fn a_record_is_broken_in_each_of_six_ways() {
    let cells = |cells: &[Cell]| Record {
        current: 20 + cells.len() as u64,
        oldest: 21,
        latest: 100,
        cells: cells.to_vec(),
    };
    let (missing, waits) = (Cell::Missing, Cell::Waits(7));
    let cases = [
        (false, cells(&[])),
        (false, cells(&[missing(100)])),
        (false, cells(&[missing(99), waits, missing(99), missing(100)])),
        (false, cells(&[missing(0); 32])),
        (
            true,
            Record {
                current: 4_096,
                ..cells(&[])
            },
        ),
        (
            true,
            Record {
                oldest: 4_096,
                ..cells(&[])
            },
        ),
        (
            true,
            Record {
                oldest: 22,
                ..cells(&[])
            },
        ),
        (
            true,
            Record {
                current: 53,
                ..cells(&[])
            },
        ),
        (true, cells(&[waits])),
        (true, cells(&[missing(101)])),
        (true, cells(&[missing(50), waits, missing(49)])),
    ];
    for (broken, record) in cases {
        assert_eq!(record.is_broken(), broken, "{record:?}");
        let mut table = full_of(&record);
        let number = take(&mut table, key(3), 100, Act::Tick).number;
        assert_eq!(number, if broken { 6 } else { 0 }, "{record:?}");
        assert_eq!(table.look(&key(3)).err(), broken.then_some(6), "{record:?}");
    }
}

#[test]
fn a_look_is_refused_by_3_4_and_6() {
    let table = full_of(&broken());
    assert_eq!(table.look(&too_urgent()), Err(3));
    assert_eq!(table.look(&key(64)), Err(4));
    assert_eq!(table.look(&key(0)), Err(6));
}

#[test]
fn a_doubled_key_counts_at_its_first_place() {
    let mut places = vec![Place::Free; 64];
    places[5] = Place::Open(Owner::Channel(key(0)), Record::opened(10, 100));
    places[9] = Place::Open(Owner::Channel(key(0)), broken());
    let mut table = Table::of_places(places).expect("64 places");
    assert_eq!(take(&mut table, key(0), 100, Act::Data(11, 1)).up, [1]);
    assert_eq!(take(&mut table, key(1), 100, Act::Data(11, 1)).up, [1]);
    assert_eq!(table.channel_of(&key(1)), Some(0));
    assert_eq!(take(&mut table, key(0), 100, Act::Close).number, 0);
    assert_eq!(table.places()[5], Place::Free);
    assert_eq!(table.channel_of(&key(0)), Some(9));
    assert_eq!(take(&mut table, key(0), 100, Act::Close), Answer::refused(6));
}
