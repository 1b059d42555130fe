//! Random sessions reach every number and every depth, and keep document 01's promises about handles.

use peer::make::Maker;
use peer::receiver::{Act, Buffers, ChannelEvent};
use peer::record::Record;
use peer::session::{Event, Session};
use peer::table::{Place, Table};
use std::collections::{BTreeMap, BTreeSet};

const SEED: u64 = 1;

/// How often each word comes with each number in the first 5,000 events of the fixed seed.
fn counts() -> BTreeMap<(String, u8), u64> {
    let mut session = Session::begin();
    let mut counts = BTreeMap::new();
    for event in Maker::from_seed(SEED).take(5_000) {
        let line = session.answer(&event);
        let mut words = line.split(' ');
        let word = words.next().expect("a word").to_string();
        let number = words.next().expect("a number").parse().expect("a number");
        *counts.entry((word, number)).or_insert(0) += 1;
    }
    counts
}

#[test]
fn every_number_that_a_session_can_give_is_met() {
    let expected: [(&str, &[u8]); 11] = [
        ("data", &[0, 2, 3, 5, 7]),
        ("reminder", &[0, 2, 3, 4, 7, 8]),
        ("tick", &[0, 3, 4, 7]),
        ("close", &[0, 3, 4, 7]),
        ("look", &[0, 3, 4]),
        ("fresh", &[0]),
        ("use", &[0]),
        ("period", &[0]),
        ("received", &[0, 30]),
        ("read", &[0, 10, 11, 12, 13, 14, 15, 16, 17, 18, 19, 20, 21, 22]),
        ("write", &[0, 15, 16, 23, 18, 19, 20, 21, 24]),
    ];
    let pairs = |(word, numbers): &(&str, &[u8])| -> Vec<(String, u8)> {
        numbers.iter().map(|&number| (word.to_string(), number)).collect()
    };
    let expected: BTreeSet<(String, u8)> = expected.iter().flat_map(pairs).collect();
    let met: BTreeSet<(String, u8)> = counts().into_keys().collect();
    assert_eq!(met, expected);
}

/// What the channel events of a random session reached.
#[derive(Debug, Default, PartialEq, Eq)]
struct Reached {
    most_up: usize,
    most_returned: usize,
    most_asked: usize,
    most_lost: u64,
    most_channels: usize,
    widest: u64,
}

#[test]
fn random_sessions_reach_deep_and_stay_within_bounds() {
    let mut table = Table::empty();
    let mut reached = Reached::default();
    for event in Maker::from_seed(SEED).take(100_000).filter_map(on_a_channel) {
        let answer = table.take(Buffers::ENOUGH, &event);
        reached.most_up = reached.most_up.max(answer.up.len());
        reached.most_returned = reached.most_returned.max(answer.returned.len());
        reached.most_asked = reached.most_asked.max(answer.nack.len());
        reached.most_lost = reached.most_lost.max(answer.lost);
        reached.most_channels = reached.most_channels.max(records(&table).count());
        reached.widest = reached.widest.max(table.record_of(&event.key).map_or(0, Record::span));
        assert!(!table.record_of(&event.key).map_or(false, Record::is_broken));
    }
    let all = Reached {
        most_up: 32,
        most_returned: 31,
        most_asked: 32,
        most_lost: 64,
        most_channels: 64,
        widest: 32,
    };
    assert_eq!(reached, all);
}

fn on_a_channel(event: Event) -> Option<ChannelEvent> {
    match event {
        Event::Channel(event) => Some(event),
        _ => None,
    }
}

fn records(table: &Table) -> impl Iterator<Item = &Record> {
    table.places().iter().filter_map(|place| match place {
        Place::Open(_, record) => Some(record),
        Place::Free => None,
    })
}

/// A handle that was accepted has gone up, has come back or still waits, and no two of these. Here each call has its own.
#[test]
fn no_handle_is_lost_or_doubled() {
    for seed in 0..20 {
        let mut table = Table::empty();
        let mut gone = BTreeSet::new();
        let mut accepted = 0;
        for (call, mut event) in (0..).zip(Maker::from_seed(seed).take(10_000).filter_map(on_a_channel)) {
            if let Act::Data(number, _) = event.act {
                event.act = Act::Data(number, call);
            }
            let answer = table.take(Buffers::ENOUGH, &event);
            if answer.number == 0 && matches!(event.act, Act::Data(..)) {
                accepted += 1;
            }
            for handle in answer.up.into_iter().chain(answer.returned) {
                assert!(gone.insert(handle), "{handle} comes twice");
            }
        }
        let waiting: BTreeSet<u32> = records(&table).flat_map(Record::waiting).collect();
        assert!(waiting.is_disjoint(&gone));
        assert_eq!(gone.len() + waiting.len(), accepted);
    }
}

#[test]
fn a_seed_gives_the_same_session_again() {
    let session = |seed| Maker::from_seed(seed).take(300).collect::<Vec<Event>>();
    assert_eq!(session(5), session(5));
    assert_ne!(session(5), session(6));
}
