//! The lent table: what its slices mean, and what a comparison sees and does not see.

use crate::key;
use peer::answer::Answer;
use peer::lent::{first_difference, judge, take, Complaint, Lent};
use peer::make::tables::{self, FreePlaces};
use peer::random::Random;
use peer::receiver::{Act, Buffers, ChannelEvent};
use peer::record::{Cell, Record};
use peer::table::{Key, Owner, Place, Table};

/// The table's meaning stored over what the slices held before.
fn stored(before: &Lent, table: &Table) -> Lent {
    let mut lent = before.clone();
    for (place, holds) in table.places().iter().enumerate() {
        match holds {
            Place::Open(owner, record) => lent.put(place, owner, record),
            Place::Free if before.keys[2 * place] != 0 => lent.free(place),
            Place::Free => {}
        }
    }
    lent
}

/// Channel `key(0)` at place 2: C = 34, M = 31, and 32 waits.
fn example() -> Lent {
    let mut lent = Lent::empty();
    lent.keys[4] = 0x0200_0000_0001 * 16 + 1;
    lent.keys[5] = 0x0200_0000_0000;
    let words = lent.words_of(2);
    words[..3].copy_from_slice(&[34, 31, 100]);
    words[3 + 31] = 90;
    words[3 + 1] = 95;
    words[3 + 2] = 95;
    lent.handles_of(2)[0] = 7;
    lent.marks_of(2)[0] = 200;
    lent
}

fn tick(time: u64) -> ChannelEvent {
    let (key, act) = (key(0), Act::Tick);
    ChannelEvent { key, time, act }
}

#[test]
fn slots_go_by_the_number_modulo_32() {
    let table = Table::from_slices(&example().slices()).expect("64 places");
    let cells = vec![Cell::Missing(90), Cell::Waits(7), Cell::Missing(95), Cell::Missing(95)];
    let record = Record {
        current: 34,
        oldest: 31,
        latest: 100,
        cells,
    };
    assert_eq!(table.places()[2], Place::Open(Owner::Channel(key(0)), record));
    assert_eq!(table.first_free(), Some(0));
}

#[test]
fn key_words_that_no_event_can_have_are_nobodys() {
    let words = [
        (9, 0),
        (16, 0),
        (15, 0),
        (u64::MAX, 0),
        ((1 << 52) + 1, 0),
        (1, 1 << 48),
        (8, u64::MAX),
    ];
    for (first, second) in words {
        let mut lent = Lent::empty();
        (lent.keys[0], lent.keys[1]) = (first, second);
        let table = Table::from_slices(&lent.slices()).expect("64 places");
        assert!(
            matches!(table.places()[0], Place::Open(Owner::Nobody(..), _)),
            "{first}, {second}"
        );
    }
    let largest = Key {
        destination: [0xff; 6],
        source: [0xff; 6],
        priority: 7,
    };
    let mut lent = Lent::empty();
    (lent.keys[0], lent.keys[1]) = (((1 << 48) - 1) * 16 + 8, (1 << 48) - 1);
    let table = Table::from_slices(&lent.slices()).expect("64 places");
    assert_eq!(table.channel_of(&largest), Some(0));
}

#[test]
fn a_table_that_is_not_of_64_places_is_refused_by_1() {
    let change: [fn(&mut Lent); 6] = [
        |lent| lent.keys.push(0),
        |lent| lent.words.truncate(2_239),
        |lent| lent.handles.push(0),
        |lent| lent.handles.clear(),
        |lent| lent.marks.truncate(2_047),
        |lent| lent.marks.push(0),
    ];
    for change in change {
        let mut lent = example();
        change(&mut lent);
        assert_eq!(
            take(&lent.slices(), Buffers::ENOUGH, &tick(100)),
            (Answer::refused(1), None)
        );
    }
}

#[test]
fn a_comparison_sees_what_a_record_holds_and_nothing_else() {
    let before = example();
    let (answer, table) = take(&before.slices(), Buffers::ENOUGH, &tick(110));
    let after = stored(&before, &table.expect("64 places"));
    let judged = |after: &Lent| {
        judge(
            &before.slices(),
            (Buffers::ENOUGH, &tick(110)),
            &answer,
            &after.slices(),
        )
    };
    assert_eq!(judged(&after), Ok(()));

    let unseen: [fn(&mut Lent); 4] = [
        |lent| lent.marks_of(2)[0] = 1,
        |lent| lent.handles_of(2)[31] = 5,
        |lent| lent.words_of(2)[3] = 5,
        |lent| lent.words_of(2)[3 + 20] = 5,
    ];
    for change in unseen {
        let mut changed = after.clone();
        change(&mut changed);
        assert_eq!(judged(&changed), Ok(()));
    }
    let seen: [fn(&mut Lent); 9] = [
        |lent| lent.keys[4] += 1,
        |lent| lent.keys[5] += 1,
        |lent| lent.keys[4] = 0,
        |lent| lent.words_of(2)[0] += 1,
        |lent| lent.words_of(2)[1] += 1,
        |lent| lent.words_of(2)[2] += 1,
        |lent| lent.words_of(2)[3 + 31] += 1,
        |lent| lent.handles_of(2)[0] += 1,
        |lent| lent.marks_of(2)[1] = 1,
    ];
    for change in seen {
        let mut changed = after.clone();
        change(&mut changed);
        assert_eq!(judged(&changed), Err(Complaint::Place(2)));
    }
    let mut littered = after.clone();
    littered.marks_of(63)[31] = 1;
    assert_eq!(judged(&littered), Err(Complaint::Place(63)));
}

#[test]
fn a_refused_call_touches_nothing_and_a_wrong_answer_is_seen() {
    let before = example();
    let early = tick(99);
    let refused = Answer::refused(7);
    let judged =
        |answer: &Answer, after: &Lent| judge(&before.slices(), (Buffers::ENOUGH, &early), answer, &after.slices());
    assert_eq!(judged(&refused, &before), Ok(()));
    let mut touched = before.clone();
    touched.words_of(2)[3 + 20] = 5;
    assert_eq!(judged(&refused, &touched), Err(Complaint::Touched));
    assert_eq!(judged(&Answer::default(), &before), Err(Complaint::Answer(refused)));
}

#[test]
fn a_freed_place_holds_zeros() {
    let before = example();
    let close = ChannelEvent {
        act: Act::Close,
        ..tick(100)
    };
    let (answer, table) = take(&before.slices(), Buffers::ENOUGH, &close);
    assert_eq!(answer.returned, [7]);
    let table = table.expect("64 places");
    assert_eq!(table, Table::empty());
    assert_eq!(
        first_difference(&before.slices(), &table, &Lent::empty().slices()),
        None
    );
    let mut key_only = before.clone();
    (key_only.keys[4], key_only.keys[5]) = (0, 0);
    assert_eq!(first_difference(&before.slices(), &table, &key_only.slices()), Some(2));
}

/// The table after a call on a random lent table, stored in slices by this program's own hand, is read back as that table.
/// It says nothing of the call's answer, which is this program's own.
#[test]
fn tables_after_random_calls_are_stored_and_read_back() {
    let mut random = Random::from_seed(3);
    for round in 0..2_000 {
        let free_places = [FreePlaces::Zeros, FreePlaces::Littered][round % 2];
        let mut before = tables::table(&mut random, free_places);
        if random.once_in(20) {
            tables::misfit(&mut random, &mut before);
        }
        for _ in 0..5 {
            let (buffers, event) = tables::call(&mut random, &before.slices());
            let (answer, table) = take(&before.slices(), buffers, &event);
            let after = match table {
                Some(table) if answer.number == 0 => stored(&before, &table),
                _ => before.clone(),
            };
            let judged = judge(&before.slices(), (buffers, &event), &answer, &after.slices());
            assert_eq!(judged, Ok(()), "{event:?}");
            before = after;
        }
    }
}

/// Every number of a channel event comes on random lent tables, and closes of doubled keys too.
#[test]
fn random_calls_meet_every_number() {
    let mut random = Random::from_seed(1);
    let mut counts = [0; 9];
    let mut doubled_closes = 0;
    for _ in 0..3_000 {
        let mut lent = tables::table(&mut random, FreePlaces::Zeros);
        if random.once_in(50) {
            tables::misfit(&mut random, &mut lent);
        }
        let (buffers, event) = tables::call(&mut random, &lent.slices());
        let (answer, table) = take(&lent.slices(), buffers, &event);
        counts[usize::from(answer.number)] += 1;
        let still_there = table.map_or(false, |table| table.channel_of(&event.key).is_some());
        if event.act == Act::Close && answer.number == 0 && still_there {
            doubled_closes += 1;
        }
    }
    assert!(counts.iter().all(|&count| count >= 15), "{counts:?}");
    assert!(doubled_closes >= 15, "{doubled_closes}");
}

/// The ways in which a record is broken, in document 01's order.
fn ways(record: &Record) -> [bool; 6] {
    let times: Vec<u64> = record.missing_times().collect();
    let in_ring = record.current <= 4_095 && record.oldest <= 4_095;
    [
        record.current > 4_095,
        record.oldest > 4_095,
        in_ring && record.span() > 32,
        record.oldest_waits(),
        times.iter().any(|&time| time > record.latest),
        times.windows(2).any(|pair| pair[0] > pair[1]),
    ]
}

fn opened(place: &Place) -> Option<(&Owner, &Record)> {
    match place {
        Place::Open(owner, record) => Some((owner, record)),
        Place::Free => None,
    }
}

/// Random lent tables hold records broken in each way alone, sound ones at the edges, and places of nobody.
#[test]
fn random_tables_are_broken_in_each_way() {
    let mut random = Random::from_seed(1);
    let mut broken = [0; 6];
    let (mut full_windows, mut late, mut nobodys) = (0, 0, 0);
    for _ in 0..200 {
        let lent = tables::table(&mut random, FreePlaces::Zeros);
        let table = Table::from_slices(&lent.slices()).expect("64 places");
        for (owner, record) in table.places().iter().filter_map(opened) {
            let ways = ways(record);
            assert_eq!(record.is_broken(), ways.contains(&true), "{record:?}");
            if ways.iter().filter(|&&way| way).count() == 1 {
                (0..6).filter(|&way| ways[way]).for_each(|way| broken[way] += 1);
            }
            let sound = !record.is_broken();
            full_windows += u64::from(sound && record.span() == 32);
            late += u64::from(sound && record.latest > u64::MAX - 150 && record.span() > 0);
            nobodys += u64::from(matches!(owner, Owner::Nobody(..)));
        }
    }
    assert!(broken.iter().all(|&count| count >= 50), "{broken:?}");
    assert!(full_windows >= 50 && late >= 50 && nobodys >= 50);
}
