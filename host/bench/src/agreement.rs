//! What is seen before anything is measured: all implementations give the same answers, and they are the right ones.

use crate::implementations::Implementation;
use crate::measure::ROOM;
use crate::scenarios::{Events, Scenarios, Single};
use compare::players::{request_of, Archive};
use peer::make::Maker;
use peer::random::Random;
use peer::receiver::ChannelEvent;
use peer::session::Event;
use pikurandal::lent::{Buffers, Slices};
use pikurandal::raw::{Frame, Request, Station, Written};

/// How many random calls, and how many events of a random session, each implementation is tried on.
const TRIED: u64 = 20_000;

/// The most octets an output has.
const LARGEST_ROOM: u16 = 1_600;

/// Each implementation against the independent program on random lent tables and on what is measured, and against the
/// first one, the archive, on random frames and on what is measured. The archive's own answers to random frames are held
/// against the independent program's.
pub fn seen(implementations: &[Implementation], scenarios: &Scenarios) -> Result<(), String> {
    let archive = &implementations[0];
    compare::sessions::compare(&mut Archive::begin(), 1, TRIED, |_| ())
        .map_err(|mismatch| format!("{}: {mismatch}", archive.name))?;
    for implementation in implementations {
        on_lent_tables(implementation)?;
        on_frames(implementation, archive)?;
        for events in scenarios.events() {
            on_calls(implementation, events)?;
        }
        for (name, single) in scenarios.singles() {
            on_single(implementation, name, single)?;
        }
        on_scenarios(implementation, archive, scenarios)?;
    }
    Ok(())
}

fn on_lent_tables(implementation: &Implementation) -> Result<(), String> {
    let taken =
        |slices: Slices<'_>, buffers: Buffers<'_>, event: &ChannelEvent| implementation.take(slices, buffers, event);
    match compare::lent::compare(&taken, 1, TRIED, |_| ()) {
        Ok(_) => Ok(()),
        Err(mismatch) => Err(format!("{}: {mismatch}", implementation.name)),
    }
}

/// Each call of a scenario, judged by the independent program, which also has to give the number that the name says.
fn on_calls(implementation: &Implementation, events: &Events) -> Result<(), String> {
    let taken =
        |slices: Slices<'_>, buffers: Buffers<'_>, event: &ChannelEvent| implementation.take(slices, buffers, event);
    let mut random = Random::from_seed(1);
    let mut tables = events.start.clone();
    if events.calls.is_empty() {
        return Err(format!("'{}' has no calls", events.name));
    }
    for (table, event) in &events.calls {
        let (expected, _) = peer::lent::take(&tables[*table].slices(), events.buffers, event);
        is_as_named(events.name, expected.number)?;
        compare::lent::judged(&taken, &mut random, &mut tables[*table], (events.buffers, event))
            .map_err(|account| format!("{}: '{}': {account}", implementation.name, events.name))?;
    }
    Ok(())
}

/// A scenario that is called 'refused by' a number is refused by that one.
fn is_as_named(name: &str, number: u8) -> Result<(), String> {
    let said = name.split("refused by ").nth(1).and_then(|rest| rest.split(',').next());
    match said {
        Some(said) if said != number.to_string() => Err(format!("'{name}' is answered by number {number}")),
        _ => Ok(()),
    }
}

/// A frame that is read or a request that is written, beside the independent program. That one has no station of any
/// given sets, so a capability frame is held against the archive alone.
fn on_single(implementation: &Implementation, name: &str, single: &Single) -> Result<(), String> {
    let (given, expected) = match single {
        Single::Read(frame) => {
            let reading = implementation.rate_read(frame);
            let octets = &frame[reading.start..][..reading.extent];
            let expected = match peer::rate::read(frame) {
                Ok(expected) => (0, request_of(&expected.request), expected.num_addr, expected.addresses),
                Err(number) => (number, Request::default(), 0, [].as_slice()),
            };
            is_as_named(name, expected.0)?;
            let given = (reading.number, reading.request, reading.addresses, octets);
            (format!("{given:?}"), format!("{expected:?}"))
        }
        Single::Write(request, addresses, frame) => {
            let mut out = [0xff; ROOM];
            let written = implementation.rate_write(&mut out, *request, addresses);
            let mut expected_out = [0xff; ROOM];
            expected_out[..frame.len()].copy_from_slice(frame);
            let expected = Written {
                number: 0,
                count: frame.len(),
            };
            (
                format!("{:?}", (written, out)),
                format!("{:?}", (expected, expected_out)),
            )
        }
        Single::Receive(..) => return Ok(()),
    };
    if given == expected {
        return Ok(());
    }
    Err(format!(
        "{}: '{name}' is answered {given}; peer: {expected}",
        implementation.name
    ))
}

/// The answers, the tables after them and the written octets of one pass over each scenario.
fn on_scenarios(
    implementation: &Implementation,
    archive: &Implementation,
    scenarios: &Scenarios,
) -> Result<(), String> {
    for (name, mut stage) in scenarios.stages() {
        if stage.trace(implementation) != stage.trace(archive) {
            return Err(format!("{}: '{name}' is answered otherwise", implementation.name));
        }
    }
    Ok(())
}

/// The frames and requests of a random session, refused ones too.
fn on_frames(implementation: &Implementation, archive: &Implementation) -> Result<(), String> {
    let mut random = Random::from_seed(1);
    let mut compared = 0;
    for (index, event) in (0..TRIED).zip(Maker::from_seed(1)) {
        let station = any_station(&mut random);
        let litter = random.octet();
        let given = answered(implementation, &event, station, litter);
        if given != answered(archive, &event, station, litter) {
            return Err(format!(
                "{}: event {index}, {event:?}, is answered otherwise",
                implementation.name
            ));
        }
        compared += u64::from(given.is_some());
    }
    if compared < TRIED / 10 {
        return Err(format!(
            "of {TRIED} events of a session only {compared} are frames or requests"
        ));
    }
    Ok(())
}

/// The answer to a frame or a request, with the output that had litter before. The other events have no answer here.
fn answered(implementation: &Implementation, event: &Event, station: Station, litter: u8) -> Option<(String, Vec<u8>)> {
    match event {
        Event::Read(frame) => Some((format!("{:?}", implementation.rate_read(frame)), Vec::new())),
        Event::Write(writing) => {
            let mut out = vec![litter; writing.room.min(LARGEST_ROOM).into()];
            let written = implementation.rate_write(&mut out, request_of(&writing.request), &writing.addresses);
            Some((format!("{written:?}"), out))
        }
        Event::Received(frame) => {
            let carried = Frame {
                oldest_tx: frame.oldest_tx,
                current_tx: frame.current_tx,
                current_rx: frame.current_rx,
            };
            let answer = implementation.station_receive(station, frame.opcode, carried);
            Some((format!("{answer:?}"), Vec::new()))
        }
        Event::Channel(_) | Event::Look(_) | Event::Fresh(_) | Event::Use(_) | Event::PeriodEnd => None,
    }
}

fn any_station(random: &mut Random) -> Station {
    Station {
        default_set: random.word() as u32,
        new_tx: random.word() as u32,
        previous_tx: random.word() as u32,
        oldest_tx: random.word() as u32,
        new_rx: random.word() as u32,
        previous_rx: random.word() as u32,
    }
}

#[test]
fn all_implementations_answer_alike() {
    assert_eq!(seen(&crate::implementations::all(), &Scenarios::all()), Ok(()));
}

/// Each comparison looks: one who does nothing is told by each of them.
#[test]
fn an_implementation_that_does_nothing_is_told() {
    let (archive, nothing) = (&crate::implementations::ARCHIVE, &crate::implementations::NOTHING);
    let scenarios = Scenarios::all();
    assert!(seen(&[*archive, *nothing], &scenarios).is_err());
    assert!(on_lent_tables(nothing).is_err());
    assert!(on_frames(nothing, archive).is_err());
    assert!(on_scenarios(nothing, archive, &scenarios).is_err());
    let events = scenarios.events().iter();
    let right = events.filter(|events| on_calls(nothing, events).is_ok());
    // A tick at the latest time, by which nothing is given up, is answered with zeros and changes nothing.
    assert_eq!(
        right.map(|events| events.name).collect::<Vec<&str>>(),
        ["tick, full window, none overdue"]
    );
    for (name, single) in scenarios.singles() {
        let left_to_the_archive = matches!(single, Single::Receive(..));
        assert_eq!(on_single(nothing, name, single).is_ok(), left_to_the_archive, "{name}");
    }
}

#[test]
fn a_scenario_without_calls_is_told() {
    let scenarios = Scenarios::all();
    let without = |events: &Events| Events {
        name: events.name,
        start: events.start.clone(),
        calls: Vec::new(),
        buffers: events.buffers,
    };
    let archive = &crate::implementations::ARCHIVE;
    assert!(on_calls(archive, &without(&scenarios.events()[0])).is_err());
}
