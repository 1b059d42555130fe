//! Sessions.

use crate::{assert_told, SEED, TRIED};
use compare::players::{Archive, Given, Player};
use compare::sessions::compare;
use peer::capability::Timer;
use peer::session::Event;

/// What a wrong player gives in place of the archive's answer, and does to the output.
type Slip = fn(&mut Given, &mut [u8]);

/// The archive, but for one slip, and for how many of the handles at its end it forgets.
struct Wrong {
    archive: Archive,
    slip: Slip,
    forgets: usize,
}

impl Player for Wrong {
    fn play(&mut self, event: &Event, output: &mut [u8]) -> Given {
        let mut given = self.archive.play(event, output);
        (self.slip)(&mut given, output);
        given
    }

    fn close_all(&mut self) -> Vec<u32> {
        self.archive.close_all().split_off(self.forgets)
    }
}

const SLIPS: [(&str, &str, Slip); 19] = [
    ("a wrong number", "act: ", |given, _| {
        if let Given::Channel(answer) = given {
            answer.number = if answer.number == 7 { 6 } else { answer.number };
        }
    }),
    ("a handle less", "act: ", |given, _| {
        if let Given::Channel(answer) = given {
            answer.up.pop();
        }
    }),
    ("a handle more", "act: ", |given, _| {
        if let Given::Channel(answer) = given {
            answer.returned.extend(answer.returned.first().copied());
        }
    }),
    ("one lost more", "act: ", |given, _| {
        if let Given::Channel(answer) = given {
            answer.lost += 1;
        }
    }),
    ("a wrong time shown", "Look(", |given, _| {
        if let Given::Look(Ok(record)) = given {
            record.latest += 1;
        }
    }),
    ("a cell less", "Look(", |given, _| {
        if let Given::Look(Ok(record)) = given {
            record.cells.pop();
        }
    }),
    ("a look refused by another number", "Look(", |given, _| {
        if let Given::Look(Err(number)) = given {
            *number += 1;
        }
    }),
    ("a timer that is started", "timer: Started", |given, _| {
        if let Given::Station(order, ..) = given {
            order.timer = Timer::Started;
        }
    }),
    ("flags reported", "really_new", |given, _| {
        if let Given::Station(order, ..) = given {
            order.really_new ^= 1;
        }
    }),
    ("a wrong frame sent", "Station(", |given, _| {
        if let Given::Station(_, Some(sent), _) = given {
            sent.current_tx ^= 1;
        }
    }),
    ("wrong sets after", "Station(", |given, _| {
        if let Given::Station(_, _, carried) = given {
            carried.current_rx ^= 1;
        }
    }),
    ("a wrong field read", "Read(", |given, _| {
        if let Given::Read(Ok(read)) = given {
            read.request.rank2 ^= 1;
        }
    }),
    ("addresses that are not the frame's own octets", "Read(", |given, _| {
        if let Given::Read(Ok(read)) = given {
            read.start += 1;
        }
    }),
    ("an octet of the addresses", "Read(", |given, _| {
        if let Given::Read(Ok(read)) = given {
            read.addresses.iter_mut().take(1).for_each(|octet| *octet ^= 2);
        }
    }),
    ("no band chosen", "Read(", |given, _| {
        if let Given::Read(Ok(read)) = given {
            read.chosen = None;
        }
    }),
    ("a wrong rate", "Read(", |given, _| {
        if let Given::Read(Ok(read)) = given {
            read.rate = read.rate.map(|rate| rate + 2);
        }
    }),
    ("a count of one more", "Write(", |given, _| {
        if let Given::Write(Ok(count)) = given {
            *count += 1;
        }
    }),
    ("an octet past the count", "Write(", |given, output| {
        if let Given::Write(Ok(count)) = given {
            output.iter_mut().skip(*count).take(1).for_each(|octet| *octet ^= 1);
        }
    }),
    ("a refusal that writes", "Write(", |given, output| {
        if let Given::Write(Err(_)) = given {
            output.iter_mut().take(1).for_each(|octet| *octet ^= 1);
        }
    }),
];

fn wrong(slip: Slip, forgets: usize) -> Wrong {
    let archive = Archive::begin();
    Wrong { archive, slip, forgets }
}

#[test]
fn a_wrong_answer_is_told() {
    for (name, told, slip) in SLIPS {
        assert_told(name, told, compare(&mut wrong(slip, 0), SEED, TRIED, |_| ()));
    }
}

#[test]
fn a_handle_that_is_forgotten_at_the_end_is_told() {
    let compared = compare(&mut wrong(|_, _| (), 1), SEED, TRIED, |_| ());
    assert_told("a handle forgotten", "a close of every channel", compared);
}

#[test]
fn the_archives_answers_are_alike() {
    assert_eq!(compare(&mut wrong(|_, _| (), 0), SEED, TRIED, |_| ()).ok(), Some(TRIED));
    assert_eq!(compare(&mut Archive::begin(), SEED, TRIED, |_| ()).ok(), Some(TRIED));
}

#[test]
fn no_events_are_no_agreement() {
    let compared = compare(&mut Archive::begin(), SEED, 0, |_| ());
    assert_told("no events", "0 were compared, of 0", compared);
}
