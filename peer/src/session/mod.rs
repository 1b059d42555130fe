//! Sessions: a stream of entries, each a 16-bit length and a body, answered one after the other, a line each.

mod body;
mod line;

pub use body::{Event, Writing, LENGTHS};

use crate::capability::Station;
use crate::receiver::Buffers;
use crate::table::Table;
use std::io::{self, Write};

/// The state of a session: one table, empty at its start, and one station, at its start fresh with default set 0.
#[derive(Clone, Debug)]
pub struct Session {
    table: Table,
    station: Station,
}

impl Session {
    /// A session at its start.
    pub fn begin() -> Session {
        Session {
            table: Table::empty(),
            station: Station::fresh(0),
        }
    }

    /// The answer to an event: its line without the index.
    pub fn answer(&mut self, event: &Event) -> String {
        match event {
            Event::Channel(event) => line::channel(event.act, &self.table.take(Buffers::ENOUGH, event)),
            Event::Look(key) => line::look(self.table.look(key)),
            Event::Fresh(default) => {
                self.station = Station::fresh(*default);
                line::station("fresh", &crate::capability::Order::QUIET, &self.station)
            }
            Event::Use(flags) => line::station("use", &self.station.use_of(*flags), &self.station),
            Event::PeriodEnd => line::station("period", &self.station.period_end(), &self.station),
            Event::Received(frame) => line::station("received", &self.station.received(frame), &self.station),
            Event::Read(frame) => line::read(crate::rate::read(frame)),
            Event::Write(writing) => line::write(writing),
        }
    }
}

/// What stands at the beginning of what is left of a stream.
enum Entry<'a> {
    /// Nothing: the session ends here.
    End,
    /// The stream ends inside the length or inside the body.
    Cut,
    /// A body, and what follows it.
    Body(&'a [u8], &'a [u8]),
}

fn next_entry(stream: &[u8]) -> Entry<'_> {
    if stream.is_empty() {
        return Entry::End;
    }
    if stream.len() < 2 {
        return Entry::Cut;
    }
    let length = usize::from(u16::from_be_bytes([stream[0], stream[1]]));
    let rest = &stream[2..];
    if rest.len() < length {
        return Entry::Cut;
    }
    Entry::Body(&rest[..length], &rest[length..])
}

/// Answers a stream, a line for each event. A cut or unreadable body ends the run with a line that says so.
pub fn answer(stream: &[u8], output: &mut impl Write) -> io::Result<()> {
    let mut session = Session::begin();
    let mut rest = stream;
    for index in 0_u64.. {
        let body = match next_entry(rest) {
            Entry::End => return Ok(()),
            Entry::Cut => return writeln!(output, "{index} cut"),
            Entry::Body(body, after) => {
                rest = after;
                body
            }
        };
        let event = match Event::from_body(body) {
            Some(event) => event,
            None => return writeln!(output, "{index} unreadable"),
        };
        writeln!(output, "{index} {}", session.answer(&event))?;
    }
    Ok(())
}

/// A body as an entry of a stream. A body has at most 65,535 octets.
pub fn entry(body: &[u8]) -> Vec<u8> {
    let length = body.len() as u16;
    [&length.to_be_bytes(), body].concat()
}

/// The stream of these events.
pub fn stream<'a>(events: impl IntoIterator<Item = &'a Event>) -> Vec<u8> {
    events.into_iter().flat_map(|event| entry(&event.to_body())).collect()
}
