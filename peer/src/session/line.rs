//! The lines a session is answered with: `WORD NUMBER` and the fields, `name=value`, one space between.

use crate::answer::{Answer, Number};
use crate::capability::{Order, Station, Timer};
use crate::rate::{self, Reading, Request};
use crate::receiver::Act;
use crate::record::{Cell, Record};
use crate::session::Writing;

/// The most octets an output has; a larger room counts as this.
const LARGEST_ROOM: u16 = 1_600;

/// What the output holds before the call.
const BEFORE_WRITING: u8 = 0xff;

/// The line of a channel event.
pub fn channel(act: Act, answer: &Answer) -> String {
    let word = match act {
        Act::Data(..) => "data",
        Act::Reminder(_) => "reminder",
        Act::Tick => "tick",
        Act::Close => "close",
    };
    format!(
        "{word} {} up={} returned={} nack={} lost={}",
        answer.number,
        list(&answer.up),
        list(&answer.returned),
        list(&answer.nack),
        answer.lost
    )
}

/// The line of a look.
pub fn look(seen: Result<&Record, Number>) -> String {
    match seen {
        Ok(record) => {
            let cells: Vec<String> = record.numbered().map(cell).collect();
            format!(
                "look 0 current={} oldest={} latest={} span={} cells={}",
                record.current,
                record.oldest,
                record.latest,
                record.span(),
                list(&cells)
            )
        }
        Err(number) => format!("look {number} current=0 oldest=0 latest=0 span=0 cells=-"),
    }
}

fn cell((number, cell): (u64, Cell)) -> String {
    match cell {
        Cell::Waits(handle) => format!("{number}:{handle}"),
        Cell::Missing(since) => format!("{number}?{since}"),
    }
}

/// The line of a station's event; the sets are those after it.
pub fn station(word: &str, order: &Order, station: &Station) -> String {
    let timer = match order.timer {
        Timer::Started => "started",
        Timer::Cancelled => "cancelled",
        Timer::Kept => "kept",
    };
    format!(
        "{word} {} sent={} timer={timer} really_new={:08x} oldest_tx={:08x} current_tx={:08x} current_rx={:08x}",
        order.number,
        if order.sent { "yes" } else { "no" },
        order.really_new,
        station.oldest_tx(),
        station.current_tx(),
        station.current_rx()
    )
}

/// The line of a rate frame read.
pub fn read(reading: Result<Reading<'_>, Number>) -> String {
    match reading {
        Ok(reading) => {
            let Reading {
                request,
                num_addr,
                addresses,
            } = reading;
            read_fields(0, &request, num_addr, (request.chosen(), request.rate()), addresses)
        }
        Err(number) => read_fields(number, &Request::default(), 0, (0, 0), &[]),
    }
}

fn read_fields(number: Number, request: &Request, num_addr: u8, chosen: (u8, u8), addresses: &[u8]) -> String {
    format!(
        "read {number} destination={} source={} opcode={} bands={} addresses={num_addr} \
         pe1={} rank1={} pe2={} rank2={} chosen={} rate={} octets={}",
        hexadecimal(&request.destination),
        hexadecimal(&request.source),
        request.opcode,
        request.num_bands,
        request.band_1.pe,
        request.band_1.rank,
        request.band_2.pe,
        request.band_2.rank,
        chosen.0,
        chosen.1,
        hexadecimal(addresses)
    )
}

/// The line of a rate request written, with the whole output after the call.
pub fn write(writing: &Writing) -> String {
    let room = writing.room.min(LARGEST_ROOM);
    let mut output = vec![BEFORE_WRITING; room.into()];
    let (number, count) = match rate::write(&writing.request, &writing.addresses, &mut output) {
        Ok(count) => (0, count),
        Err(number) => (number, 0),
    };
    format!("write {number} count={count} output={}", hexadecimal(&output))
}

/// A list is its values with commas between, `-` where it is empty.
fn list<T: ToString>(values: &[T]) -> String {
    if values.is_empty() {
        return "-".to_string();
    }
    values.iter().map(T::to_string).collect::<Vec<_>>().join(",")
}

/// Octets are two digits each, nothing between, `-` where there are none.
fn hexadecimal(octets: &[u8]) -> String {
    if octets.is_empty() {
        return "-".to_string();
    }
    octets.iter().map(|octet| format!("{octet:02x}")).collect()
}
