//! Who plays a session: the archive, through the binding, and `peer`. Each gives its answers in words that both share.

use crate::lent::channel_of;
use peer::answer::{Answer, Number};
use peer::capability::{self, Order};
use peer::receiver::{Act, Buffers, ChannelEvent};
use peer::record::{Cell, Record};
use peer::session::{Event, Writing};
use peer::table::{Key, Place};
use pikurandal::{rate, raw, Frame, Refusal, Station, Table, Timer};

/// One who plays a session from its start.
pub trait Player {
    /// Takes an event. A request is written to the output, whose octets are litter before.
    fn play(&mut self, event: &Event, output: &mut [u8]) -> Given;

    /// Closes every channel at the session's end: the handles that come back, place by place.
    fn close_all(&mut self) -> Vec<u32>;
}

/// What an event is answered with.
#[derive(Clone, Debug, PartialEq, Eq)]
pub enum Given {
    /// A channel event: its answer.
    Channel(Answer),
    /// A look: the record.
    Look(Result<Record, Number>),
    /// A station's event: its order, the frame that it sends now, and the sets that a frame sent after it carries.
    Station(Order, Option<Frame>, Frame),
    /// A frame to read: its request.
    Read(Result<Read, Number>),
    /// A request to write: the count of octets.
    Write(Result<usize, Number>),
}

/// A rate request that was read.
#[derive(Clone, Debug, PartialEq, Eq)]
pub struct Read {
    /// The fixed fields.
    pub request: raw::Request,
    /// Where in the frame the addresses begin: they are the frame's own octets.
    pub start: usize,
    /// The octets of the addresses.
    pub addresses: Vec<u8>,
    /// The chosen band.
    pub chosen: Option<u8>,
    /// Its rate.
    pub rate: Option<u8>,
}

/// How many octets lie from the start of a frame to a part of it.
fn start_of(part: &[u8], frame: &[u8]) -> usize {
    (part.as_ptr() as usize).wrapping_sub(frame.as_ptr() as usize)
}

/// The archive, through the binding.
#[derive(Debug)]
pub struct Archive {
    table: Table,
    station: Station,
}

impl Archive {
    /// At a session's start.
    pub fn begin() -> Archive {
        Archive {
            table: Table::new(),
            station: Station::fresh(0),
        }
    }

    fn channel_event(&mut self, event: &ChannelEvent) -> Answer {
        let channel = channel_of(&event.key);
        let given = match event.act {
            Act::Data(number, handle) => self.table.data(&channel, event.time, number, handle),
            Act::Reminder(number) => self.table.reminder(&channel, event.time, number),
            Act::Tick => self.table.tick(&channel, event.time),
            Act::Close => self.table.close(&channel, event.time),
        };
        match given {
            Ok(answer) => Answer {
                number: raw::ACCEPTED,
                up: answer.up.to_vec(),
                returned: answer.returned.to_vec(),
                nack: answer.nack.iter().map(|&number| number.into()).collect(),
                lost: answer.lost as u64,
            },
            Err(refusal) => Answer::refused(refusal.number()),
        }
    }

    fn look(&self, key: &Key) -> Result<Record, Number> {
        let cell = |cell: &pikurandal::Cell| match *cell {
            pikurandal::Cell::Waits(handle) => Cell::Waits(handle),
            pikurandal::Cell::Missing(since) => Cell::Missing(since),
        };
        let shown = self.table.look(&channel_of(key)).map_err(Refusal::number)?;
        Ok(Record {
            current: shown.current.into(),
            oldest: shown.oldest.into(),
            latest: shown.latest,
            cells: shown.cells.iter().map(cell).collect(),
        })
    }

    fn ordered(&self, order: Result<pikurandal::Order, Refusal>) -> Given {
        let sent = order.as_ref().ok().and_then(|order| order.sends);
        let order = match order {
            Ok(order) => Order {
                number: raw::ACCEPTED,
                sent: order.sends.is_some(),
                timer: match order.timer {
                    Timer::Kept => capability::Timer::Kept,
                    Timer::Started => capability::Timer::Started,
                    Timer::Cancelled => capability::Timer::Cancelled,
                },
                really_new: order.reported,
            },
            Err(refusal) => Order {
                number: refusal.number(),
                ..Order::QUIET
            },
        };
        Given::Station(order, sent, self.station.frame())
    }
}

impl Player for Archive {
    fn play(&mut self, event: &Event, output: &mut [u8]) -> Given {
        match event {
            Event::Channel(event) => Given::Channel(self.channel_event(event)),
            Event::Look(key) => Given::Look(self.look(key)),
            Event::Fresh(default) => {
                self.station = Station::fresh(*default);
                Given::Station(Order::QUIET, None, self.station.frame())
            }
            Event::Use(flags) => {
                let order = self.station.use_flags(*flags);
                self.ordered(Ok(order))
            }
            Event::PeriodEnd => {
                let order = self.station.end_period();
                self.ordered(Ok(order))
            }
            Event::Received(frame) => {
                let order = self.station.receive(frame.opcode, sets_of(frame));
                self.ordered(order)
            }
            Event::Read(frame) => Given::Read(rate::read(frame).map_err(Refusal::number).map(|reading| {
                let chosen = rate::chosen(&reading.request);
                let pe = [reading.request.pe1, reading.request.pe2][usize::from(chosen == Some(2))];
                Read {
                    request: reading.request,
                    start: start_of(reading.addresses, frame),
                    addresses: reading.addresses.to_vec(),
                    chosen,
                    rate: rate::rate_of(pe),
                }
            })),
            Event::Write(Writing { request, addresses, .. }) => {
                Given::Write(rate::write(output, &request_of(request), addresses).map_err(Refusal::number))
            }
        }
    }

    fn close_all(&mut self) -> Vec<u32> {
        self.table.close_all()
    }
}

/// The second program.
#[derive(Debug)]
pub struct Second {
    table: peer::table::Table,
    station: capability::Station,
}

impl Second {
    /// At a session's start.
    pub fn begin() -> Second {
        Second {
            table: peer::table::Table::empty(),
            station: capability::Station::fresh(0),
        }
    }

    fn ordered(&self, order: Order) -> Given {
        let frame = Frame {
            oldest_tx: self.station.oldest_tx(),
            current_tx: self.station.current_tx(),
            current_rx: self.station.current_rx(),
        };
        Given::Station(order, order.sent.then_some(frame), frame)
    }
}

impl Player for Second {
    fn play(&mut self, event: &Event, output: &mut [u8]) -> Given {
        match event {
            Event::Channel(event) => Given::Channel(self.table.take(Buffers::ENOUGH, event)),
            Event::Look(key) => Given::Look(self.table.look(key).cloned()),
            Event::Fresh(default) => {
                self.station = capability::Station::fresh(*default);
                self.ordered(Order::QUIET)
            }
            Event::Use(flags) => {
                let order = self.station.use_of(*flags);
                self.ordered(order)
            }
            Event::PeriodEnd => {
                let order = self.station.period_end();
                self.ordered(order)
            }
            Event::Received(frame) => {
                let order = self.station.received(frame);
                self.ordered(order)
            }
            Event::Read(frame) => Given::Read(peer::rate::read(frame).map(|reading| Read {
                request: request_of(&reading.request),
                start: start_of(reading.addresses, frame),
                addresses: reading.addresses.to_vec(),
                chosen: Some(reading.request.chosen()),
                rate: Some(reading.request.rate()),
            })),
            Event::Write(Writing { request, addresses, .. }) => {
                Given::Write(peer::rate::write(request, addresses, output))
            }
        }
    }

    fn close_all(&mut self) -> Vec<u32> {
        let waiting = |place: &Place| match place {
            Place::Open(_, record) => record.waiting(),
            Place::Free => Vec::new(),
        };
        self.table.places().iter().flat_map(waiting).collect()
    }
}

fn sets_of(frame: &capability::Frame) -> Frame {
    Frame {
        oldest_tx: frame.oldest_tx,
        current_tx: frame.current_tx,
        current_rx: frame.current_rx,
    }
}

/// A request of `peer`'s as the archive takes it.
pub fn request_of(request: &peer::rate::Request) -> raw::Request {
    raw::Request {
        destination: request.destination,
        source: request.source,
        opcode: request.opcode,
        bands: request.num_bands,
        pe1: request.band_1.pe,
        rank1: request.band_1.rank,
        pe2: request.band_2.pe,
        rank2: request.band_2.rank,
    }
}
