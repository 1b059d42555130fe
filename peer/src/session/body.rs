//! The bodies of a session: each kind with its fields, all numbers big-endian, read and written.

use crate::capability::{Frame, Set};
use crate::rate::{Band, Request};
use crate::receiver::{Act, ChannelEvent};
use crate::table::{Address, Key};

/// Each kind with the length of its body; for kinds 10 and 11 it is the least.
pub const LENGTHS: [(u8, usize); 11] = [
    (1, 28),
    (2, 24),
    (3, 22),
    (4, 22),
    (5, 14),
    (6, 5),
    (7, 5),
    (8, 1),
    (9, 14),
    (10, 1),
    (11, 21),
];

/// A rate request to be written: its fields, the addresses and the room of the output.
#[derive(Clone, Debug, PartialEq, Eq)]
pub struct Writing {
    /// The fixed fields.
    pub request: Request,
    /// How many octets the output has, as the body says it.
    pub room: u16,
    /// The octets of the addresses.
    pub addresses: Vec<u8>,
}

/// An event of a session.
#[derive(Clone, Debug, PartialEq, Eq)]
pub enum Event {
    /// Kinds 1 to 4.
    Channel(ChannelEvent),
    /// Kind 5: a look at a channel's record.
    Look(Key),
    /// Kind 6: a fresh station with this default set.
    Fresh(Set),
    /// Kind 7: use of flags.
    Use(Set),
    /// Kind 8: the end of a period.
    PeriodEnd,
    /// Kind 9: a received capability frame.
    Received(Frame),
    /// Kind 10: a rate frame to read.
    Read(Vec<u8>),
    /// Kind 11: a rate request to write.
    Write(Writing),
}

/// What is left of a body while its fields are taken off its front.
struct Fields<'a>(&'a [u8]);

impl Fields<'_> {
    fn octets<const COUNT: usize>(&mut self) -> Option<[u8; COUNT]> {
        let front = self.0.get(..COUNT)?;
        self.0 = &self.0[COUNT..];
        front.try_into().ok()
    }

    fn octet(&mut self) -> Option<u8> {
        self.octets::<1>().map(u8::from_be_bytes)
    }

    fn number(&mut self) -> Option<u16> {
        self.octets().map(u16::from_be_bytes)
    }

    fn word(&mut self) -> Option<u32> {
        self.octets().map(u32::from_be_bytes)
    }

    fn time(&mut self) -> Option<u64> {
        self.octets().map(u64::from_be_bytes)
    }

    fn address(&mut self) -> Option<Address> {
        self.octets()
    }

    fn key(&mut self) -> Option<Key> {
        Some(Key {
            destination: self.address()?,
            source: self.address()?,
            priority: self.octet()?,
        })
    }

    fn band(&mut self) -> Option<Band> {
        Some(Band {
            pe: self.octet()?,
            rank: self.octet()?,
        })
    }

    fn rest(&mut self) -> Vec<u8> {
        std::mem::take(&mut self.0).to_vec()
    }
}

impl Event {
    /// The event of a body; `None` where the body is unreadable: its kind is unknown, or its length is not its kind's.
    pub fn from_body(body: &[u8]) -> Option<Event> {
        let mut fields = Fields(body);
        let event = match fields.octet()? {
            kind @ 1..=4 => Event::Channel(channel_event(kind, &mut fields)?),
            5 => Event::Look(fields.key()?),
            6 => Event::Fresh(fields.word()?),
            7 => Event::Use(fields.word()?),
            8 => Event::PeriodEnd,
            9 => Event::Received(capability_frame(&mut fields)?),
            10 => Event::Read(fields.rest()),
            11 => Event::Write(writing(&mut fields)?),
            _ => return None,
        };
        fields.0.is_empty().then_some(event)
    }

    /// The body of an event.
    pub fn to_body(&self) -> Vec<u8> {
        match self {
            Event::Channel(event) => channel_body(event),
            Event::Look(key) => [vec![5], key_octets(key)].concat(),
            Event::Fresh(default) => [&[6], &default.to_be_bytes()[..]].concat(),
            Event::Use(flags) => [&[7], &flags.to_be_bytes()[..]].concat(),
            Event::PeriodEnd => vec![8],
            Event::Received(frame) => capability_body(frame),
            Event::Read(frame) => [&[10], &frame[..]].concat(),
            Event::Write(writing) => writing_body(writing),
        }
    }
}

fn channel_event(kind: u8, fields: &mut Fields) -> Option<ChannelEvent> {
    let key = fields.key()?;
    let time = fields.time()?;
    let act = match kind {
        1 => Act::Data(fields.number()?, fields.word()?),
        2 => Act::Reminder(fields.number()?),
        3 => Act::Tick,
        _ => Act::Close,
    };
    Some(ChannelEvent { key, time, act })
}

fn channel_body(event: &ChannelEvent) -> Vec<u8> {
    let (kind, rest) = match event.act {
        Act::Data(number, handle) => (1, [&number.to_be_bytes()[..], &handle.to_be_bytes()].concat()),
        Act::Reminder(number) => (2, number.to_be_bytes().to_vec()),
        Act::Tick => (3, Vec::new()),
        Act::Close => (4, Vec::new()),
    };
    [
        vec![kind],
        key_octets(&event.key),
        event.time.to_be_bytes().to_vec(),
        rest,
    ]
    .concat()
}

fn key_octets(key: &Key) -> Vec<u8> {
    [&key.destination[..], &key.source, &[key.priority]].concat()
}

fn capability_frame(fields: &mut Fields) -> Option<Frame> {
    Some(Frame {
        opcode: fields.octet()?,
        oldest_tx: fields.word()?,
        current_tx: fields.word()?,
        current_rx: fields.word()?,
    })
}

fn capability_body(frame: &Frame) -> Vec<u8> {
    let sets = [frame.oldest_tx, frame.current_tx, frame.current_rx];
    let mut body = vec![9, frame.opcode];
    body.extend(sets.iter().flat_map(|set| set.to_be_bytes()));
    body
}

fn writing(fields: &mut Fields) -> Option<Writing> {
    let request = Request {
        destination: fields.address()?,
        source: fields.address()?,
        opcode: fields.octet()?,
        num_bands: fields.octet()?,
        band_1: fields.band()?,
        band_2: fields.band()?,
    };
    Some(Writing {
        request,
        room: fields.number()?,
        addresses: fields.rest(),
    })
}

fn writing_body(writing: &Writing) -> Vec<u8> {
    let Request {
        destination,
        source,
        opcode,
        num_bands,
        band_1,
        band_2,
    } = writing.request;
    let mut body = vec![11];
    body.extend(destination);
    body.extend(source);
    body.extend([opcode, num_bands, band_1.pe, band_1.rank, band_2.pe, band_2.rank]);
    body.extend(writing.room.to_be_bytes());
    body.extend(&writing.addresses);
    body
}
