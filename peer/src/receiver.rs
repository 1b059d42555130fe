//! The four channel events on a table, with the numbers 1 to 8 in their order, and the look at a channel's record
//! (document 01, 'The four channel events' and 'Numbers the box may answer with').

use crate::answer::{refuse, Answer, Number};
use crate::record::Record;
use crate::ring;
use crate::table::{Key, Table};

/// How many entries each of the three answer buffers has.
#[derive(Clone, Copy, Debug, PartialEq, Eq)]
pub struct Buffers {
    /// The buffer of handles handed up.
    pub up: usize,
    /// The buffer of handles returned.
    pub returned: usize,
    /// The buffer of numbers to be asked for again.
    pub nack: usize,
}

impl Buffers {
    /// How many entries each must have.
    pub const ENTRIES: usize = 32;

    /// Three buffers that are just long enough.
    pub const ENOUGH: Buffers = Buffers {
        up: Buffers::ENTRIES,
        returned: Buffers::ENTRIES,
        nack: Buffers::ENTRIES,
    };

    fn some_too_short(&self) -> bool {
        [self.up, self.returned, self.nack]
            .iter()
            .any(|&entries| entries < Buffers::ENTRIES)
    }
}

/// What happens on a channel.
#[derive(Clone, Copy, Debug, PartialEq, Eq)]
pub enum Act {
    /// Data with a number and the handle of its frame.
    Data(u16, u32),
    /// A reminder of a number.
    Reminder(u16),
    /// A tick.
    Tick,
    /// A close.
    Close,
}

/// A channel event.
#[derive(Clone, Copy, Debug, PartialEq, Eq)]
pub struct ChannelEvent {
    /// The channel it is for.
    pub key: Key,
    /// The time it carries.
    pub time: u64,
    /// What happens.
    pub act: Act,
}

impl Table {
    /// Takes a channel event. A refusal leaves the table as it was.
    pub fn take(&mut self, buffers: Buffers, event: &ChannelEvent) -> Answer {
        let ChannelEvent { key, time, act } = event;
        let taken = match *act {
            Act::Data(s, handle) => self.data(buffers, key, *time, s.into(), handle),
            Act::Reminder(s) => self.reminder(buffers, key, *time, s.into()),
            Act::Tick => self.tick(buffers, key, *time),
            Act::Close => self.close(buffers, key, *time),
        };
        taken.unwrap_or_else(Answer::refused)
    }

    /// Data: opens the channel, or steps its record.
    pub fn data(&mut self, buffers: Buffers, key: &Key, time: u64, s: u64, handle: u32) -> Result<Answer, Number> {
        refuse(1, buffers.some_too_short())?;
        refuse(2, !ring::is_number(s))?;
        refuse(3, key.priority > 7)?;
        match self.channel_of(key) {
            Some(_) => Ok(self.record_for(key, time)?.data(time, s, handle)),
            None => {
                let place = self.first_free().ok_or(5)?;
                self.open(place, *key, Record::opened(s, time));
                Ok(Answer {
                    up: vec![handle],
                    ..Answer::default()
                })
            }
        }
    }

    /// A reminder.
    pub fn reminder(&mut self, buffers: Buffers, key: &Key, time: u64, s: u64) -> Result<Answer, Number> {
        refuse(1, buffers.some_too_short())?;
        refuse(2, !ring::is_number(s))?;
        let record = self.record_for(key, time)?;
        record.reminder(time, s).ok_or(8)
    }

    /// A tick.
    pub fn tick(&mut self, buffers: Buffers, key: &Key, time: u64) -> Result<Answer, Number> {
        refuse(1, buffers.some_too_short())?;
        let record = self.record_for(key, time)?;
        Ok(record.tick(time))
    }

    /// A close: what waits comes back in sequence order; from then on its place is free.
    pub fn close(&mut self, buffers: Buffers, key: &Key, time: u64) -> Result<Answer, Number> {
        refuse(1, buffers.some_too_short())?;
        let returned = self.record_for(key, time)?.waiting();
        self.free(key);
        Ok(Answer {
            returned,
            ..Answer::default()
        })
    }

    /// The record of a channel that must be there, with the numbers 3, 4, 6 and 7.
    fn record_for(&mut self, key: &Key, time: u64) -> Result<&mut Record, Number> {
        refuse(3, key.priority > 7)?;
        let record = self.record_of_mut(key).ok_or(4)?;
        refuse(6, record.is_broken())?;
        refuse(7, time < record.latest)?;
        Ok(record)
    }

    /// A look at a channel's record: refused by 3, 4 and 6, in that order.
    pub fn look(&self, key: &Key) -> Result<&Record, Number> {
        refuse(3, key.priority > 7)?;
        let record = self.record_of(key).ok_or(4)?;
        refuse(6, record.is_broken())?;
        Ok(record)
    }
}
