//! Random channel events that reach deep: the maker stays with one channel for a while, in one of several moods.

use super::moods::{Mood, MOODS};
use super::{keys, numbers};
use crate::random::Random;
use crate::receiver::{Act, Buffers, ChannelEvent};
use crate::record::{Cell, Record};
use crate::session::Event;
use crate::table::{Key, Owner, Place, Table};

/// A maker of random channel events, with the table as the events have left it.
#[derive(Clone, Debug)]
pub struct Channels {
    table: Table,
    favourites: [Key; 4],
    key: Key,
    mood: Mood,
    left: u64,
    handle: u32,
}

impl Channels {
    /// The maker at the start of a session.
    pub fn begin(random: &mut Random) -> Channels {
        let favourites = keys::family(random);
        Channels {
            table: Table::empty(),
            favourites,
            key: favourites[0],
            mood: Mood::Run,
            left: 3,
            handle: 0,
        }
    }

    /// The next event: a look, or a channel event, now and then a spoilt one.
    pub fn event(&mut self, random: &mut Random) -> Event {
        if self.left == 0 {
            self.change_mood(random);
        }
        if random.once_in(5) {
            return Event::Look(self.key_to_look_at(random));
        }
        self.left -= 1;
        let mut event = self.by_mood(random);
        if random.once_in(15) {
            self.spoil(random, &mut event);
        }
        self.table.take(Buffers::ENOUGH, &event);
        Event::Channel(event)
    }

    fn change_mood(&mut self, random: &mut Random) {
        if self.mood == Mood::Starve {
            (self.mood, self.left) = (Mood::Crest, 1);
            return;
        }
        let (mood, at_least, at_most) = random.weighted(&MOODS);
        (self.mood, self.left) = (mood, random.between(at_least, at_most));
        let favourite = random.pick(&self.favourites);
        let open = self.open_key(random);
        let any = keys::any(random);
        self.key = random.weighted(&[(6, favourite), (3, open), (1, any)]);
    }

    fn by_mood(&mut self, random: &mut Random) -> ChannelEvent {
        match self.mood {
            Mood::Run => self.data_at(random, 1),
            Mood::Holes => {
                let d = random.between(1, 5) as i64;
                self.data_at(random, d)
            }
            Mood::Starve => {
                let starved = matches!(self.record(), Some(record) if record.span() > 0);
                self.data_at(random, if starved { 1 } else { 2 })
            }
            Mood::Crest => self.crest(random),
            Mood::Fill => self.fill(random),
            Mood::Copies => self.copy(random),
            Mood::Edges => {
                let d = random.pick(&numbers::EDGES);
                self.data_at(random, d)
            }
            Mood::Remind => self.remind(random),
            Mood::Ticks => self.tick_or_gap(random),
            Mood::Crowd => {
                self.key = self.stranger(random);
                self.data_at(random, 1)
            }
            Mood::Leave => {
                self.key = self.open_key(random);
                self.at_a_later_time(random, Act::Close)
            }
            Mood::Strangers => self.for_a_stranger(random),
        }
    }

    /// Data at a distance from C; where the channel is not open, data that opens it.
    fn data_at(&mut self, random: &mut Random, d: i64) -> ChannelEvent {
        let number = match self.record() {
            Some(record) => numbers::at_distance(record.current, d),
            None => numbers::opening(random),
        };
        self.data(random, number)
    }

    fn data(&mut self, random: &mut Random, number: u16) -> ChannelEvent {
        let handle = self.next_handle(random);
        self.at_a_later_time(random, Act::Data(number, handle))
    }

    fn at_a_later_time(&self, random: &mut Random, act: Act) -> ChannelEvent {
        let time = match self.record() {
            Some(record) => numbers::later(random, record.latest),
            None => numbers::opening_time(random),
        };
        ChannelEvent {
            key: self.key,
            time,
            act,
        }
    }

    /// Handles count up, so that a frame can be followed; now and then one is given twice, or is at the edge.
    fn next_handle(&mut self, random: &mut Random) -> u32 {
        if !random.once_in(40) {
            self.handle += 1;
        } else if random.once_in(2) {
            return random.pick(&[0, u32::MAX]);
        }
        self.handle
    }

    fn crest(&mut self, random: &mut Random) -> ChannelEvent {
        let oldest = self.record().map_or(0, |record| record.oldest as u16);
        match random.below(7) {
            0 | 1 => self.data(random, oldest),
            2 => {
                let d = random.pick(&numbers::FAR);
                self.data_at(random, d)
            }
            3 => {
                let d = random.between(2, 64) as i64;
                self.data_at(random, d)
            }
            4 => {
                let d = random.pick(&[1, 2, 31, 32, 33, 64]);
                self.reminder_at(random, d)
            }
            5 => self.tick_at_the_edge(random),
            _ => self.at_a_later_time(random, Act::Close),
        }
    }

    fn fill(&mut self, random: &mut Random) -> ChannelEvent {
        let missing = self.numbers(|cell| matches!(cell, Cell::Missing(_)));
        let (first, last) = match (missing.first(), missing.last()) {
            (Some(&first), Some(&last)) => (first, last),
            _ => {
                let d = random.between(1, 8) as i64;
                return self.data_at(random, d);
            }
        };
        let any = random.pick(&missing);
        let number = random.weighted(&[(2, first), (1, last), (3, any)]);
        self.data(random, number)
    }

    fn copy(&mut self, random: &mut Random) -> ChannelEvent {
        let waiting = self.numbers(|cell| matches!(cell, Cell::Waits(_)));
        if waiting.is_empty() || random.once_in(3) {
            let d = -(random.below(66) as i64);
            return self.data_at(random, d);
        }
        let number = random.pick(&waiting);
        self.data(random, number)
    }

    fn remind(&mut self, random: &mut Random) -> ChannelEvent {
        let small = random.between(1, 4) as i64;
        let edge = random.pick(&numbers::EDGES);
        let d = random.pick(&[small, edge]);
        self.reminder_at(random, d)
    }

    fn reminder_at(&mut self, random: &mut Random, d: i64) -> ChannelEvent {
        let current = self.record().map_or(0, |record| record.current);
        self.at_a_later_time(random, Act::Reminder(numbers::at_distance(current, d)))
    }

    fn tick_or_gap(&mut self, random: &mut Random) -> ChannelEvent {
        if random.once_in(2) {
            return self.tick_at_the_edge(random);
        }
        let d = random.between(1, 4) as i64;
        self.data_at(random, d)
    }

    fn tick_at_the_edge(&self, random: &mut Random) -> ChannelEvent {
        let time = match self.record() {
            Some(record) => numbers::edge_of_patience(random, record),
            None => numbers::opening_time(random),
        };
        ChannelEvent {
            key: self.key,
            time,
            act: Act::Tick,
        }
    }

    fn for_a_stranger(&mut self, random: &mut Random) -> ChannelEvent {
        self.key = self.stranger(random);
        let number = numbers::opening(random);
        let act = random.pick(&[Act::Reminder(number), Act::Tick, Act::Close]);
        self.at_a_later_time(random, act)
    }

    /// Spoils one thing of an event, or two, so that the first number counts.
    fn spoil(&self, random: &mut Random, event: &mut ChannelEvent) {
        let latest = self.record().map_or(0, |record| record.latest);
        for _ in 0..random.between(1, 2) {
            match random.below(4) {
                0 => event.act = with_number(event.act, numbers::above(random)),
                1 => event.key.priority = random.pick(&[8, 9, 15, 128, 255]),
                2 => event.time = numbers::earlier(random, latest),
                _ => event.key.source[5] ^= 0x10,
            }
        }
    }

    fn record(&self) -> Option<&Record> {
        self.table.record_of(&self.key)
    }

    /// The numbers from M to C whose cell is of a sort.
    fn numbers(&self, sort: impl Fn(Cell) -> bool) -> Vec<u16> {
        let record = self.record().into_iter();
        let of_sort = |(number, cell)| sort(cell).then_some(number as u16);
        record.flat_map(Record::numbered).filter_map(of_sort).collect()
    }

    /// A key that is open, if there is one.
    fn open_key(&self, random: &mut Random) -> Key {
        let owner = |place: &Place| match place {
            Place::Open(Owner::Channel(key), _) => Some(*key),
            _ => None,
        };
        let open: Vec<Key> = self.table.places().iter().filter_map(owner).collect();
        if open.is_empty() {
            keys::any(random)
        } else {
            random.pick(&open)
        }
    }

    /// A key that is not open.
    fn stranger(&self, random: &mut Random) -> Key {
        let strange: Vec<Key> = keys::all().filter(|key| self.table.channel_of(key).is_none()).collect();
        random.pick(&strange)
    }

    fn key_to_look_at(&self, random: &mut Random) -> Key {
        let mut key = if random.once_in(6) { keys::any(random) } else { self.key };
        if random.once_in(50) {
            key.priority = random.pick(&[8, 255]);
        }
        key
    }
}

/// The same act with another number, where it has one.
fn with_number(act: Act, number: u16) -> Act {
    match act {
        Act::Data(_, handle) => Act::Data(number, handle),
        Act::Reminder(_) => Act::Reminder(number),
        Act::Tick | Act::Close => act,
    }
}
