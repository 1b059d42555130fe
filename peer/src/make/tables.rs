//! Random lent tables, sound and broken in each way, and random calls on them.

use super::{keys, numbers};
use crate::lent::{Lent, Slices};
use crate::random::Random;
use crate::receiver::{Act, Buffers, ChannelEvent};
use crate::record::{Cell, Record};
use crate::ring;
use crate::table::{Key, Owner, Place, Table};

/// What a random lent table may hold besides open places and zeros.
#[derive(Clone, Copy, Debug, PartialEq, Eq)]
pub enum FreePlaces {
    /// Free places are zeros.
    Zeros,
    /// Some free places hold other things past their first key word.
    Littered,
}

/// A random lent table of 64 places.
pub fn table(random: &mut Random, free_places: FreePlaces) -> Lent {
    let mut lent = Lent::empty();
    let any = random.between(1, 63);
    let open = random.weighted(&[(1, 0), (4, 3), (4, any), (1, 63), (5, 64)]);
    let doubled = random.once_in(2);
    for (place, key) in keys::all().enumerate().take(Table::PLACES) {
        if random.below(64) < open {
            let owner = owner(random, key, doubled);
            open_place(random, &mut lent, place, &owner);
        } else if free_places == FreePlaces::Littered && random.once_in(3) {
            litter(random, &mut lent, place);
            lent.keys[2 * place + 1] = random.word();
        }
    }
    lent
}

/// Makes one slice of a lent table too long or too short.
pub fn misfit(random: &mut Random, lent: &mut Lent) {
    let longer = random.once_in(2);
    match random.below(4) {
        0 => by_one(&mut lent.keys, longer),
        1 => by_one(&mut lent.words, longer),
        2 => by_one(&mut lent.handles, longer),
        _ => by_one(&mut lent.marks, longer),
    }
}

fn by_one<T: Default>(slice: &mut Vec<T>, longer: bool) {
    if longer {
        slice.push(T::default());
    } else {
        slice.pop();
    }
}

/// A channel's key, perhaps one that stands elsewhere too, or key words that no event can have.
fn owner(random: &mut Random, key: Key, doubled: bool) -> Owner {
    if random.once_in(12) {
        let priority_above_7 = random.word() | 9;
        let destination_above_48_bits = (1 << 52) + 1;
        let first = random.pick(&[9, 16, 32, destination_above_48_bits, u64::MAX, priority_above_7]);
        return Owner::Nobody(first, random.pick(&[0, 1, 0x0200_0000_0001]));
    }
    if random.once_in(20) {
        return Owner::Nobody(1, random.pick(&[1 << 48, u64::MAX]));
    }
    if doubled {
        let keys: Vec<Key> = keys::all().take(8).collect();
        return Owner::Channel(random.pick(&keys));
    }
    Owner::Channel(key)
}

fn open_place(random: &mut Random, lent: &mut Lent, place: usize, owner: &Owner) {
    if random.once_in(2) {
        litter(random, lent, place);
    }
    let mut record = sound(random);
    if random.once_in(3) {
        for _ in 0..random.between(1, 2) {
            break_record(random, &mut record);
        }
    }
    lent.put(place, owner, &record);
    for mark in lent.marks_of(place) {
        if *mark != 0 && random.once_in(4) {
            *mark = random.between(1, 255) as u8;
        }
    }
}

/// Fills the words, handles and marks of a place with anything.
fn litter(random: &mut Random, lent: &mut Lent, place: usize) {
    lent.words_of(place).fill_with(|| random.word());
    lent.handles_of(place).fill_with(|| random.word() as u32);
    lent.marks_of(place).fill_with(|| random.pick(&[0, 1, 2, 255]));
}

/// A sound record: M is missing, times do not fall and are not later than the latest.
fn sound(random: &mut Random) -> Record {
    let small = random.below(1_000);
    let near_the_end = u64::MAX - random.below(300);
    let latest = random.weighted(&[(6, small), (1, 0), (1, u64::MAX), (2, near_the_end)]);
    let current = u64::from(numbers::opening(random));
    let any = random.between(0, ring::WINDOW);
    let span = random.weighted(&[(2, 0), (1, 1), (4, any), (1, 31), (2, 32)]);
    let oldest = u64::from(numbers::at_distance(current, 1 - span as i64));
    let often_waiting = random.pick(&[2, 4, 33]);
    let mut since = latest.saturating_sub(random.pick(&[0, 10, 150, 400]));
    let mut cells = Vec::new();
    for doors in 0..span {
        if doors > 0 && !random.once_in(often_waiting) {
            cells.push(Cell::Waits(random.below(10_000) as u32));
        } else {
            since += random.below(20).min(latest - since);
            cells.push(Cell::Missing(since));
        }
    }
    Record {
        current,
        oldest,
        latest,
        cells,
    }
}

/// Breaks a record in one of the six ways, where it has what can be broken.
fn break_record(random: &mut Random, record: &mut Record) {
    match random.weighted(&[(2, 0), (2, 1), (2, 2), (2, 3), (3, 4), (4, 5)]) {
        0 => record.current = beyond(random, record.current),
        1 => record.oldest = beyond(random, record.oldest),
        2 => {
            let span = random.pick(&[33, 34, 64, 2_048, 4_095]);
            record.oldest = u64::from(numbers::at_distance(record.current, 1 - span));
        }
        3 => {
            if let Some(cell) = record.cells.first_mut() {
                *cell = Cell::Waits(7);
            }
        }
        4 => {
            let later = record.latest.saturating_add(random.pick(&[1, 1_000, u64::MAX]));
            one_missing(random, record, |_| later);
        }
        _ => {
            let ago = random.pick(&[1, 30, 400]);
            one_missing(random, record, |since| since.saturating_sub(ago));
        }
    }
    if !record.has_window() {
        record.cells.clear();
    }
}

/// A word above 4,095 that a narrower word, or the ring, would take for `number`.
fn beyond(random: &mut Random, number: u64) -> u64 {
    let above = random.pick(&[ring::SIZE, 1 << 16, 1 << 32, 1 << 63, u64::MAX - number]);
    number.wrapping_add(above)
}

/// Changes the time of one missing number.
fn one_missing(random: &mut Random, record: &mut Record, change: impl Fn(u64) -> u64) {
    let missing = |cell: &&mut Cell| matches!(cell, Cell::Missing(_));
    let mut cells: Vec<&mut Cell> = record.cells.iter_mut().filter(missing).collect();
    if cells.is_empty() {
        return;
    }
    let place = random.below(cells.len() as u64) as usize;
    if let Cell::Missing(since) = *cells[place] {
        *cells[place] = Cell::Missing(change(since));
    }
}

/// A random call on a lent table: the lengths of the answer buffers, and an event, mostly for one of its channels.
pub fn call(random: &mut Random, slices: &Slices<'_>) -> (Buffers, ChannelEvent) {
    let table = Table::from_slices(slices).unwrap_or_else(Table::empty);
    let channel = |place: &Place| match place {
        Place::Open(Owner::Channel(key), _) => Some(*key),
        _ => None,
    };
    let keys: Vec<Key> = table.places().iter().filter_map(channel).collect();
    let mut key = if keys.is_empty() || random.once_in(5) {
        keys::any(random)
    } else {
        random.pick(&keys)
    };
    let (mut number, time) = number_and_time(random, table.record_of(&key));
    if random.once_in(25) {
        key.priority = random.pick(&[8, 15, 255]);
    }
    if random.once_in(25) {
        number = numbers::above(random);
    }
    let data = Act::Data(number, random.word() as u32);
    let act = random.weighted(&[(6, data), (4, Act::Reminder(number)), (3, Act::Tick), (3, Act::Close)]);
    (buffers(random), ChannelEvent { key, time, act })
}

fn number_and_time(random: &mut Random, record: Option<&Record>) -> (u16, u64) {
    let record = match record {
        Some(record) => record,
        None => return (numbers::opening(random), numbers::opening_time(random)),
    };
    let edge = random.pick(&numbers::EDGES);
    let behind = -(random.below(34) as i64);
    let ahead = random.between(1, 64) as i64;
    let from_current = numbers::at_distance(record.current, random.pick(&[edge, behind, ahead]));
    let oldest = numbers::at_distance(record.oldest, random.pick(&[-1, 0, 0, 1]));
    let later = numbers::later(random, record.latest);
    let edge_of_patience = numbers::edge_of_patience(random, record);
    let earlier = numbers::earlier(random, record.latest);
    let time = random.weighted(&[(6, later), (5, edge_of_patience), (1, earlier), (1, u64::MAX)]);
    (random.weighted(&[(5, from_current), (2, oldest)]), time)
}

fn buffers(random: &mut Random) -> Buffers {
    let mut entries = || random.weighted(&[(30, 32), (10, 33), (5, 40), (1, 31), (1, 0)]);
    Buffers {
        up: entries(),
        returned: entries(),
        nack: entries(),
    }
}
