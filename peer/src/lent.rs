//! The lent table: what its four slices mean, and whether slices after a call mean a given table (document 01, 'The
//! channel table': which records are the same).

use crate::answer::Answer;
use crate::receiver::{Buffers, ChannelEvent};
use crate::record::{Cell, Record};
use crate::ring;
use crate::table::{Address, Key, Owner, Place, Table};

/// Key words of a place.
const KEYS: usize = 2;
/// Slots of a place: number n lives at slot n mod 32.
const SLOTS: usize = 32;
/// Words of a place: C, M, the latest time, and a time for each slot.
const WORDS: usize = 3 + SLOTS;

/// The four slices of a lent table.
#[derive(Clone, Copy, Debug, PartialEq, Eq)]
pub struct Slices<'a> {
    /// For each place: destination x 16 + priority + 1, or 0 where it is free; then the source.
    pub keys: &'a [u64],
    /// For each place: C, M, the latest time, and the times of missing numbers by slot.
    pub words: &'a [u64],
    /// For each place: the handles of waiting numbers by slot.
    pub handles: &'a [u32],
    /// For each place and slot: 0 missing, any other value waiting.
    pub marks: &'a [u8],
}

/// What one place has in the four slices.
#[derive(Clone, Copy, PartialEq, Eq)]
struct Stored<'a> {
    keys: &'a [u64],
    words: &'a [u64],
    handles: &'a [u32],
    marks: &'a [u8],
}

impl<'a> Slices<'a> {
    /// Whether the slices are those of 64 places.
    pub fn are_of_64_places(&self) -> bool {
        self.keys.len() == Table::PLACES * KEYS
            && self.words.len() == Table::PLACES * WORDS
            && self.handles.len() == Table::PLACES * SLOTS
            && self.marks.len() == Table::PLACES * SLOTS
    }

    fn stored(&self, place: usize) -> Stored<'a> {
        Stored {
            keys: &self.keys[place * KEYS..][..KEYS],
            words: &self.words[place * WORDS..][..WORDS],
            handles: &self.handles[place * SLOTS..][..SLOTS],
            marks: &self.marks[place * SLOTS..][..SLOTS],
        }
    }
}

impl Stored<'_> {
    fn is_zeros(&self) -> bool {
        self.keys.iter().chain(self.words).all(|&word| word == 0)
            && self.handles.iter().all(|&handle| handle == 0)
            && self.marks.iter().all(|&mark| mark == 0)
    }

    fn is_free(&self) -> bool {
        self.keys[0] == 0
    }

    fn meaning(&self) -> Place {
        if self.is_free() {
            Place::Free
        } else {
            Place::Open(owner(self.keys[0], self.keys[1]), self.record())
        }
    }

    fn record(&self) -> Record {
        let mut record = Record {
            current: self.words[0],
            oldest: self.words[1],
            latest: self.words[2],
            cells: Vec::new(),
        };
        if record.has_window() {
            let numbers = (0..record.span()).map(|doors| ring::step(record.oldest, doors));
            record.cells = numbers.map(|number| self.cell(slot(number))).collect();
        }
        record
    }

    fn cell(&self, slot: usize) -> Cell {
        if self.marks[slot] == 0 {
            Cell::Missing(self.words[3 + slot])
        } else {
            Cell::Waits(self.handles[slot])
        }
    }
}

fn slot(number: u64) -> usize {
    number as usize % SLOTS
}

/// Whose a place with these key words is; the first is not 0.
fn owner(first: u64, second: u64) -> Owner {
    let (destination, priority) = ((first - 1) / 16, (first - 1) % 16);
    match (address(destination), address(second)) {
        (Some(destination), Some(source)) if priority <= 7 => Owner::Channel(Key {
            destination,
            source,
            priority: priority as u8,
        }),
        _ => Owner::Nobody(first, second),
    }
}

/// The address that is this big-endian number, if it has at most 48 bits.
fn address(number: u64) -> Option<Address> {
    let octets = number.to_be_bytes();
    let address = [octets[2], octets[3], octets[4], octets[5], octets[6], octets[7]];
    (octets[0] == 0 && octets[1] == 0).then_some(address)
}

/// The key words of an owner.
fn key_words(owner: &Owner) -> [u64; 2] {
    let number = |address: &Address| address.iter().fold(0, |number, &octet| number * 256 + u64::from(octet));
    match owner {
        Owner::Channel(key) => {
            let first = number(&key.destination) * 16 + u64::from(key.priority) + 1;
            [first, number(&key.source)]
        }
        Owner::Nobody(first, second) => [*first, *second],
    }
}

impl Table {
    /// The table that the slices mean, sound or not; `None` where they are not those of 64 places.
    pub fn from_slices(slices: &Slices<'_>) -> Option<Table> {
        if !slices.are_of_64_places() {
            return None;
        }
        Table::of_places((0..Table::PLACES).map(|place| slices.stored(place).meaning()).collect())
    }
}

/// The first place where the slices after a call do not mean `table`, if there is one. All slices are those of 64
/// places.
///
/// An open place must have the key and the record: C, M, the latest time, and a cell for every number from M to C, a
/// handle where it waits or a time where it is missing. A place that the call freed must be zeros; one that was free
/// before the call must be as it was, which is zeros too unless it was handed in otherwise.
pub fn first_difference(before: &Slices<'_>, table: &Table, after: &Slices<'_>) -> Option<usize> {
    let agrees = |(index, place): (usize, &Place)| {
        let (was, is) = (before.stored(index), after.stored(index));
        match place {
            Place::Free if was.is_free() => is == was,
            Place::Free => is.is_zeros(),
            Place::Open(..) => is.meaning() == *place,
        }
    };
    table.places().iter().enumerate().position(|place| !agrees(place))
}

/// The answer to a channel event on a lent table, and the table after it; a table that is not of 64 places has none.
pub fn take(slices: &Slices<'_>, buffers: Buffers, event: &ChannelEvent) -> (Answer, Option<Table>) {
    match Table::from_slices(slices) {
        Some(mut table) => (table.take(buffers, event), Some(table)),
        None => (Answer::refused(1), None),
    }
}

/// What is wrong with a call on a lent table.
#[derive(Clone, Debug, PartialEq, Eq)]
pub enum Complaint {
    /// The answer is another: this one.
    Answer(Answer),
    /// The call was refused, and the slices are not what they were.
    Touched,
    /// This place does not mean what it should.
    Place(usize),
}

/// Holds another program's call against this one's: its answer, and the slices before and after. What the answer
/// buffers hold past each count is for the caller to look at.
pub fn judge(
    before: &Slices<'_>,
    (buffers, event): (Buffers, &ChannelEvent),
    answer: &Answer,
    after: &Slices<'_>,
) -> Result<(), Complaint> {
    let (expected, table) = take(before, buffers, event);
    if *answer != expected {
        return Err(Complaint::Answer(expected));
    }
    match table {
        Some(table) if expected.number == 0 && after.are_of_64_places() => {
            first_difference(before, &table, after).map_or(Ok(()), |place| Err(Complaint::Place(place)))
        }
        _ if before == after => Ok(()),
        _ => Err(Complaint::Touched),
    }
}

/// A lent table's slices, owned, so that one can be built or changed.
#[derive(Clone, Debug, PartialEq, Eq)]
pub struct Lent {
    /// As in `Slices`.
    pub keys: Vec<u64>,
    /// As in `Slices`.
    pub words: Vec<u64>,
    /// As in `Slices`.
    pub handles: Vec<u32>,
    /// As in `Slices`.
    pub marks: Vec<u8>,
}

impl Lent {
    /// The empty table: zeros.
    pub fn empty() -> Lent {
        Lent {
            keys: vec![0; Table::PLACES * KEYS],
            words: vec![0; Table::PLACES * WORDS],
            handles: vec![0; Table::PLACES * SLOTS],
            marks: vec![0; Table::PLACES * SLOTS],
        }
    }

    /// Its slices.
    pub fn slices(&self) -> Slices<'_> {
        Slices {
            keys: &self.keys,
            words: &self.words,
            handles: &self.handles,
            marks: &self.marks,
        }
    }

    /// The words of a place: C, M, the latest time, and the times by slot.
    pub fn words_of(&mut self, place: usize) -> &mut [u64] {
        &mut self.words[place * WORDS..][..WORDS]
    }

    /// The handles of a place, by slot.
    pub fn handles_of(&mut self, place: usize) -> &mut [u32] {
        &mut self.handles[place * SLOTS..][..SLOTS]
    }

    /// The marks of a place, by slot.
    pub fn marks_of(&mut self, place: usize) -> &mut [u8] {
        &mut self.marks[place * SLOTS..][..SLOTS]
    }

    /// Stores an open place: its key, and its record with the slots of its cells. Other slots stay.
    pub fn put(&mut self, place: usize, owner: &Owner, record: &Record) {
        self.keys[place * KEYS..][..KEYS].copy_from_slice(&key_words(owner));
        self.words_of(place)[..3].copy_from_slice(&[record.current, record.oldest, record.latest]);
        for (number, cell) in record.numbered() {
            match cell {
                Cell::Waits(handle) => {
                    self.handles_of(place)[slot(number)] = handle;
                    self.marks_of(place)[slot(number)] = 1;
                }
                Cell::Missing(since) => {
                    self.words_of(place)[3 + slot(number)] = since;
                    self.marks_of(place)[slot(number)] = 0;
                }
            }
        }
    }

    /// Frees a place: zeros.
    pub fn free(&mut self, place: usize) {
        self.keys[place * KEYS..][..KEYS].fill(0);
        self.words_of(place).fill(0);
        self.handles_of(place).fill(0);
        self.marks_of(place).fill(0);
    }
}
