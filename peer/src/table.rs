//! The channel table: 64 places, the first open place of a key and the first free place (document 01, 'The channel
//! table').

use crate::record::Record;

/// An address: six octets.
pub type Address = [u8; 6];

/// A channel: destination, source and priority.
#[derive(Clone, Copy, Debug, PartialEq, Eq)]
pub struct Key {
    /// The destination address.
    pub destination: Address,
    /// The source address.
    pub source: Address,
    /// The priority; a channel's is 0 to 7, an event may carry any octet.
    pub priority: u8,
}

/// Whose an open place is.
#[derive(Clone, Copy, Debug, PartialEq, Eq)]
pub enum Owner {
    /// A channel's.
    Channel(Key),
    /// Nobody's: in a table handed in, two key words that no event can have.
    Nobody(u64, u64),
}

/// A place of the table.
#[derive(Clone, Debug, PartialEq, Eq)]
pub enum Place {
    /// Free.
    Free,
    /// Open, with its record.
    Open(Owner, Record),
}

/// The table.
#[derive(Clone, Debug, PartialEq, Eq)]
pub struct Table {
    places: Vec<Place>,
}

impl Table {
    /// How many places a table has.
    pub const PLACES: usize = 64;

    /// The table with all places free.
    pub fn empty() -> Table {
        Table {
            places: vec![Place::Free; Table::PLACES],
        }
    }

    /// The table of these places, if they are 64.
    pub fn of_places(places: Vec<Place>) -> Option<Table> {
        (places.len() == Table::PLACES).then_some(Table { places })
    }

    /// The places, in order.
    pub fn places(&self) -> &[Place] {
        &self.places
    }

    /// The channel of a key: the first open place with that key.
    pub fn channel_of(&self, key: &Key) -> Option<usize> {
        let is_its = |place: &Place| matches!(place, Place::Open(Owner::Channel(owner), _) if owner == key);
        self.places.iter().position(is_its)
    }

    /// The first free place.
    pub fn first_free(&self) -> Option<usize> {
        self.places.iter().position(|place| *place == Place::Free)
    }

    /// The record of the channel with that key.
    pub fn record_of(&self, key: &Key) -> Option<&Record> {
        match &self.places[self.channel_of(key)?] {
            Place::Open(_, record) => Some(record),
            Place::Free => None,
        }
    }

    /// The record of the channel with that key, to be changed.
    pub fn record_of_mut(&mut self, key: &Key) -> Option<&mut Record> {
        let place = self.channel_of(key)?;
        match &mut self.places[place] {
            Place::Open(_, record) => Some(record),
            Place::Free => None,
        }
    }

    /// Opens a channel in a place.
    pub fn open(&mut self, place: usize, key: Key, record: Record) {
        self.places[place] = Place::Open(Owner::Channel(key), record);
    }

    /// Frees the first open place with that key.
    pub fn free(&mut self, key: &Key) {
        if let Some(place) = self.channel_of(key) {
            self.places[place] = Place::Free;
        }
    }
}
