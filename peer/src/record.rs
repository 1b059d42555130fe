//! The record of a channel as a plain list of the numbers from M to C, and when it is broken (document 01, 'The
//! channel table').

use crate::ring;

/// What a record knows of one number from M to C.
#[derive(Clone, Copy, Debug, PartialEq, Eq)]
pub enum Cell {
    /// It waits, with this handle.
    Waits(u32),
    /// It is missing, first known missing at this time.
    Missing(u64),
}

/// The record of a channel.
///
/// In a table handed in, C and M may be anything. Where they are not sequence numbers, or more than 32 lie from M to C,
/// the table has no place for the cells, and the list is empty.
#[derive(Clone, Debug, PartialEq, Eq)]
pub struct Record {
    /// The current number C.
    pub current: u64,
    /// The oldest missing number M, which is also the next expected number.
    pub oldest: u64,
    /// The latest time taken.
    pub latest: u64,
    /// The numbers from M to C, in sequence order.
    pub cells: Vec<Cell>,
}

impl Record {
    /// The record that number `s` opens or restarts: C = s, M = s + 1.
    pub fn opened(s: u64, time: u64) -> Record {
        Record {
            current: s,
            oldest: ring::step(s, 1),
            latest: time,
            cells: Vec::new(),
        }
    }

    /// The span: C + 1 - M modulo 4,096. It has a meaning where C and M are sequence numbers.
    pub fn span(&self) -> u64 {
        ring::forward(self.oldest, ring::step(self.current, 1))
    }

    /// Whether C and M are sequence numbers and at most 32 numbers lie from M to C.
    pub fn has_window(&self) -> bool {
        ring::is_number(self.current) && ring::is_number(self.oldest) && self.span() <= ring::WINDOW
    }

    /// Whether the record is broken.
    pub fn is_broken(&self) -> bool {
        !self.has_window()
            || self.oldest_waits()
            || self.missing_times().any(|time| time > self.latest)
            || self.times_fall()
    }

    /// Whether M waits. At span 0 there is no M that could.
    pub fn oldest_waits(&self) -> bool {
        matches!(self.cells.first(), Some(Cell::Waits(_)))
    }

    /// Whether `number` lies from M to C.
    pub fn in_window(&self, number: u64) -> bool {
        ring::forward(self.oldest, number) < self.span()
    }

    /// The numbers from M to C with their cells.
    pub fn numbered(&self) -> impl Iterator<Item = (u64, Cell)> + '_ {
        (0..)
            .zip(&self.cells)
            .map(|(doors, &cell)| (ring::step(self.oldest, doors), cell))
    }

    /// The handles of the waiting numbers, in sequence order.
    pub fn waiting(&self) -> Vec<u32> {
        let handle = |cell: &Cell| match cell {
            Cell::Waits(handle) => Some(*handle),
            Cell::Missing(_) => None,
        };
        self.cells.iter().filter_map(handle).collect()
    }

    /// The times of the missing numbers, in sequence order.
    pub fn missing_times(&self) -> impl Iterator<Item = u64> + '_ {
        self.cells.iter().filter_map(|cell| match cell {
            Cell::Waits(_) => None,
            Cell::Missing(since) => Some(*since),
        })
    }

    /// Whether the times of missing numbers fall somewhere as the numbers rise.
    fn times_fall(&self) -> bool {
        let times: Vec<u64> = self.missing_times().collect();
        times.windows(2).any(|pair| pair[1] < pair[0])
    }
}
