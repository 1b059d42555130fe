//! The steps of a channel's record: settling, data, reminder and tick (document 01, 'The four channel events').
//!
//! Here the record is sound, the time is not earlier than its latest time, and `s` is a sequence number; `receiver`
//! refuses everything else first.

use crate::answer::Answer;
use crate::record::{Cell, Record};
use crate::ring;

/// How many ticks ago a number must have been known missing before a tick gives it up.
const PATIENCE: u64 = 150;

impl Record {
    /// Data with number `s`, on an open channel.
    pub fn data(&mut self, time: u64, s: u64, handle: u32) -> Answer {
        let d = ring::distance(self.current, s);
        let answer = if (1..=ring::REACH).contains(&d) {
            self.data_ahead(time, s, handle)
        } else if (-ring::REACH..=0).contains(&d) {
            self.data_behind(s, handle)
        } else {
            self.restart(time, s, handle)
        };
        self.latest = time;
        answer
    }

    /// A reminder of number `s`; `None` where d is outside -64 to 64.
    pub fn reminder(&mut self, time: u64, s: u64) -> Option<Answer> {
        let d = ring::distance(self.current, s);
        let answer = if (1..=ring::REACH).contains(&d) {
            let made_missing = numbers_after(self.current, d as u64);
            self.make_missing(&made_missing, time);
            self.settle_and_ask(&made_missing)
        } else if (-ring::REACH..=0).contains(&d) {
            Answer::default()
        } else {
            return None;
        };
        self.latest = time;
        Some(answer)
    }

    /// A tick: what has been missing for 150 ticks is given up, and what waited behind it goes up.
    pub fn tick(&mut self, time: u64) -> Answer {
        let mut answer = Answer::default();
        while self.oldest_is_overdue(time) {
            self.pass_oldest(&mut answer);
            while self.oldest_waits() {
                self.pass_oldest(&mut answer);
            }
        }
        self.latest = time;
        answer
    }

    /// d from 1 to 64: C + 1 to s - 1 become missing, s waits, C = s, settle.
    fn data_ahead(&mut self, time: u64, s: u64, handle: u32) -> Answer {
        let d = ring::forward(self.current, s);
        let made_missing = numbers_after(self.current, d - 1);
        self.make_missing(&made_missing, time);
        self.cells.push(Cell::Waits(handle));
        self.current = s;
        self.settle_and_ask(&made_missing)
    }

    /// d from -64 to 0: a missing number waits, then settle; else the new handle is returned.
    fn data_behind(&mut self, s: u64, handle: u32) -> Answer {
        let mut answer = Answer::default();
        match self.cell_of(s) {
            Some(cell @ Cell::Missing(_)) => {
                *cell = Cell::Waits(handle);
                self.settle(&mut answer);
            }
            Some(Cell::Waits(_)) | None => answer.returned.push(handle),
        }
        answer
    }

    /// Any other distance: what waits comes back in sequence order, and the record is as one that s has just opened.
    fn restart(&mut self, time: u64, s: u64, handle: u32) -> Answer {
        let returned = self.waiting();
        *self = Record::opened(s, time);
        Answer {
            up: vec![handle],
            returned,
            ..Answer::default()
        }
    }

    /// The numbers after C become missing at this time, and C is the last of them.
    fn make_missing(&mut self, numbers: &[u64], time: u64) {
        for &number in numbers {
            self.cells.push(Cell::Missing(time));
            self.current = number;
        }
    }

    /// Settling; then the numbers to ask for: of those that the event made missing, what settling has left, in sequence
    /// order.
    fn settle_and_ask(&mut self, made_missing: &[u64]) -> Answer {
        let mut answer = Answer::default();
        self.settle(&mut answer);
        answer.nack = made_missing.to_vec();
        answer.nack.retain(|&number| self.in_window(number));
        answer
    }

    /// M is passed as long as it waits, or the window is too wide. At span 0 neither holds, so there it stops.
    fn settle(&mut self, answer: &mut Answer) {
        while self.span() > ring::WINDOW || self.oldest_waits() {
            self.pass_oldest(answer);
        }
    }

    /// M goes up if it waits and is lost if it is missing; the next number is M then.
    fn pass_oldest(&mut self, answer: &mut Answer) {
        match self.cells.remove(0) {
            Cell::Waits(handle) => answer.up.push(handle),
            Cell::Missing(_) => answer.lost += 1,
        }
        self.oldest = ring::step(self.oldest, 1);
    }

    /// Whether M has been missing for 150 ticks or longer, over the whole numbers.
    fn oldest_is_overdue(&self, time: u64) -> bool {
        match self.cells.first() {
            Some(Cell::Missing(since)) => u128::from(time) >= u128::from(*since) + u128::from(PATIENCE),
            Some(Cell::Waits(_)) | None => false,
        }
    }

    /// The cell of a number that lies from M to C.
    fn cell_of(&mut self, number: u64) -> Option<&mut Cell> {
        if self.in_window(number) {
            self.cells.get_mut(ring::forward(self.oldest, number) as usize)
        } else {
            None
        }
    }
}

/// The `count` numbers after `current`, rising.
fn numbers_after(current: u64, count: u64) -> Vec<u64> {
    (1..=count).map(|doors| ring::step(current, doors)).collect()
}
