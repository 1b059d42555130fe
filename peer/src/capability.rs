//! Capability sets of a station (document 01, 'Capability sets').

use crate::answer::{refuse, Number};

/// A set of flags: a 32-bit word.
pub type Set = u32;

/// What the host is to do with the retransmit timer.
#[derive(Clone, Copy, Debug, PartialEq, Eq)]
pub enum Timer {
    /// Start it.
    Started,
    /// Cancel it.
    Cancelled,
    /// Leave it as it is.
    Kept,
}

/// What a station answers to an event.
#[derive(Clone, Copy, Debug, PartialEq, Eq)]
pub struct Order {
    /// 0, or the refusal.
    pub number: Number,
    /// Whether a frame is to be sent now, with the sets as they are after the event.
    pub sent: bool,
    /// The timer's order.
    pub timer: Timer,
    /// Flags reported as really new.
    pub really_new: Set,
}

impl Order {
    /// The answer where nothing else is said.
    pub const QUIET: Order = Order {
        number: 0,
        sent: false,
        timer: Timer::Kept,
        really_new: 0,
    };
}

/// A received capability frame.
#[derive(Clone, Copy, Debug, PartialEq, Eq)]
pub struct Frame {
    /// 0, or 1, which starts the timer; above 1 is refused.
    pub opcode: u8,
    /// The sender's OldestTx.
    pub oldest_tx: Set,
    /// The sender's CurrentTx.
    pub current_tx: Set,
    /// The sender's CurrentRx, which a receiver has no rule for.
    pub current_rx: Set,
}

/// A station: its default set and five more.
#[derive(Clone, Copy, Debug, PartialEq, Eq)]
pub struct Station {
    default: Set,
    new_tx: Set,
    previous_tx: Set,
    oldest_tx: Set,
    new_rx: Set,
    previous_rx: Set,
}

impl Station {
    /// A fresh station: the default stands in NewTx, and nothing in the other four.
    pub fn fresh(default: Set) -> Station {
        Station {
            default,
            new_tx: default,
            previous_tx: 0,
            oldest_tx: 0,
            new_rx: 0,
            previous_rx: 0,
        }
    }

    /// OldestTx.
    pub fn oldest_tx(&self) -> Set {
        self.oldest_tx
    }

    /// CurrentTx: NewTx with PreviousTx.
    pub fn current_tx(&self) -> Set {
        self.new_tx | self.previous_tx
    }

    /// CurrentRx: NewRx with PreviousRx.
    pub fn current_rx(&self) -> Set {
        self.new_rx | self.previous_rx
    }

    /// Use of flags.
    pub fn use_of(&mut self, flags: Set) -> Order {
        let announced = flags & !self.current_tx() != 0;
        self.new_tx |= flags;
        if announced {
            Order {
                sent: true,
                timer: Timer::Started,
                ..Order::QUIET
            }
        } else {
            Order::QUIET
        }
    }

    /// Period end.
    pub fn period_end(&mut self) -> Order {
        self.oldest_tx = self.previous_tx;
        self.previous_tx = self.new_tx;
        self.new_tx = self.default;
        self.previous_rx = self.new_rx;
        self.new_rx = 0;
        let timer = if self.current_tx() != self.oldest_tx {
            Timer::Started
        } else {
            Timer::Cancelled
        };
        Order {
            sent: true,
            timer,
            ..Order::QUIET
        }
    }

    /// A received frame.
    pub fn received(&mut self, frame: &Frame) -> Order {
        if let Err(number) = refuse(30, frame.opcode > 1) {
            return Order { number, ..Order::QUIET };
        }
        let really_new = frame.current_tx & !self.current_rx();
        self.new_rx |= frame.current_tx;
        let gone = frame.oldest_tx & !frame.current_tx;
        self.new_rx &= !gone;
        self.previous_rx &= !gone;
        let timer = if frame.opcode == 1 { Timer::Started } else { Timer::Kept };
        Order {
            timer,
            really_new,
            ..Order::QUIET
        }
    }
}
