//! The capability sets of one station.

use crate::numbered::numbered;
use crate::raw;
use crate::Refusal;

pub use crate::raw::Frame;

numbered! {
    /// What the host is to do with its retransmit timer.
    Timer {
        /// Nothing.
        Kept = 0,
        /// Cancel it if it runs, and start it.
        Started = 1,
        /// Cancel it if it runs.
        Cancelled = 2,
    }
}

/// What an event asks of the host.
#[derive(Clone, Copy, Debug, PartialEq, Eq)]
pub struct Order {
    /// The frame to send now, if there is one.
    pub sends: Option<Frame>,
    /// The retransmit timer's order.
    pub timer: Timer,
    /// Flags that are really new: CurrentRx lacked them before. Only a received frame has such.
    pub reported: u32,
}

/// A station: its default set and five more. A set is a word of 32 flags.
///
/// NewTx and PreviousTx are the default set with what it used in this period and in the last, together CurrentTx; OldestTx
/// is the same of the period before. NewRx and PreviousRx are what it heard of others in this period and in the last,
/// together CurrentRx.
///
/// The host has two timers. One marks the end of each period. The other, the retransmit timer, it starts and cancels as
/// the orders say; when that one runs out, it sends [`Station::frame`] once more.
///
/// ```
/// use pikurandal::{Station, Timer};
///
/// let mut station = Station::fresh(0b0001);
/// let order = station.use_flags(0b0100); // not announced yet
/// assert_eq!(order.timer, Timer::Started);
/// assert_eq!(order.sends.map(|frame| frame.current_tx), Some(0b0101));
/// ```
#[derive(Clone, Copy, Debug, PartialEq, Eq)]
pub struct Station {
    sets: raw::Station,
}

impl Station {
    /// A fresh station: NewTx is the default set, the others are empty.
    pub fn fresh(default_set: u32) -> Station {
        // SAFETY: plain numbers by value.
        let sets = unsafe { raw::pik_station_fresh(default_set) };
        Station { sets }
    }

    /// The station of these sets.
    pub fn of_sets(sets: raw::Station) -> Station {
        Station { sets }
    }

    /// Its sets.
    pub fn sets(&self) -> raw::Station {
        self.sets
    }

    /// The station begins to use these flags, and NewTx has them from now on.
    ///
    /// If CurrentTx lacked one of them, that is news: a frame with the sets after the event is to be sent now, and the
    /// retransmit timer is started. If it had them all, nothing is sent and the timer is kept.
    pub fn use_flags(&mut self, flags: u32) -> Order {
        // SAFETY: plain numbers by value.
        let answer = unsafe { raw::pik_station_use(self.sets, flags) };
        self.take(answer)
    }

    /// A period is over.
    ///
    /// Each set takes the place of the older one: PreviousTx becomes OldestTx, NewTx becomes PreviousTx, NewRx becomes
    /// PreviousRx; the new period begins with the default set in NewTx and nothing in NewRx. A frame with the sets after
    /// that is sent each time. The retransmit timer is started anew where CurrentTx and OldestTx are then different, and
    /// cancelled where they are equal.
    pub fn end_period(&mut self) -> Order {
        // SAFETY: plain numbers by value.
        let answer = unsafe { raw::pik_station_period(self.sets) };
        self.take(answer)
    }

    /// A capability frame of another station came in, with these sets.
    ///
    /// NewRx takes its CurrentTx in, and the order reports the flags that CurrentRx did not have before. What the sender no
    /// longer uses, and so has in OldestTx but not in CurrentTx, then leaves NewRx and PreviousRx. Opcode 1 asks for an
    /// answer: it starts the retransmit timer. Opcode 0 keeps it. Nothing is sent at once, and the frame's CurrentRx
    /// changes nothing.
    ///
    /// # Errors
    ///
    /// [`Refusal::CsaOpcode`] where the opcode is above 1; the station stays as it is.
    pub fn receive(&mut self, opcode: u8, frame: Frame) -> Result<Order, Refusal> {
        // SAFETY: plain numbers by value.
        let answer = unsafe { raw::pik_station_receive(self.sets, opcode, frame) };
        Refusal::unless_accepted(answer.number)?;
        Ok(self.take(answer))
    }

    /// The sets that a frame sent now carries: OldestTx, CurrentTx and CurrentRx. It is what the host sends when its
    /// retransmit timer runs out; that is no event, and the station stays as it is.
    pub fn frame(&self) -> Frame {
        // SAFETY: plain numbers by value.
        unsafe { raw::pik_station_frame(self.sets) }
    }

    fn take(&mut self, answer: raw::StationAnswer) -> Order {
        self.sets = answer.station;
        Order {
            sends: answer.sends.then_some(answer.frame),
            timer: Timer::of_number(answer.timer).expect("an order that the archive is proved never to give"),
            reported: answer.reported,
        }
    }
}
