//! A table that owns what the archive is lent: its slices and the answer buffers.

use crate::lent::{self, Buffers, Channel, Shown, Slices};
use crate::{raw, Refusal};

/// The LARQ receiver over 64 channels: it hands frames up in sequence, says which numbers are missing, and gives up what
/// does not come.
///
/// A frame's body stays with the host; the table sees a handle. Of each handle that is taken, the table says once that it
/// goes up or comes back, unless it still waits. So a table cannot be cloned: both would say it.
///
/// ```compile_fail
/// let table = pikurandal::Table::new();
/// let both = (table.clone(), table);
/// ```
///
/// A table that is dropped or emptied drops the handles that wait in it without a word, and the host keeps their bodies for
/// ever. [`close_all`](Table::close_all) gives these handles back first.
///
/// A channel has a current number, the newest that it knows to be sent, and an oldest missing number, which it expects
/// next. Numbers 0 to 4,095 go round: 0 follows 4,095, and of two numbers it is the shorter way that says which one is
/// ahead. A frame that comes early waits, in a window of 32 numbers up to the current one. Where the current number moves
/// on by so much that older numbers leave the window, those that waited go up and those that were missing are lost.
///
/// A time is the host's count of ticks, in a unit of the host's. On one channel it may stand still but not go back. Each
/// event that is not refused sets the channel's latest time. One call serves one channel: a host with several open
/// channels ticks each of those that [`channels`](Table::channels) names.
///
/// Numbers to be asked for again are told once, in the call that finds them missing. Sending the request, and again
/// later, is the host's part.
#[derive(Debug)]
pub struct Table {
    keys: Box<[u64]>,
    words: Box<[u64]>,
    handles: Box<[u32]>,
    marks: Box<[u8]>,
    up: [u32; lent::BUFFER],
    returned: [u32; lent::BUFFER],
    nack: [u16; lent::BUFFER],
}

/// What an event that was accepted is answered with. The lists stay until the table's next event.
#[derive(Clone, Copy, Debug, PartialEq, Eq)]
pub struct Answer<'a> {
    /// Handles handed up, in sequence order.
    pub up: &'a [u32],
    /// Handles that the table gives back unused, in sequence order.
    pub returned: &'a [u32],
    /// Numbers to be asked for again, in sequence order.
    pub nack: &'a [u16],
    /// How many numbers were given up as lost in this call.
    pub lost: usize,
}

/// What a channel's record knows of one number.
#[derive(Clone, Copy, Debug, PartialEq, Eq)]
pub enum Cell {
    /// It waits, with this handle.
    Waits(u32),
    /// It is missing since this time.
    Missing(u64),
}

/// A channel's record.
#[derive(Clone, Debug, PartialEq, Eq)]
pub struct Record {
    /// The current number.
    pub current: u16,
    /// The oldest missing number, which is the next expected one.
    pub oldest: u16,
    /// The latest time taken.
    pub latest: u64,
    /// The numbers from the oldest missing to the current one, in sequence order.
    pub cells: Vec<Cell>,
}

impl Default for Table {
    fn default() -> Table {
        Table::new()
    }
}

impl Table {
    /// The empty table: no channel is open.
    pub fn new() -> Table {
        Table {
            keys: vec![0; lent::KEYS].into(),
            words: vec![0; lent::WORDS].into(),
            handles: vec![0; lent::HANDLES].into(),
            marks: vec![0; lent::MARKS].into(),
            up: [0; lent::BUFFER],
            returned: [0; lent::BUFFER],
            nack: [0; lent::BUFFER],
        }
    }

    /// A data frame with this number came in on a channel; the handle stands for its body. What is done with it depends on
    /// where it lies:
    ///
    /// - No such channel is open: the frame opens one at the first free place, and goes up.
    /// - 1 to 64 ahead of the current number: it is the current one now. The numbers that it skipped are missing from this
    ///   time on and are asked for, but for those that left the window at once. The frame waits behind them; where none is
    ///   missing it goes up in this call.
    /// - The current number, or up to 64 behind it: if the number is missing, the frame fills the gap, and goes up with all
    ///   that waited just behind it, as soon as no older number is missing. If not, the handle is returned: the number
    ///   waits already, or the channel is past it.
    /// - Farther away, either way: the sender has begun anew, and so does the channel. What waited is returned, the frame
    ///   goes up, and nothing counts as lost.
    ///
    /// # Errors
    ///
    /// [`Refusal::NoNumber`], [`Refusal::NoPriority`], [`Refusal::NoPlace`], [`Refusal::Early`]. A refused frame was not
    /// taken, so its handle stays the host's.
    pub fn data(&mut self, channel: &Channel, time: u64, number: u16, handle: u32) -> Result<Answer<'_>, Refusal> {
        self.event(|slices, buffers| lent::data(slices, buffers, channel, time, number, handle))
    }

    /// A reminder came in: the sender says up to which number it has sent.
    ///
    /// If that is 1 to 64 ahead, it is the current number now; it and all that lie between are missing from this time on and
    /// are asked for, but for those that left the window at once. If it is the current one or up to 64 behind, the table
    /// knew of it already, and only the latest time changes. A reminder brings no frame, so it neither opens a channel nor
    /// restarts one.
    ///
    /// # Errors
    ///
    /// [`Refusal::NoNumber`], [`Refusal::NoPriority`], [`Refusal::NoChannel`], [`Refusal::Early`], [`Refusal::Far`].
    pub fn reminder(&mut self, channel: &Channel, time: u64, number: u16) -> Result<Answer<'_>, Refusal> {
        self.event(|slices, buffers| lent::reminder(slices, buffers, channel, time, number))
    }

    /// The host's clock, for one channel.
    ///
    /// Once the oldest missing number has been missing for 150 ticks, it is given up as lost and what waited just behind it
    /// goes up; so with the next one, until one is reached that has not been missing for so long. Nothing is given up by
    /// itself: without a tick, a frame may wait for ever behind one that never comes. A tick asks for nothing and returns
    /// nothing.
    ///
    /// # Errors
    ///
    /// [`Refusal::NoPriority`], [`Refusal::NoChannel`], [`Refusal::Early`].
    pub fn tick(&mut self, channel: &Channel, time: u64) -> Result<Answer<'_>, Refusal> {
        self.event(|slices, buffers| lent::tick(slices, buffers, channel, time))
    }

    /// The host gives the channel up.
    ///
    /// All handles that wait come back in sequence order, none goes up, and nothing counts as lost. Its place is free for
    /// any channel; a later frame with the same key opens a new one. Refused, the channel stays open.
    ///
    /// # Errors
    ///
    /// [`Refusal::NoPriority`], [`Refusal::NoChannel`], [`Refusal::Early`]. The time that [`look`](Table::look) shows as the
    /// latest is never too early.
    pub fn close(&mut self, channel: &Channel, time: u64) -> Result<Answer<'_>, Refusal> {
        self.event(|slices, buffers| lent::close(slices, buffers, channel, time))
    }

    /// Closes every channel, each at its latest time, so that none is refused. All handles that wait come back: channel by
    /// channel, in sequence order in each. The table is then the empty one, and may be dropped.
    ///
    /// ```
    /// # let channel = pikurandal::Channel { destination: [2, 0, 0, 0, 0, 1], source: [2, 0, 0, 0, 0, 2], priority: 3 };
    /// let mut table = pikurandal::Table::new();
    /// table.data(&channel, 100, 10, 1010)?;
    /// table.data(&channel, 101, 12, 1012)?; // waits for number 11
    /// assert_eq!(table.close_all(), [1012]);
    /// # Ok::<(), pikurandal::Refusal>(())
    /// ```
    pub fn close_all(&mut self) -> Vec<u32> {
        let channels: Vec<Channel> = self.channels().collect();
        let mut handles = Vec::new();
        for channel in &channels {
            let latest = self.look(channel).map(|record| record.latest);
            let closed = latest.and_then(|latest| self.close(channel, latest));
            handles.extend_from_slice(
                closed
                    .expect("an open channel, whose record is the archive's own")
                    .returned,
            );
        }
        handles
    }

    /// The open channels, by their places.
    pub fn channels(&self) -> impl Iterator<Item = Channel> + '_ {
        self.keys
            .chunks_exact(2)
            .filter_map(|key| Channel::of_key([key[0], key[1]]))
    }

    /// The empty table again: no channel is open, and no handle is kept. What waited is not returned;
    /// [`close_all`](Table::close_all) returns it.
    pub fn empty(&mut self) {
        // The slices have their lengths, so no number can refuse it.
        lent::empty(self.slices_and_buffers().0);
    }

    /// A look at a channel's record: what it expects next, what waits, and what is missing since when. Nothing changes by
    /// it, not even the latest time.
    ///
    /// # Errors
    ///
    /// [`Refusal::NoPriority`], [`Refusal::NoChannel`].
    pub fn look(&self, channel: &Channel) -> Result<Record, Refusal> {
        let shown = Shown {
            keys: &self.keys,
            words: &self.words,
            handles: &self.handles,
            marks: &self.marks,
        };
        let mut waits = [0; lent::BUFFER];
        let mut values = [0; lent::BUFFER];
        let view = lent::look(shown, channel, &mut waits, &mut values);
        Refusal::unless_accepted(view.number)?;
        let cell = |(waits, value): (&u8, &u64)| match waits {
            0 => Cell::Missing(*value),
            _ => Cell::Waits(*value as u32),
        };
        Ok(Record {
            current: view.current,
            oldest: view.oldest,
            latest: view.latest,
            cells: waits.iter().zip(&values).take(view.span).map(cell).collect(),
        })
    }

    fn slices_and_buffers(&mut self) -> (Slices<'_>, Buffers<'_>) {
        let slices = Slices {
            keys: &mut self.keys,
            words: &mut self.words,
            handles: &mut self.handles,
            marks: &mut self.marks,
        };
        let buffers = Buffers {
            up: &mut self.up,
            returned: &mut self.returned,
            nack: &mut self.nack,
        };
        (slices, buffers)
    }

    fn event(&mut self, call: impl FnOnce(Slices<'_>, Buffers<'_>) -> raw::Answer) -> Result<Answer<'_>, Refusal> {
        let (slices, buffers) = self.slices_and_buffers();
        let counts = call(slices, buffers);
        Refusal::unless_accepted(counts.number)?;
        Ok(Answer {
            up: &self.up[..counts.up],
            returned: &self.returned[..counts.returned],
            nack: &self.nack[..counts.nack],
            lost: counts.lost,
        })
    }
}
