//! The channel events, and a look, on slices of the caller's, whatever their lengths: wrong ones are refused by number 1.

use crate::raw;

/// How many places a table has.
pub const PLACES: usize = 64;
/// The length of a table's keys.
pub const KEYS: usize = 128;
/// The length of a table's words.
pub const WORDS: usize = 2_240;
/// The length of a table's handles.
pub const HANDLES: usize = 2_048;
/// The length of a table's marks.
pub const MARKS: usize = 2_048;
/// The least length of an answer buffer.
pub const BUFFER: usize = 32;

/// A channel: destination, source and priority. An open channel's priority is 0 to 7.
#[derive(Clone, Copy, Debug, PartialEq, Eq, Hash)]
pub struct Channel {
    /// The destination address.
    pub destination: [u8; 6],
    /// The source address.
    pub source: [u8; 6],
    /// The priority.
    pub priority: u8,
}

impl Channel {
    /// Whose the place with these two key words is, as `docs/LAYOUT.md` has them, if it is not free. They are those of a
    /// channel that the archive opened.
    pub(crate) fn of_key([first, source]: [u64; 2]) -> Option<Channel> {
        let place = first.checked_sub(1)?;
        Some(Channel {
            destination: address(place / 16),
            source: address(source),
            priority: (place % 16) as u8,
        })
    }
}

/// The address that is this number, the first octet highest.
fn address(number: u64) -> [u8; 6] {
    let [_, _, octets @ ..] = number.to_be_bytes();
    octets
}

/// The four slices of a table, lent for a call. `docs/LAYOUT.md` says what they hold; all zeros is the empty table.
#[derive(Debug)]
pub struct Slices<'a> {
    /// Two words a place.
    pub keys: &'a mut [u64],
    /// 35 words a place.
    pub words: &'a mut [u64],
    /// 32 handles a place.
    pub handles: &'a mut [u32],
    /// 32 marks a place.
    pub marks: &'a mut [u8],
}

/// The four slices of a table, lent to be looked at.
#[derive(Clone, Copy, Debug)]
pub struct Shown<'a> {
    /// Two words a place.
    pub keys: &'a [u64],
    /// 35 words a place.
    pub words: &'a [u64],
    /// 32 handles a place.
    pub handles: &'a [u32],
    /// 32 marks a place.
    pub marks: &'a [u8],
}

/// The three answer buffers, lent for a call.
#[derive(Debug)]
pub struct Buffers<'a> {
    /// For handles handed up.
    pub up: &'a mut [u32],
    /// For handles returned.
    pub returned: &'a mut [u32],
    /// For numbers to be asked for again.
    pub nack: &'a mut [u16],
}

/// The arguments that all four events begin with. They are apart, as `&mut` slices are, and live as long as the call.
macro_rules! call {
    ($function:ident, $keys:ident, $slices:ident, $buffers:ident, $channel:ident, $($own:expr),+) => {
        // SAFETY: each pointer is a slice's, with its own length, so it is aligned, and not null where the slice is empty;
        // what is written is borrowed by `&mut`, so it overlaps nothing else and nobody else sees it; none of them is kept.
        unsafe {
            raw::$function(
                $slices.keys.$keys(),
                $slices.keys.len(),
                $slices.words.as_mut_ptr(),
                $slices.words.len(),
                $slices.handles.as_mut_ptr(),
                $slices.handles.len(),
                $slices.marks.as_mut_ptr(),
                $slices.marks.len(),
                $buffers.up.as_mut_ptr(),
                $buffers.up.len(),
                $buffers.returned.as_mut_ptr(),
                $buffers.returned.len(),
                $buffers.nack.as_mut_ptr(),
                $buffers.nack.len(),
                &$channel.destination,
                &$channel.source,
                $channel.priority,
                $($own),+
            )
        }
    };
}

/// A data frame with this number came in; the handle stands for its body. See [`Table::data`](crate::Table::data).
pub fn data(
    slices: Slices<'_>,
    buffers: Buffers<'_>,
    channel: &Channel,
    time: u64,
    number: u16,
    handle: u32,
) -> raw::Answer {
    call!(pik_data, as_mut_ptr, slices, buffers, channel, time, number, handle)
}

/// A reminder of this number came in. See [`Table::reminder`](crate::Table::reminder).
pub fn reminder(slices: Slices<'_>, buffers: Buffers<'_>, channel: &Channel, time: u64, number: u16) -> raw::Answer {
    call!(pik_reminder, as_ptr, slices, buffers, channel, time, number)
}

/// The host's clock: what has been missing for 150 ticks is given up. See [`Table::tick`](crate::Table::tick).
pub fn tick(slices: Slices<'_>, buffers: Buffers<'_>, channel: &Channel, time: u64) -> raw::Answer {
    call!(pik_tick, as_ptr, slices, buffers, channel, time)
}

/// The channel is closed, and its place is free. See [`Table::close`](crate::Table::close).
pub fn close(slices: Slices<'_>, buffers: Buffers<'_>, channel: &Channel, time: u64) -> raw::Answer {
    call!(pik_close, as_mut_ptr, slices, buffers, channel, time)
}

/// Empties a table, whatever it held: all 64 places are zeros, and what waited in them is not returned. Number 0; slices
/// of another length are refused by number 1, and stay as they are.
pub fn empty(slices: Slices<'_>) -> u8 {
    // SAFETY: as in `call!`.
    unsafe {
        raw::pik_empty(
            slices.keys.as_mut_ptr(),
            slices.keys.len(),
            slices.words.as_mut_ptr(),
            slices.words.len(),
            slices.handles.as_mut_ptr(),
            slices.handles.len(),
            slices.marks.as_mut_ptr(),
            slices.marks.len(),
        )
    }
}

/// A look at a channel's record: for each number from the oldest missing to the current one, 1 and the handle where it
/// waits, 0 and the time since when it is missing. Both buffers must have 32 entries at least; those past the span stay.
pub fn look(shown: Shown<'_>, channel: &Channel, waits: &mut [u8], values: &mut [u64]) -> raw::View {
    // SAFETY: as in `call!`; the table is only read.
    unsafe {
        raw::pik_look(
            shown.keys.as_ptr(),
            shown.keys.len(),
            shown.words.as_ptr(),
            shown.words.len(),
            shown.handles.as_ptr(),
            shown.handles.len(),
            shown.marks.as_ptr(),
            shown.marks.len(),
            &channel.destination,
            &channel.source,
            channel.priority,
            waits.as_mut_ptr(),
            waits.len(),
            values.as_mut_ptr(),
            values.len(),
        )
    }
}
