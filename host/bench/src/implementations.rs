//! The archive and its peers, each as functions of one and the same C interface.

use crate::inplace::frames;
use crate::inplace::receiver::exported;
use crate::nothing;
use peer::receiver::{Act, ChannelEvent};
use pikurandal::lent::{Buffers, Slices};
use pikurandal::raw::{self, Answer, Frame, Reading, Request, Station, StationAnswer, Written};

/// One implementation of the functions that are measured.
#[derive(Clone, Copy)]
pub struct Implementation {
    /// What it is called in the tables.
    pub name: &'static str,
    data: raw::Data,
    reminder: raw::Reminder,
    tick: raw::Tick,
    close: raw::Close,
    station_receive: raw::StationReceive,
    rate_read: raw::RateRead,
    rate_write: raw::RateWrite,
}

/// The archive.
pub const ARCHIVE: Implementation = Implementation {
    name: "archive",
    data: raw::pik_data,
    reminder: raw::pik_reminder,
    tick: raw::pik_tick,
    close: raw::pik_close,
    station_receive: raw::pik_station_receive,
    rate_read: raw::pik_rate_read,
    rate_write: raw::pik_rate_write,
};

/// The peer in Rust.
pub const RUST: Implementation = Implementation {
    name: "rust",
    data: exported::data,
    reminder: exported::reminder,
    tick: exported::tick,
    close: exported::close,
    station_receive: frames::station_receive,
    rate_read: frames::rate_read,
    rate_write: frames::rate_write,
};

/// A channel event's function of the C interface.
macro_rules! events {
    ($name:ident, $keys:ty $(, $own:ident: $type:ty)*) => {
        extern "C" {
            pub fn $name(
                keys: $keys,
                keys_length: usize,
                words: *mut u64,
                words_length: usize,
                handles: *mut u32,
                handles_length: usize,
                marks: *mut u8,
                marks_length: usize,
                up: *mut u32,
                up_length: usize,
                returned: *mut u32,
                returned_length: usize,
                nack: *mut u16,
                nack_length: usize,
                destination: *const [u8; 6],
                source: *const [u8; 6],
                priority: u8,
                time: u64,
                $($own: $type),*
            ) -> Answer;
        }
    };
}

/// The peer in C as one compiler compiles it.
macro_rules! peer_in_c {
    ($(#[$condition:meta])* $constant:ident, $name:literal, $data:ident, $reminder:ident, $tick:ident, $close:ident,
     $station_receive:ident, $rate_read:ident, $rate_write:ident) => {
        $(#[$condition])*
        mod $data {
            use super::*;
            extern "C" {
                pub fn $station_receive(station: Station, opcode: u8, frame: Frame) -> StationAnswer;
                pub fn $rate_read(frame: *const u8, frame_length: usize) -> Reading;
                pub fn $rate_write(
                    out: *mut u8,
                    out_length: usize,
                    request: Request,
                    addresses: *const u8,
                    addresses_length: usize,
                ) -> Written;
            }
            events!($data, *mut u64, number: u16, handle: u32);
            events!($reminder, *const u64, number: u16);
            events!($tick, *const u64);
            events!($close, *mut u64);
        }

        $(#[$condition])*
        const $constant: Implementation = Implementation {
            name: $name,
            data: $data::$data,
            reminder: $data::$reminder,
            tick: $data::$tick,
            close: $data::$close,
            station_receive: $data::$station_receive,
            rate_read: $data::$rate_read,
            rate_write: $data::$rate_write,
        };
    };
}

peer_in_c!(
    #[cfg(peer_gcc)]
    GCC,
    "gcc",
    gcc_data,
    gcc_reminder,
    gcc_tick,
    gcc_close,
    gcc_station_receive,
    gcc_rate_read,
    gcc_rate_write
);

peer_in_c!(
    #[cfg(peer_clang)]
    CLANG,
    "clang",
    clang_data,
    clang_reminder,
    clang_tick,
    clang_close,
    clang_station_receive,
    clang_rate_read,
    clang_rate_write
);

/// Functions that answer zeros at once: what a call costs by itself.
pub const NOTHING: Implementation = Implementation {
    name: "nothing",
    data: nothing::data,
    reminder: nothing::reminder,
    tick: nothing::tick,
    close: nothing::close,
    station_receive: nothing::station_receive,
    rate_read: nothing::rate_read,
    rate_write: nothing::rate_write,
};

/// The archive first, then the peers.
pub fn all() -> Vec<Implementation> {
    vec![
        ARCHIVE,
        RUST,
        #[cfg(peer_gcc)]
        GCC,
        #[cfg(peer_clang)]
        CLANG,
    ]
}

/// Calls a function with the arguments that all channel events begin with.
macro_rules! call {
    ($function:expr, $slices:ident, $buffers:ident, $event:ident $(, $own:expr)*) => {
        // SAFETY: each pointer is a slice's, with its own length; what is written is borrowed by `&mut`, so it overlaps
        // nothing else; the function keeps none of them.
        unsafe {
            ($function)(
                $slices.keys.as_mut_ptr(),
                $slices.keys.len(),
                $slices.words.as_mut_ptr(),
                $slices.words.len(),
                $slices.handles.as_mut_ptr(),
                $slices.handles.len(),
                $slices.marks.as_mut_ptr(),
                $slices.marks.len(),
                $buffers.up.as_mut_ptr(),
                $buffers.up.len(),
                $buffers.returned.as_mut_ptr(),
                $buffers.returned.len(),
                $buffers.nack.as_mut_ptr(),
                $buffers.nack.len(),
                &$event.key.destination,
                &$event.key.source,
                $event.key.priority,
                $event.time,
                $($own),*
            )
        }
    };
}

impl Implementation {
    /// A channel event.
    #[inline(always)]
    pub fn take(&self, slices: Slices<'_>, buffers: Buffers<'_>, event: &ChannelEvent) -> Answer {
        match event.act {
            Act::Data(number, handle) => call!(self.data, slices, buffers, event, number, handle),
            Act::Reminder(number) => call!(self.reminder, slices, buffers, event, number),
            Act::Tick => call!(self.tick, slices, buffers, event),
            Act::Close => call!(self.close, slices, buffers, event),
        }
    }

    /// A received capability frame.
    #[inline(always)]
    pub fn station_receive(&self, station: Station, opcode: u8, frame: Frame) -> StationAnswer {
        // SAFETY: plain numbers by value.
        unsafe { (self.station_receive)(station, opcode, frame) }
    }

    /// A rate frame to read.
    #[inline(always)]
    pub fn rate_read(&self, frame: &[u8]) -> Reading {
        // SAFETY: the slice's own pointer and length.
        unsafe { (self.rate_read)(frame.as_ptr(), frame.len()) }
    }

    /// A rate request to write.
    #[inline(always)]
    pub fn rate_write(&self, out: &mut [u8], request: Request, addresses: &[u8]) -> Written {
        // SAFETY: each slice's own pointer and length; the output is borrowed by `&mut`, so the two are apart.
        unsafe {
            (self.rate_write)(
                out.as_mut_ptr(),
                out.len(),
                request,
                addresses.as_ptr(),
                addresses.len(),
            )
        }
    }
}
