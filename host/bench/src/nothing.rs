//! Functions of the C interface that do nothing.

use pikurandal::raw::{Answer, Frame, Reading, Request, Station, StationAnswer, Written};

/// A channel event that is answered with zeros.
macro_rules! nothing {
    ($name:ident, $keys:ty $(, $own:ty)*) => {
        /// Answers zeros.
        ///
        /// # Safety
        ///
        /// None is asked: nothing is read or written.
        pub unsafe extern "C" fn $name(
            _: $keys, _: usize, _: *mut u64, _: usize, _: *mut u32, _: usize, _: *mut u8, _: usize,
            _: *mut u32, _: usize, _: *mut u32, _: usize, _: *mut u16, _: usize,
            _: *const [u8; 6], _: *const [u8; 6], _: u8, _: u64, $(_: $own),*
        ) -> Answer {
            Answer::default()
        }
    };
}

nothing!(data, *mut u64, u16, u32);
nothing!(reminder, *const u64, u16);
nothing!(tick, *const u64);
nothing!(close, *mut u64);

/// Answers zeros.
///
/// # Safety
///
/// None is asked: plain numbers by value.
pub unsafe extern "C" fn station_receive(_: Station, _: u8, _: Frame) -> StationAnswer {
    StationAnswer::default()
}

/// Answers zeros.
///
/// # Safety
///
/// None is asked: nothing is read.
pub unsafe extern "C" fn rate_read(_: *const u8, _: usize) -> Reading {
    Reading::default()
}

/// Answers zeros.
///
/// # Safety
///
/// None is asked: nothing is read or written.
pub unsafe extern "C" fn rate_write(_: *mut u8, _: usize, _: Request, _: *const u8, _: usize) -> Written {
    Written::default()
}
