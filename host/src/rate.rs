//! Rate request frames.
//!
//! ```
//! use pikurandal::rate;
//!
//! let request = rate::Request { opcode: 0, bands: 1, pe1: 4, rank1: 1, ..Default::default() };
//! let mut frame = [0xff; 80];
//! let count = rate::write(&mut frame, &request, &[])?;
//! let reading = rate::read(&frame[..count])?;
//! assert_eq!(reading.request, request);
//! assert_eq!((rate::chosen(&request), rate::rate_of(request.pe1)), (Some(1), Some(10)));
//! # Ok::<(), pikurandal::Refusal>(())
//! ```

use crate::{raw, Refusal};

pub use crate::raw::Request;

/// A request that was read: the fixed fields, and the frame's own octets that hold the addresses, six to each.
#[derive(Clone, Copy, Debug, PartialEq, Eq)]
pub struct Reading<'a> {
    /// The fixed fields.
    pub request: Request,
    /// The octets of the addresses.
    pub addresses: &'a [u8],
}

/// Reads a frame, which came without its check sequence: its fixed fields, and where in it the addresses stand. A third
/// band and further ones are counted but not looked at, nor is anything after Next Ethertype.
///
/// # Errors
///
/// The first of numbers 10 to 22 that applies, from [`Refusal::FrameLength`] to [`Refusal::NextEthertype`].
pub fn read(frame: &[u8]) -> Result<Reading<'_>, Refusal> {
    // SAFETY: the slice's own pointer and length; it is only read, and not kept.
    let reading = unsafe { raw::pik_rate_read(frame.as_ptr(), frame.len()) };
    Refusal::unless_accepted(reading.number)?;
    Ok(Reading {
        request: reading.request,
        addresses: &frame[reading.start..][..reading.extent],
    })
}

/// Writes a request with the octets of its addresses from the start of the output on, and gives the count of octets
/// written: 60, or more if the addresses need it, 270 at most. Octets past them stay.
///
/// # Errors
///
/// The first of numbers 15, 16, 23, 18, 19, 20, 21 and 24 that applies; then nothing is written.
pub fn write(out: &mut [u8], request: &Request, addresses: &[u8]) -> Result<usize, Refusal> {
    // SAFETY: each slice's own pointer and length; the output is borrowed by `&mut`, so the two are apart; neither is kept.
    let written = unsafe {
        raw::pik_rate_write(
            out.as_mut_ptr(),
            out.len(),
            *request,
            addresses.as_ptr(),
            addresses.len(),
        )
    };
    Refusal::unless_accepted(written.number)?;
    Ok(written.count)
}

/// The rate of a PE in Mbit/s.
pub fn rate_of(pe: u8) -> Option<u8> {
    // SAFETY: a plain number.
    let mbit = unsafe { raw::pik_rate_of(pe) };
    (mbit != 0).then_some(mbit)
}

/// The band that a request chooses: 1 or 2, the one of lowest rank whose PE is not 0.
pub fn chosen(request: &Request) -> Option<u8> {
    // SAFETY: plain numbers by value.
    let band = unsafe { raw::pik_rate_chosen(*request) };
    (band != 0).then_some(band)
}
