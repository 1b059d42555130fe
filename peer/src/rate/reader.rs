//! The reader of rate requests, with the numbers 10 to 22 in their order (document 01, 'Numbers the box may answer
//! with' and 'The rate request on the wire').

use super::{check_addresses, ss_length_for, Band, Request, BEFORE_SS_VERSION, ETHERTYPE, SHORTEST};
use crate::answer::{refuse, Number};
use crate::table::Address;

/// The longest frame.
const LONGEST: usize = 1_514;

/// An accepted request: its fixed fields, and of the caller's frame the octets where the addresses stand.
#[derive(Clone, Copy, Debug, PartialEq, Eq)]
pub struct Reading<'a> {
    /// The fixed fields.
    pub request: Request,
    /// NumAddr.
    pub num_addr: u8,
    /// The octets of the addresses.
    pub addresses: &'a [u8],
}

/// Reads a frame.
pub fn read(frame: &[u8]) -> Result<Reading<'_>, Number> {
    let ss_length = check_header(frame)?;
    refuse(14, frame[16] != 0)?;
    let (opcode, num_bands, num_addr) = (frame[17], frame[18], frame[19]);
    refuse(15, opcode > 2)?;
    refuse(16, num_bands == 0)?;
    refuse(17, ss_length != ss_length_for(num_bands.into(), num_addr.into()))?;
    let addresses_begin = 20 + 2 * usize::from(num_bands);
    let addresses_end = addresses_begin + 6 * usize::from(num_addr);
    let addresses = &frame[addresses_begin..addresses_end];
    let request = Request {
        destination: address_at(frame, 0),
        source: address_at(frame, 6),
        opcode,
        num_bands,
        band_1: band_at(frame, 20),
        band_2: if num_bands >= 2 {
            band_at(frame, 22)
        } else {
            Band::default()
        },
    };
    request.check_bands()?;
    check_addresses(addresses)?;
    refuse(22, frame[addresses_end..addresses_end + 2] != [0, 0])?;
    Ok(Reading {
        request,
        num_addr,
        addresses,
    })
}

/// 10 to 13; gives SSLength. From there on every octet of the header is in the frame.
fn check_header(frame: &[u8]) -> Result<usize, Number> {
    refuse(10, frame.len() < SHORTEST || frame.len() > LONGEST)?;
    refuse(11, frame[12..14] != ETHERTYPE)?;
    refuse(12, frame[14] != 1)?;
    let ss_length = usize::from(frame[15]);
    refuse(13, ss_length < 8 || BEFORE_SS_VERSION + ss_length > frame.len())?;
    Ok(ss_length)
}

fn address_at(frame: &[u8], place: usize) -> Address {
    let mut address = Address::default();
    address.copy_from_slice(&frame[place..place + 6]);
    address
}

fn band_at(frame: &[u8], place: usize) -> Band {
    Band {
        pe: frame[place],
        rank: frame[place + 1],
    }
}
