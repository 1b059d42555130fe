//! The writer of rate requests, with its numbers 15, 16, 23, 18, 19, 20, 21 and 24 in that order (document 01, 'Numbers
//! the box may answer with' and 'The rate request on the wire').

use super::{check_addresses, ss_length_for, Band, Request, BEFORE_SS_VERSION, ETHERTYPE, SHORTEST};
use crate::answer::{refuse, Number};

/// What one octet can hold.
const LARGEST_SS_LENGTH: usize = 255;

/// Writes a request into the output and gives the count of octets written. A refusal writes nothing; octets beyond what
/// is written stay.
pub fn write(request: &Request, addresses: &[u8], output: &mut [u8]) -> Result<usize, Number> {
    refuse(15, request.opcode > 2)?;
    refuse(16, request.num_bands == 0)?;
    refuse(23, cannot_be_written(request, addresses))?;
    request.check_bands()?;
    check_addresses(addresses)?;
    let mut frame = header(request, addresses);
    while frame.len() < SHORTEST {
        frame.push(0);
    }
    refuse(24, output.len() < frame.len())?;
    output[..frame.len()].copy_from_slice(&frame);
    Ok(frame.len())
}

/// Number 23: no frame has this layout. Addresses are whole, there are at most two bands, a request for one band says
/// nothing of another, and SSLength is an octet.
fn cannot_be_written(request: &Request, addresses: &[u8]) -> bool {
    addresses.len() % 6 != 0
        || request.num_bands > 2
        || (request.num_bands == 1 && request.band_2 != Band::default())
        || ss_length_for(request.num_bands.into(), addresses.len() / 6) > LARGEST_SS_LENGTH
}

/// The octets from the destination to the end of Next Ethertype.
fn header(request: &Request, addresses: &[u8]) -> Vec<u8> {
    let num_addr = addresses.len() / 6;
    let ss_length = ss_length_for(request.num_bands.into(), num_addr);
    let mut header = Vec::with_capacity(BEFORE_SS_VERSION + ss_length);
    header.extend(request.destination);
    header.extend(request.source);
    header.extend(ETHERTYPE);
    header.extend([1, ss_length as u8, 0, request.opcode, request.num_bands, num_addr as u8]);
    header.extend([request.band_1.pe, request.band_1.rank]);
    if request.has_band_2() {
        header.extend([request.band_2.pe, request.band_2.rank]);
    }
    header.extend(addresses);
    header.extend([0, 0]);
    header
}
