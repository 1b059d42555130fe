//! Rate requests and a received capability frame (document 01, 'Rate requests, in this order', 'The rate request on the
//! wire', 'Capability sets').

use pikurandal::raw::{Frame, Reading, Request, Station, StationAnswer, Written};
use std::slice::{from_raw_parts, from_raw_parts_mut};

const SHORTEST: usize = 60;
const LONGEST: usize = 1_514;
const HEADER: usize = 16;
const BANDS: usize = 20;

fn refuse(number: u8, applies: bool) -> Result<(), u8> {
    if applies {
        Err(number)
    } else {
        Ok(())
    }
}

fn are_groups(addresses: &[u8]) -> bool {
    addresses.chunks_exact(6).all(|address| address[0] & 1 == 1)
}

/// Numbers 18 to 20.
fn judge_bands(q: &Request) -> Result<(), u8> {
    let two = q.bands >= 2;
    refuse(18, !(1..=7).contains(&q.pe1))?;
    refuse(19, two && q.pe2 != 0 && !(9..=15).contains(&q.pe2))?;
    refuse(20, q.rank1 == 0 || (two && (q.rank2 == 0 || q.rank1 == q.rank2)))
}

fn read(frame: &[u8]) -> Result<Reading, u8> {
    refuse(10, frame.len() < SHORTEST || frame.len() > LONGEST)?;
    refuse(11, frame[12..14] != [0x88, 0x6c])?;
    refuse(12, frame[14] != 1)?;
    let ss_length = usize::from(frame[15]);
    refuse(13, ss_length < 8 || HEADER + ss_length > frame.len())?;
    refuse(14, frame[16] != 0)?;
    let (opcode, bands, addresses) = (frame[17], frame[18], frame[19]);
    refuse(15, opcode > 2)?;
    refuse(16, bands == 0)?;
    let start = BANDS + 2 * usize::from(bands);
    let extent = 6 * usize::from(addresses);
    refuse(17, HEADER + ss_length != start + extent + 2)?;
    let (pe2, rank2) = if bands >= 2 { (frame[22], frame[23]) } else { (0, 0) };
    let mut request = Request {
        opcode,
        bands,
        pe1: frame[20],
        rank1: frame[21],
        pe2,
        rank2,
        ..Request::default()
    };
    request.destination.copy_from_slice(&frame[..6]);
    request.source.copy_from_slice(&frame[6..12]);
    judge_bands(&request)?;
    let end = start + extent;
    refuse(21, !are_groups(&frame[start..end]))?;
    refuse(22, frame[end..end + 2] != [0, 0])?;
    Ok(Reading {
        number: 0,
        addresses,
        request,
        start,
        extent,
    })
}

fn write(out: &mut [u8], q: &Request, addresses: &[u8]) -> Result<usize, u8> {
    refuse(15, q.opcode > 2)?;
    refuse(16, q.bands == 0)?;
    let ss_length = 6 + 2 * usize::from(q.bands) + addresses.len();
    let absent_band_is_not_empty = q.bands == 1 && (q.pe2, q.rank2) != (0, 0);
    refuse(
        23,
        addresses.len() % 6 != 0 || q.bands > 2 || absent_band_is_not_empty || ss_length > 255,
    )?;
    judge_bands(q)?;
    refuse(21, !are_groups(addresses))?;
    let count = (HEADER + ss_length).max(SHORTEST);
    let out = out.get_mut(..count).ok_or(24_u8)?;
    out[..6].copy_from_slice(&q.destination);
    out[6..12].copy_from_slice(&q.source);
    let counted = (addresses.len() / 6) as u8;
    out[12..20].copy_from_slice(&[0x88, 0x6c, 1, ss_length as u8, 0, q.opcode, q.bands, counted]);
    let start = BANDS + 2 * usize::from(q.bands);
    let bands = [q.pe1, q.rank1, q.pe2, q.rank2];
    out[BANDS..start].copy_from_slice(&bands[..start - BANDS]);
    let (filled, rest) = out[start..].split_at_mut(addresses.len());
    filled.copy_from_slice(addresses);
    rest.fill(0);
    Ok(count)
}

/// As the archive's `pik_rate_read`.
///
/// # Safety
///
/// What `include/pikurandal.h` asks of the host.
pub unsafe extern "C" fn rate_read(frame: *const u8, frame_length: usize) -> Reading {
    // SAFETY: the host owes that the pointer leads to so many octets, and that nobody writes to them until the call ends.
    let frame = unsafe { from_raw_parts(frame, frame_length) };
    read(frame).unwrap_or_else(|number| Reading {
        number,
        ..Reading::default()
    })
}

/// As the archive's `pik_rate_write`.
///
/// # Safety
///
/// What `include/pikurandal.h` asks of the host.
pub unsafe extern "C" fn rate_write(
    out: *mut u8,
    out_length: usize,
    request: Request,
    addresses: *const u8,
    addresses_length: usize,
) -> Written {
    // SAFETY: the host owes that each pointer leads to so many octets, and that the output, which alone is written,
    // overlaps no address and is nobody else's until the call ends.
    let (out, addresses) = unsafe {
        (
            from_raw_parts_mut(out, out_length),
            from_raw_parts(addresses, addresses_length),
        )
    };
    match write(out, &request, addresses) {
        Ok(count) => Written { number: 0, count },
        Err(number) => Written { number, count: 0 },
    }
}

/// As the archive's `pik_station_receive`; it is unsafe to call as that is.
///
/// # Safety
///
/// None is asked: plain numbers by value.
pub unsafe extern "C" fn station_receive(mut station: Station, opcode: u8, frame: Frame) -> StationAnswer {
    let mut answer = StationAnswer::default();
    if opcode > 1 {
        answer.number = 30;
    } else {
        let gone = frame.oldest_tx & !frame.current_tx;
        answer.reported = frame.current_tx & !(station.new_rx | station.previous_rx);
        answer.timer = u8::from(opcode == 1);
        station.new_rx = (station.new_rx | frame.current_tx) & !gone;
        station.previous_rx &= !gone;
    }
    answer.station = station;
    answer.frame = Frame {
        oldest_tx: station.oldest_tx,
        current_tx: station.new_tx | station.previous_tx,
        current_rx: station.new_rx | station.previous_rx,
    };
    answer
}
