//! Rate requests: their fields, what reader and writer both refuse, and the rate of a PE (document 01, 'The rate
//! request on the wire').

mod reader;
mod writer;

pub use reader::{read, Reading};
pub use writer::write;

use crate::answer::{refuse, Number};
use crate::table::Address;

/// The Ethertype of a rate request.
const ETHERTYPE: [u8; 2] = [0x88, 0x6c];

/// Octets before SSVersion, from which SSLength counts.
const BEFORE_SS_VERSION: usize = 16;

/// The shortest frame.
const SHORTEST: usize = 60;

/// What a band asks for.
#[derive(Clone, Copy, Debug, Default, PartialEq, Eq)]
pub struct Band {
    /// The PE, which stands for a rate.
    pub pe: u8,
    /// The rank; the lowest is chosen.
    pub rank: u8,
}

/// The fixed fields of a request. An absent band 2 is PE 0, rank 0.
#[derive(Clone, Copy, Debug, Default, PartialEq, Eq)]
pub struct Request {
    /// The destination address.
    pub destination: Address,
    /// The source address.
    pub source: Address,
    /// The OpCode, 0 to 2.
    pub opcode: u8,
    /// NumBands.
    pub num_bands: u8,
    /// Band 1.
    pub band_1: Band,
    /// Band 2.
    pub band_2: Band,
}

impl Request {
    /// The chosen band of an accepted request: 1 or 2, the one of lowest rank whose PE is not 0.
    pub fn chosen(&self) -> u8 {
        if self.band_2.pe != 0 && self.band_2.rank < self.band_1.rank {
            2
        } else {
            1
        }
    }

    /// The chosen band's rate in Mbit/s.
    pub fn rate(&self) -> u8 {
        let band = if self.chosen() == 2 { self.band_2 } else { self.band_1 };
        rate_of(band.pe).unwrap_or(0)
    }

    fn has_band_2(&self) -> bool {
        self.num_bands >= 2
    }

    /// Numbers 18 to 20: the PE of band 1, the PE of band 2 where there is one, and the ranks.
    fn check_bands(&self) -> Result<(), Number> {
        refuse(18, !matches!(self.band_1.pe, 1..=7))?;
        refuse(19, self.has_band_2() && !matches!(self.band_2.pe, 0 | 9..=15))?;
        refuse(20, self.band_1.rank == 0)?;
        refuse(20, self.has_band_2() && self.band_2.rank == 0)?;
        refuse(20, self.has_band_2() && self.band_2.rank == self.band_1.rank)
    }
}

/// Number 21: each address has to be a group address, which the lowest bit of its first octet says.
fn check_addresses(addresses: &[u8]) -> Result<(), Number> {
    refuse(21, addresses.chunks(6).any(|address| address[0] % 2 == 0))
}

/// SSLength of a request: what follows it, up to and with Next Ethertype.
fn ss_length_for(num_bands: usize, num_addr: usize) -> usize {
    6 + 2 * num_bands + 6 * num_addr
}

/// The rate of a PE in Mbit/s.
pub fn rate_of(pe: u8) -> Option<u8> {
    match pe {
        1 => Some(4),
        2 => Some(6),
        3 => Some(8),
        4 => Some(10),
        5 => Some(12),
        6 => Some(14),
        7 => Some(16),
        9 => Some(8),
        10 => Some(12),
        11 => Some(16),
        12 => Some(20),
        13 => Some(24),
        14 => Some(28),
        15 => Some(32),
        _ => None,
    }
}
