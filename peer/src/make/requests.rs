//! Random rate requests to write: accepted ones, and ones refused by each of the writer's numbers.

use crate::random::Random;
use crate::rate::{Band, Request};
use crate::session::Writing;
use crate::table::Address;

/// A request to write: accepted, or refused in one way or for two reasons.
pub fn writing(random: &mut Random) -> Writing {
    let mut writing = accepted(random);
    let damages = random.weighted(&[(4, 0), (8, 1), (3, 2)]);
    for _ in 0..damages {
        let number = random.pick(&[15, 16, 23, 18, 19, 20, 21, 24]);
        damage(random, &mut writing, number);
    }
    writing
}

fn accepted(random: &mut Random) -> Writing {
    let num_bands = random.between(1, 2) as u8;
    let band_1 = Band {
        pe: random.between(1, 7) as u8,
        rank: random.pick(&[1, 2, 255]),
    };
    let used = Band {
        pe: random.pick(&[0, 9, 10, 12, 15]),
        rank: random.pick(&[3, 4, 254]),
    };
    let request = Request {
        destination: std::array::from_fn(|_| random.octet()),
        source: std::array::from_fn(|_| random.octet()),
        opcode: random.below(3) as u8,
        num_bands,
        band_1,
        band_2: if num_bands == 2 { used } else { Band::default() },
    };
    let most_addresses = 42 - u64::from(num_bands);
    let any = random.between(0, most_addresses);
    let num_addr = random.weighted(&[(5, 0), (5, any.min(7)), (2, any), (1, most_addresses)]);
    let addresses = (0..num_addr).flat_map(|_| group_address(random)).collect();
    let mut writing = Writing {
        request,
        room: 0,
        addresses,
    };
    writing.room = room(random, &writing);
    writing
}

fn group_address(random: &mut Random) -> Address {
    let mut address: Address = std::array::from_fn(|_| random.octet());
    address[0] |= 1;
    address
}

/// What the frame needs.
fn needed(writing: &Writing) -> u16 {
    let header = 22 + 2 * u16::from(writing.request.num_bands) + writing.addresses.len() as u16;
    header.max(60)
}

/// A room that is enough: just so, a bit more, or much more.
fn room(random: &mut Random, writing: &Writing) -> u16 {
    let needed = needed(writing);
    let more = needed + random.below(10) as u16;
    let much_more = random.pick(&[400, 1_600, 1_601, 65_535]);
    random.weighted(&[(12, needed), (6, more), (1, much_more)])
}

/// Damages a request so that, if it was accepted, it is refused by `number`.
fn damage(random: &mut Random, writing: &mut Writing, number: u64) {
    let request = &mut writing.request;
    match number {
        15 => request.opcode = random.pick(&[3, 4, 255]),
        16 => request.num_bands = 0,
        18 => request.band_1.pe = random.pick(&[0, 8, 9, 16, 255]),
        19 => {
            request.num_bands = 2;
            request.band_2.pe = random.pick(&[1, 7, 8, 16, 255]);
        }
        20 => damage_ranks(random, request),
        21 => damage_addresses(random, &mut writing.addresses),
        23 => damage_shape(random, writing),
        _ => {
            let too_short = needed(writing) - 1;
            writing.room = random.pick(&[too_short, too_short, 59, 0]).min(too_short);
        }
    }
}

fn damage_ranks(random: &mut Random, request: &mut Request) {
    match random.below(3) {
        0 => request.band_1.rank = 0,
        1 if request.num_bands == 2 => request.band_2.rank = 0,
        _ if request.num_bands == 2 => request.band_2.rank = request.band_1.rank,
        _ => request.band_1.rank = 0,
    }
}

fn damage_addresses(random: &mut Random, addresses: &mut Vec<u8>) {
    if addresses.is_empty() {
        addresses.extend([3; 6]);
    }
    let place = random.below(addresses.len() as u64) / 6 * 6;
    addresses[place as usize] &= 0xfe;
}

/// 23: address octets not a multiple of 6, too many bands, a band 2 that is not there, or too many addresses.
fn damage_shape(random: &mut Random, writing: &mut Writing) {
    let request = &mut writing.request;
    match random.below(4) {
        0 => writing.addresses.extend(vec![1; random.between(1, 5) as usize]),
        1 => request.num_bands = random.pick(&[3, 4, 255]),
        2 => {
            request.num_bands = 1;
            request.band_2 = random.pick(&[
                Band { pe: 0, rank: 2 },
                Band { pe: 9, rank: 0 },
                Band { pe: 9, rank: 2 },
            ]);
        }
        _ => {
            let (num_bands, too_many) = random.pick(&[(1, 42), (2, 41), (1, 43), (2, 300)]);
            request.num_bands = num_bands;
            writing.addresses = vec![1; 6 * too_many];
        }
    }
}
