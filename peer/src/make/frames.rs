//! Random rate frames to read: whole ones, and ones damaged in each way that has a number (document 01, 10 to 22).

use crate::random::Random;
use crate::table::Address;

/// A frame while it is being made. The octet counts are said apart from what they count, so that they can be wrong.
struct Draft {
    start: [u8; 12],
    ethertype: [u8; 2],
    ss_type: u8,
    ss_length: u8,
    ss_version: u8,
    opcode: u8,
    num_bands: u8,
    num_addr: u8,
    bands: Vec<[u8; 2]>,
    addresses: Vec<Address>,
    next_ethertype: [u8; 2],
    /// How long the whole frame is; what lies past the header is padding.
    length: usize,
}

/// A frame: whole, damaged in one way or two, or noise.
pub fn frame(random: &mut Random) -> Vec<u8> {
    if random.once_in(40) {
        return noise(random);
    }
    let mut draft = whole(random);
    let damages = random.weighted(&[(4, 0), (8, 1), (3, 2)]);
    for _ in 0..damages {
        let number = random.between(10, 22);
        damage(random, &mut draft, number);
    }
    octets(random, &draft)
}

/// Any octets of any length, now and then with the beginning of a rate request.
fn noise(random: &mut Random) -> Vec<u8> {
    let mut frame = some_octets(random, 70);
    if frame.len() >= 16 && random.once_in(2) {
        frame[12..16].copy_from_slice(&[0x88, 0x6c, 1, 8]);
    }
    frame
}

fn some_octets(random: &mut Random, at_most: u64) -> Vec<u8> {
    (0..random.between(0, at_most)).map(|_| random.octet()).collect()
}

/// A request that is accepted.
fn whole(random: &mut Random) -> Draft {
    let many = random.between(3, 124);
    let num_bands = random.weighted(&[(8, 1), (8, 2), (2, 3), (1, 5), (1, many)]);
    let most_addresses = (255 - 6 - 2 * num_bands) / 6;
    let any = random.between(0, most_addresses);
    let num_addr = random.weighted(&[(6, 0), (4, any.min(2)), (2, any), (1, most_addresses)]);
    let ss_length = 6 + 2 * num_bands + 6 * num_addr;
    Draft {
        start: std::array::from_fn(|_| random.octet()),
        ethertype: [0x88, 0x6c],
        ss_type: 1,
        ss_length: ss_length as u8,
        ss_version: 0,
        opcode: random.below(3) as u8,
        num_bands: num_bands as u8,
        num_addr: num_addr as u8,
        bands: bands(random, num_bands),
        addresses: (0..num_addr).map(|_| group_address(random)).collect(),
        next_ethertype: [0, 0],
        length: length(random, 16 + ss_length) as usize,
    }
}

/// Bands 1 and 2 that are accepted, and any others.
fn bands(random: &mut Random, num_bands: u64) -> Vec<[u8; 2]> {
    let rank_1 = random.pick(&[1, 2, 3, 255]);
    let rank_2 = random.pick(&[1, 2, 4, 254].map(|rank| if rank == rank_1 { 3 } else { rank }));
    let pe_2 = random.between(9, 15) as u8;
    let mut bands = vec![
        [random.between(1, 7) as u8, rank_1],
        [random.weighted(&[(1, 0), (3, pe_2)]), rank_2],
    ];
    bands.resize_with(num_bands.max(2) as usize, || [random.octet(), random.octet()]);
    bands.truncate(num_bands as usize);
    bands
}

fn group_address(random: &mut Random) -> Address {
    let mut address: Address = std::array::from_fn(|_| random.octet());
    address[0] |= 1;
    address
}

/// A length that holds the header: the shortest, a bit more, or the longest.
fn length(random: &mut Random, header: u64) -> u64 {
    let shortest = header.max(60);
    let more = shortest + random.below(20);
    random.weighted(&[(8, shortest), (4, more), (1, 1_514)])
}

/// Damages a draft so that, if it was whole, it is refused by `number`.
fn damage(random: &mut Random, draft: &mut Draft, number: u64) {
    match number {
        10 => draft.length = random.pick(&[0, 13, 20, 58, 59, 1_515, 1_600]),
        11 => draft.ethertype = random.pick(&[[0x88, 0x6d], [0x89, 0x6c], [0x6c, 0x88], [8, 0]]),
        12 => draft.ss_type = random.pick(&[0, 2, 128, 255]),
        13 => damage_ss_length(random, draft),
        14 => draft.ss_version = random.pick(&[1, 2, 255]),
        15 => draft.opcode = random.pick(&[3, 4, 128, 255]),
        16 => draft.num_bands = 0,
        17 => damage_counts(random, draft),
        18 => draft.bands[0][0] = random.pick(&[0, 8, 9, 15, 255]),
        19 => damage_band_2(draft, 0, random.pick(&[1, 7, 8, 16, 255])),
        20 => damage_ranks(random, draft),
        21 => damage_address(random, draft),
        _ => draft.next_ethertype = random.pick(&[[0, 1], [1, 0], [0x88, 0x6c]]),
    }
}

/// 13: below 8, or reaching just past the frame's end, where an octet can say that.
fn damage_ss_length(random: &mut Random, draft: &mut Draft) {
    let too_small = random.below(8) as u8;
    draft.ss_length = match u8::try_from(draft.length.saturating_sub(15)) {
        Ok(past_the_end) => random.pick(&[too_small, 7, past_the_end, 255]),
        Err(_) => too_small,
    };
}

/// 17: one of the three counts is not what the others say, also by as much as an octet forgets.
fn damage_counts(random: &mut Random, draft: &mut Draft) {
    match random.below(4) {
        0 => draft.ss_length = draft.ss_length.saturating_add(random.pick(&[1, 2, 6])),
        1 => draft.ss_length = draft.ss_length.saturating_sub(1).max(8),
        2 => draft.num_bands = draft.num_bands.wrapping_add(random.pick(&[1, 3, 128])),
        _ => draft.num_addr = draft.num_addr.wrapping_add(random.pick(&[1, 128, 255])),
    }
}

fn damage_band_2(draft: &mut Draft, part: usize, value: u8) {
    if let Some(band) = draft.bands.get_mut(1) {
        band[part] = value;
    }
}

fn damage_ranks(random: &mut Random, draft: &mut Draft) {
    match random.below(3) {
        0 => draft.bands[0][1] = 0,
        1 => damage_band_2(draft, 1, 0),
        _ => damage_band_2(draft, 1, draft.bands[0][1]),
    }
}

fn damage_address(random: &mut Random, draft: &mut Draft) {
    let count = draft.addresses.len() as u64;
    if count > 0 {
        let any = random.below(count);
        let place = random.pick(&[0, any, count - 1]);
        draft.addresses[place as usize][0] &= 0xfe;
    }
}

/// The octets of a draft. Padding is not looked at, so it may be anything.
fn octets(random: &mut Random, draft: &Draft) -> Vec<u8> {
    let mut octets = draft.start.to_vec();
    octets.extend(draft.ethertype);
    octets.extend([
        draft.ss_type,
        draft.ss_length,
        draft.ss_version,
        draft.opcode,
        draft.num_bands,
        draft.num_addr,
    ]);
    octets.extend(draft.bands.concat());
    octets.extend(draft.addresses.concat());
    octets.extend(draft.next_ethertype);
    let padding = if random.once_in(2) { 0 } else { random.octet() };
    octets.resize(draft.length, padding);
    octets
}
