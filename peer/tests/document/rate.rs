//! Document 01, 'The rate request on the wire': the whole frame, the edges of lengths, and the numbers in order.

use peer::rate::{rate_of, read, write, Band, Reading, Request};

fn band(pe: u8, rank: u8) -> Band {
    Band { pe, rank }
}

/// The request of document 01's whole frame.
fn example() -> Request {
    Request {
        destination: [2, 0, 0, 0, 0, 1],
        source: [2, 0, 0, 0, 0, 2],
        opcode: 0,
        num_bands: 1,
        band_1: band(4, 1),
        band_2: band(0, 0),
    }
}

/// Document 01's whole frame.
fn example_frame() -> Vec<u8> {
    let header = [
        2, 0, 0, 0, 0, 1, 2, 0, 0, 0, 0, 2, 0x88, 0x6c, 1, 8, 0, 0, 1, 0, 4, 1, 0, 0,
    ];
    [&header[..], &[0; 36]].concat()
}

fn two_bands() -> Request {
    Request {
        num_bands: 2,
        band_2: band(9, 2),
        ..example()
    }
}

/// What is written into an output of this many octets.
fn written(request: &Request, addresses: &[u8], room: usize) -> Result<Vec<u8>, u8> {
    let mut output = vec![0xff; room];
    match write(request, addresses, &mut output) {
        Ok(count) => {
            assert!(output[count..].iter().all(|&octet| octet == 0xff));
            Ok(output[..count].to_vec())
        }
        Err(number) => {
            assert!(output.iter().all(|&octet| octet == 0xff));
            Err(number)
        }
    }
}

#[test]
fn the_whole_frame_in_both_directions() {
    let reading = Reading {
        request: example(),
        num_addr: 0,
        addresses: &[],
    };
    assert_eq!(read(&example_frame()), Ok(reading));
    assert_eq!((example().chosen(), example().rate()), (1, 10));
    assert_eq!(written(&example(), &[], 60), Ok(example_frame()));
    assert_eq!(written(&example(), &[], 100), Ok(example_frame()));
    assert_eq!(written(&example(), &[], 59), Err(24));
}

#[test]
fn the_rate_of_a_pe() {
    let some = [4, 6, 8, 10, 12, 14, 16];
    let others = [8, 12, 16, 20, 24, 28, 32];
    for pe in 0..=255 {
        let expected = match pe {
            1..=7 => Some(some[usize::from(pe) - 1]),
            9..=15 => Some(others[usize::from(pe) - 9]),
            _ => None,
        };
        assert_eq!(rate_of(pe), expected, "PE {pe}");
    }
}

#[test]
fn the_chosen_band_is_of_lowest_rank_and_of_a_pe_that_is_not_0() {
    let cases = [
        (band(7, 2), band(12, 1), 2, 20),
        (band(7, 1), band(12, 2), 1, 16),
        (band(1, 255), band(15, 254), 2, 32),
        (band(3, 2), band(0, 1), 1, 8),
    ];
    for (band_1, band_2, chosen, rate) in cases {
        let request = Request {
            band_1,
            band_2,
            ..two_bands()
        };
        assert_eq!((request.chosen(), request.rate()), (chosen, rate));
    }
}

#[test]
fn what_is_written_can_be_read() {
    for (request, most) in [(example(), 41), (two_bands(), 40)] {
        for num_addr in 0..=most {
            let addresses = [1, 0, 0x5e, 0, 0, num_addr].repeat(num_addr.into());
            let frame = written(&request, &addresses, 1_600).expect("accepted");
            let header = 22 + 2 * usize::from(request.num_bands) + addresses.len();
            assert_eq!(frame.len(), header.max(60));
            let reading = read(&frame).expect("accepted");
            assert_eq!(
                (reading.request, reading.num_addr, reading.addresses),
                (request, num_addr, &addresses[..])
            );
            assert_eq!(written(&request, &addresses, frame.len() - 1), Err(24));
            assert_eq!(written(&request, &addresses, frame.len()), Ok(frame));
        }
        let too_many = [1; 6].repeat(usize::from(most) + 1);
        assert_eq!(written(&request, &too_many, 1_600), Err(23));
    }
}

#[test]
fn the_edges_of_the_frame_length() {
    for (length, number) in [(0, 10), (59, 10), (60, 0), (61, 0), (1_514, 0), (1_515, 10)] {
        let mut frame = example_frame();
        frame.resize(length, 0xee);
        assert_eq!(read(&frame).err().unwrap_or(0), number, "{length} octets");
    }
}

#[test]
fn the_edges_of_ss_length() {
    let mut frame = written(&example(), &[1; 6 * 6], 60).expect("accepted");
    assert_eq!((frame.len(), frame[15]), (60, 44));
    assert!(read(&frame).is_ok());
    for (ss_length, number) in [(45, 13), (255, 13), (43, 17), (8, 17), (7, 13), (0, 13)] {
        frame[15] = ss_length;
        assert_eq!(read(&frame), Err(number), "SSLength {ss_length}");
    }
}

#[test]
fn bands_past_the_second_are_skipped_unread() {
    let mut frame = example_frame();
    frame[15..20].copy_from_slice(&[20, 0, 2, 4, 1]);
    frame[20..36].copy_from_slice(&[1, 2, 15, 1, 0, 0, 255, 1, 1, 9, 9, 9, 9, 9, 0, 0]);
    let reading = read(&frame).expect("accepted");
    assert_eq!((reading.request.num_bands, reading.request.opcode), (4, 2));
    assert_eq!(
        (reading.request.band_1, reading.request.band_2),
        (band(1, 2), band(15, 1))
    );
    assert_eq!(reading.addresses, [1, 9, 9, 9, 9, 9]);
    let three = Request {
        num_bands: 3,
        ..two_bands()
    };
    assert_eq!(written(&three, &[], 1_600), Err(23));
}

/// A frame with every fault at once; each is mended in turn, and the next number comes.
#[test]
fn the_readers_numbers_in_their_order() {
    let mut frame = written(&two_bands(), &[1; 6], 60).expect("accepted");
    assert_eq!(frame[15], 16);
    let faults = [
        (11, 12, 0x08, 0x88),
        (12, 14, 2, 1),
        (13, 15, 7, 17),
        (14, 16, 1, 0),
        (15, 17, 3, 0),
        (16, 18, 0, 2),
        (17, 15, 7, 16),
        (18, 20, 8, 4),
        (19, 22, 8, 9),
        (20, 23, 1, 2),
        (21, 24, 2, 3),
        (22, 31, 1, 0),
    ];
    for (_, place, wrong, _) in faults {
        frame[place] = wrong;
    }
    assert_eq!(read(&frame[..59]), Err(10));
    for (number, place, _, right) in faults {
        assert_eq!(read(&frame), Err(number));
        frame[place] = right;
    }
    assert!(read(&frame).is_ok());
}

#[test]
fn the_writers_numbers_in_their_order() {
    let mut request = Request {
        opcode: 3,
        num_bands: 0,
        band_1: band(0, 0),
        band_2: band(8, 0),
        ..example()
    };
    let mut addresses = vec![0; 7];
    assert_eq!(written(&request, &addresses, 0), Err(15));
    request.opcode = 2;
    assert_eq!(written(&request, &addresses, 0), Err(16));
    request.num_bands = 2;
    assert_eq!(written(&request, &addresses, 0), Err(23));
    addresses.pop();
    assert_eq!(written(&request, &addresses, 0), Err(18));
    request.band_1.pe = 1;
    assert_eq!(written(&request, &addresses, 0), Err(19));
    request.band_2.pe = 15;
    assert_eq!(written(&request, &addresses, 0), Err(20));
    request.band_1.rank = 9;
    assert_eq!(written(&request, &addresses, 0), Err(20));
    request.band_2.rank = 9;
    assert_eq!(written(&request, &addresses, 0), Err(20));
    request.band_2.rank = 8;
    assert_eq!(written(&request, &addresses, 0), Err(21));
    addresses[0] = 1;
    assert_eq!(written(&request, &addresses, 59), Err(24));
    assert!(written(&request, &addresses, 60).is_ok());
}

#[test]
fn one_band_leaves_band_2_empty() {
    for band_2 in [band(0, 1), band(9, 0), band(9, 2)] {
        let request = Request { band_2, ..example() };
        assert_eq!(written(&request, &[], 60), Err(23));
    }
}
