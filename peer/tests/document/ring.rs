//! Document 01, 'Numbers in a ring of 4,096'.

use peer::ring;

#[test]
fn the_distance_is_taken_in_minus_2048_to_2047() {
    let cases = [
        (10, 10, 0),
        (10, 11, 1),
        (4_095, 0, 1),
        (0, 4_095, -1),
        (10, 74, 64),
        (10, 4_042, -64),
        (10, 4_041, -65),
        (0, 2_047, 2_047),
        (0, 2_048, -2_048),
        (2_048, 0, -2_048),
        (4_095, 2_046, 2_047),
        (4_095, 2_047, -2_048),
    ];
    for (from, to, distance) in cases {
        assert_eq!(ring::distance(from, to), distance, "from {from} to {to}");
    }
}

#[test]
fn a_step_by_the_distance_leads_there() {
    for from in (0..ring::SIZE).step_by(7) {
        for to in 0..ring::SIZE {
            let distance = ring::distance(from, to);
            assert!((-2_048..=2_047).contains(&distance));
            assert_eq!((from as i64 + distance).rem_euclid(4_096), to as i64);
        }
    }
}
