//! Sessions: bodies in both directions, and streams that end in each way.

use crate::key;
use peer::make::{ending, Ending, Maker};
use peer::session::{self, Event, LENGTHS};

fn answers(stream: &[u8]) -> String {
    let mut output = Vec::new();
    session::answer(stream, &mut output).expect("a list takes everything");
    String::from_utf8(output).expect("lines are text")
}

#[test]
fn a_body_says_its_event_and_back() {
    for event in Maker::from_seed(7).take(5_000) {
        let body = event.to_body();
        let kind = usize::from(body[0]);
        let (_, length) = LENGTHS[kind - 1];
        assert!(body.len() == length || (kind >= 10 && body.len() > length));
        assert_eq!(Event::from_body(&body), Some(event));
    }
}

#[test]
fn a_body_is_readable_exactly_if_its_length_is_its_kinds() {
    for kind in 0..=255 {
        for length in 0..40 {
            let body = [vec![kind], vec![0; 39]].concat();
            let readable = LENGTHS
                .iter()
                .any(|&(known, least)| known == kind && (length == least || (kind >= 10 && length > least)));
            assert_eq!(
                Event::from_body(&body[..length]).is_some(),
                readable,
                "kind {kind}, {length} octets"
            );
        }
    }
}

#[test]
fn a_stream_may_end_anywhere() {
    let events = [Event::Look(key(0)), Event::Fresh(0x0f)];
    let stream = session::stream(&events);
    let look = "0 look 4 current=0 oldest=0 latest=0 span=0 cells=-\n";
    let fresh = "1 fresh 0 sent=no timer=kept really_new=00000000 \
                 oldest_tx=00000000 current_tx=0000000f current_rx=00000000\n";
    for length in 0..=stream.len() {
        let expected = match length {
            0 => String::new(),
            1..=15 => "0 cut\n".to_string(),
            16 => look.to_string(),
            17..=22 => format!("{look}1 cut\n"),
            _ => format!("{look}{fresh}"),
        };
        assert_eq!(answers(&stream[..length]), expected, "{length} octets");
    }
}

#[test]
fn an_unreadable_body_ends_the_run() {
    let whole = session::stream(&[Event::PeriodEnd]);
    let unreadable = [vec![], vec![0], vec![12], vec![8, 0], vec![11; 20], vec![1; 29]];
    for body in unreadable {
        let stream = [session::entry(&body), whole.clone()].concat();
        assert_eq!(answers(&stream), "0 unreadable\n");
    }
}

#[test]
fn made_endings_are_what_they_say() {
    for seed in 0..500 {
        assert_eq!(answers(&ending(seed, Ending::Whole)), "");
        assert_eq!(answers(&ending(seed, Ending::Cut)), "0 cut\n");
        assert_eq!(answers(&ending(seed, Ending::Unreadable)), "0 unreadable\n");
    }
}

#[test]
fn a_room_above_1600_counts_as_1600() {
    let body = |room: u16| [&[11][..], &[0; 18], &room.to_be_bytes()].concat();
    for (room, octets) in [(0, 0), (3, 3), (1_600, 1_600), (1_601, 1_600), (65_535, 1_600)] {
        let output = if octets == 0 {
            "-".to_string()
        } else {
            "ff".repeat(octets)
        };
        let expected = format!("0 write 16 count=0 output={output}\n");
        assert_eq!(answers(&session::entry(&body(room))), expected);
    }
}
