//! Document 01's 65th channel ('Runs at the edges'): number 5, and after one close it opens, at the place that is free.

mod common;

use common::{channel, Owned};
use pikurandal::{lent, raw, Refusal};

/// A table's slices and the answer buffers.
#[derive(Clone, Debug, PartialEq, Eq)]
struct Lent {
    table: Owned,
    up: [u32; lent::BUFFER],
    returned: [u32; lent::BUFFER],
    nack: [u16; lent::BUFFER],
}

impl Lent {
    fn empty() -> Lent {
        Lent {
            table: Owned {
                keys: vec![0; lent::KEYS],
                words: vec![0; lent::WORDS],
                handles: vec![0; lent::HANDLES],
                marks: vec![0; lent::MARKS],
            },
            up: [0; lent::BUFFER],
            returned: [0; lent::BUFFER],
            nack: [0; lent::BUFFER],
        }
    }

    /// 64 channels, each with a frame that waits.
    fn full() -> Lent {
        let mut table = Lent::empty();
        for source in 0..64 {
            assert_eq!(table.data(source, 100, 10).number, raw::ACCEPTED);
            assert_eq!(table.data(source, 100, 12).number, raw::ACCEPTED);
        }
        table
    }

    fn lent(&mut self) -> (lent::Slices<'_>, lent::Buffers<'_>) {
        let buffers = lent::Buffers {
            up: &mut self.up,
            returned: &mut self.returned,
            nack: &mut self.nack,
        };
        (self.table.slices(), buffers)
    }

    fn data(&mut self, source: u8, time: u64, number: u16) -> raw::Answer {
        let (slices, buffers) = self.lent();
        lent::data(slices, buffers, &channel(source), time, number, handle(source, number))
    }

    fn close(&mut self, source: u8, time: u64) -> raw::Answer {
        let (slices, buffers) = self.lent();
        lent::close(slices, buffers, &channel(source), time)
    }

    fn keys_at(&self, place: u8) -> &[u64] {
        &self.table.keys[2 * usize::from(place)..][..2]
    }
}

/// The key words of such a channel, as docs/LAYOUT.md has them.
fn key_words(source: u8) -> [u64; 2] {
    [0x0200_0000_0001 * 16 + 3 + 1, 0x0200_0000_0000 + u64::from(source)]
}

fn handle(source: u8, number: u16) -> u32 {
    1_000 * u32::from(source) + u32::from(number)
}

#[test]
fn the_65th_channel_is_refused_by_5() {
    let mut table = Lent::full();
    let before = table.clone();
    let answer = table.data(64, 100, 10);
    assert_eq!(answer.number, Refusal::NoPlace.number());
    assert_eq!(table, before);
}

#[test]
fn after_one_close_the_65th_channel_opens_at_that_place() {
    let closed = 41;
    let mut table = Lent::full();
    assert_eq!(table.close(closed, 101).returned, 1);
    assert_eq!(table.returned[0], handle(closed, 12));
    assert_eq!(table.keys_at(closed), [0, 0]);

    let opened = table.data(64, 101, 10);
    assert_eq!((opened.number, opened.up), (raw::ACCEPTED, 1));
    assert_eq!(table.up[0], handle(64, 10));
    for place in 0..64 {
        let source = if place == closed { 64 } else { place };
        assert_eq!(table.keys_at(place), key_words(source), "place {place}");
    }
}

#[test]
fn after_one_close_and_an_opening_the_others_still_answer() {
    let closed = 41;
    let mut table = Lent::full();
    table.close(closed, 101);
    table.data(64, 101, 10);
    for source in (0..64).filter(|source| *source != closed) {
        let filled = table.data(source, 102, 11);
        assert_eq!((filled.number, filled.up), (raw::ACCEPTED, 2), "source {source}");
        assert_eq!(table.up[..2], [handle(source, 11), handle(source, 12)]);
    }
    // Nothing of the closed channel is left at its place: 12 comes early there, and nothing waits but that.
    let early = table.data(64, 102, 12);
    assert_eq!((early.up, early.nack, table.nack[0]), (0, 1, 11));
    assert_eq!(table.close(closed, 103).number, Refusal::NoChannel.number());
}
