//! Channel events on lent tables.

use crate::{assert_told, free_place, lent_again, KEY, LATEST, SEED, SLOTS, TRIED, WORDS};
use compare::lent::{archive, compare};
use peer::receiver::{Act, ChannelEvent};
use pikurandal::lent::{Buffers, Slices};
use pikurandal::raw::Answer;

/// A call after the archive has done it: what was lent for it, the event, and the counts.
struct Done<'a> {
    slices: Slices<'a>,
    buffers: Buffers<'a>,
    event: &'a ChannelEvent,
    counts: Answer,
}

impl Done<'_> {
    fn accepted(&self) -> bool {
        self.counts.number == 0
    }

    /// The first slot with no mark at an open place of another source, and so of another channel, if the call was accepted.
    fn unmarked_slot_elsewhere(&self) -> Option<usize> {
        let source = self
            .event
            .key
            .source
            .iter()
            .fold(0, |number, &octet| number * 256 + u64::from(octet));
        let elsewhere = |slot: &usize| {
            let key = &self.slices.keys[slot / SLOTS * KEY..][..KEY];
            key[0] != 0 && key[1] != source && self.slices.marks[*slot] == 0
        };
        (0..self.slices.marks.len()).find(|slot| self.accepted() && elsewhere(slot))
    }
}

fn change(entry: Option<&mut u32>) {
    if let Some(entry) = entry {
        *entry ^= 1;
    }
}

/// A wrong implementation: what it does wrong after the archive's own call.
type Slip = fn(&mut Done<'_>);

const SLIPS: [(&str, &str, Slip); 17] = [
    ("a wrong number", "peer: Answer(", |done| {
        if done.counts.number == 7 {
            done.counts.number = 6;
        }
    }),
    ("a refusal told as accepted", "peer: Answer(", |done| {
        done.counts.number = 0
    }),
    ("a wrong handle", "peer: Answer(", |done| {
        if done.counts.up > 0 {
            done.buffers.up[0] ^= 1;
        }
    }),
    ("a handle less", "peer: Answer(", |done| {
        done.counts.returned = done.counts.returned.saturating_sub(1)
    }),
    ("a wrong number asked for", "peer: Answer(", |done| {
        if done.counts.nack > 0 {
            done.buffers.nack[0] += 1;
        }
    }),
    ("one lost more", "peer: Answer(", |done| {
        done.counts.lost += usize::from(done.accepted())
    }),
    ("up, past its count", "handed up is written past its count", |done| {
        change(done.buffers.up.get_mut(done.counts.up));
    }),
    (
        "returned, past its count",
        "returned is written past its count",
        |done| {
            change(done.buffers.returned.get_mut(done.counts.returned));
        },
    ),
    ("nack, past its count", "asked for is written past its count", |done| {
        if let Some(entry) = done.buffers.nack.get_mut(done.counts.nack) {
            *entry ^= 1;
        }
    }),
    (
        "the last entry of a buffer",
        "handed up is written past its count",
        |done| {
            if done.counts.up < done.buffers.up.len() {
                change(done.buffers.up.last_mut());
            }
        },
    ),
    ("a refusal that writes", "handed up is written past its count", |done| {
        if !done.accepted() {
            change(done.buffers.up.first_mut());
        }
    }),
    (
        "a count above the length",
        "a count is above its buffer's length",
        |done| {
            done.counts.nack = done.buffers.nack.len() + 1;
        },
    ),
    ("touched when refused", "peer: Touched", |done| {
        if !done.accepted() {
            change(done.slices.handles.last_mut());
        }
    }),
    ("a second place, where it means something", "peer: Place(", |done| {
        if let Some(slot) = done.unmarked_slot_elsewhere() {
            done.slices.words[slot / SLOTS * WORDS + LATEST] ^= 1;
        }
    }),
    (
        "a second place, where it means nothing",
        "which the call does not address",
        |done| {
            if let Some(slot) = done.unmarked_slot_elsewhere() {
                done.slices.handles[slot] ^= 1;
            }
        },
    ),
    ("a free place that is scribbled in", "peer: Place(", |done| {
        if let (true, Some(place)) = (done.accepted(), free_place(&done.slices)) {
            done.slices.words[place * WORDS + WORDS - 1] ^= 1;
        }
    }),
    ("a handle left in a freed place", "peer: Place(", |done| {
        let closed = done.accepted() && done.event.act == Act::Close;
        if let (true, Some(place)) = (closed, free_place(&done.slices)) {
            done.slices.handles[place * SLOTS] = 7;
        }
    }),
];

#[test]
fn a_wrong_call_is_told() {
    for (name, told, slip) in SLIPS {
        let wrong = |mut slices: Slices<'_>, buffers: Buffers<'_>, event: &ChannelEvent| {
            let (up, returned, nack) = (&mut *buffers.up, &mut *buffers.returned, &mut *buffers.nack);
            let counts = archive(lent_again(&mut slices), Buffers { up, returned, nack }, event);
            let mut done = Done {
                slices,
                buffers,
                event,
                counts,
            };
            slip(&mut done);
            done.counts
        };
        assert_told(name, told, compare(&wrong, SEED, TRIED, |_| ()));
    }
}

#[test]
fn the_archives_calls_are_alike() {
    assert_eq!(compare(&archive, SEED, TRIED, |_| ()).ok(), Some(TRIED));
}

#[test]
fn no_calls_are_no_agreement() {
    assert_told("no calls", "0 were compared, of 0", compare(&archive, SEED, 0, |_| ()));
}
