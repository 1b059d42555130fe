//! Looks at lent tables.

use crate::{assert_told, free_place, lent_again, LATEST, SEED, SLOTS, TRIED, WORDS};
use compare::lent::{archive_look, compare_looks};
use pikurandal::lent::Slices;
use pikurandal::raw::View;
use pikurandal::Channel;

/// A look after the archive has done it: the slices, both buffers, and what it shows.
struct Done<'a> {
    slices: Slices<'a>,
    waits: &'a mut [u8],
    values: &'a mut [u64],
    view: View,
}

/// A wrong implementation: what it does wrong after the archive's own look.
type Slip = fn(&mut Done<'_>);

const SLIPS: [(&str, &str, Slip); 11] = [
    ("a wrong number", "shows", |done| {
        if done.view.number == 4 {
            done.view.number = 3;
        }
    }),
    ("a wrong current number", "shows", |done| done.view.current ^= 1),
    ("a refusal that shows a time", "shows", |done| {
        done.view.latest += u64::from(done.view.number != 0);
    }),
    ("a span of one less", "shows", |done| {
        done.view.span = done.view.span.saturating_sub(1)
    }),
    ("a mark of 2", "shows", |done| {
        let waiting = done.waits.iter_mut().take(done.view.span).find(|mark| **mark == 1);
        waiting.into_iter().for_each(|mark| *mark = 2);
    }),
    ("a wrong value", "shows", |done| {
        if done.view.span > 0 {
            done.values[done.view.span - 1] ^= 1;
        }
    }),
    ("marks past the span", "shows", |done| {
        done.waits
            .get_mut(done.view.span)
            .into_iter()
            .for_each(|mark| *mark ^= 1);
    }),
    ("values past the span", "shows", |done| {
        done.values
            .last_mut()
            .into_iter()
            .take(usize::from(done.view.span < SLOTS))
            .for_each(|value| *value ^= 1);
    }),
    ("a free place that is scribbled in", "changes the table", |done| {
        let free = free_place(&done.slices).and_then(|place| done.slices.words.get_mut(place * WORDS + WORDS - 1));
        free.into_iter().for_each(|word| *word ^= 1);
    }),
    (
        "an open place that is scribbled in, where it means nothing",
        "changes the table",
        |done| {
            let slot = done.slices.marks.iter().position(|mark| *mark == 0);
            slot.into_iter().for_each(|slot| done.slices.handles[slot] ^= 1);
        },
    ),
    (
        "a time that is written, and shown as it is then",
        "changes the table",
        |done| {
            let shown = done
                .slices
                .words
                .chunks_mut(WORDS)
                .find(|words| words[LATEST] == done.view.latest);
            if let (0, Some(words)) = (done.view.number, shown) {
                words[LATEST] += 1;
                done.view.latest += 1;
            }
        },
    ),
];

#[test]
fn a_wrong_look_is_told() {
    for (name, told, slip) in SLIPS {
        let wrong = |mut slices: Slices<'_>, channel: &Channel, waits: &mut [u8], values: &mut [u64]| {
            let view = archive_look(lent_again(&mut slices), channel, waits, values);
            let mut done = Done {
                slices,
                waits,
                values,
                view,
            };
            slip(&mut done);
            done.view
        };
        assert_told(name, told, compare_looks(&wrong, SEED, TRIED, |_| ()));
    }
}

#[test]
fn the_archives_looks_are_alike() {
    assert_eq!(compare_looks(&archive_look, SEED, TRIED, |_| ()).ok(), Some(TRIED));
}

#[test]
fn no_looks_are_no_agreement() {
    assert_told(
        "no looks",
        "0 were compared, of 0",
        compare_looks(&archive_look, SEED, 0, |_| ()),
    );
}
