//! A table is emptied whatever it held, by `lent::empty` and by `Table::empty`; slices of another length are left alone.

mod common;

use common::{channel, Owned};
use pikurandal::{lent, raw, Refusal, Table};

const LENGTHS: [usize; 4] = [lent::KEYS, lent::WORDS, lent::HANDLES, lent::MARKS];

/// Slices of these lengths, with litter in every element.
fn littered([keys, words, handles, marks]: [usize; 4]) -> Owned {
    Owned {
        keys: (1..).take(keys).collect(),
        words: (1..).take(words).collect(),
        handles: (1..).take(handles).collect(),
        marks: (1..=u8::MAX).cycle().take(marks).collect(),
    }
}

#[test]
fn a_littered_table_becomes_zeros() {
    let mut table = littered(LENGTHS);
    assert_eq!(lent::empty(table.slices()), raw::ACCEPTED);
    assert!(table.keys.iter().all(|&key| key == 0));
    assert!(table.words.iter().all(|&word| word == 0));
    assert!(table.handles.iter().all(|&handle| handle == 0));
    assert!(table.marks.iter().all(|&mark| mark == 0));
}

#[test]
fn a_misfitting_table_is_refused_and_stays() {
    for slice in 0..LENGTHS.len() {
        for length in [0, LENGTHS[slice] - 1, LENGTHS[slice] + 1, 2 * LENGTHS[slice]] {
            let mut lengths = LENGTHS;
            lengths[slice] = length;
            let mut table = littered(lengths);
            assert_eq!(lent::empty(table.slices()), Refusal::Misfit.number(), "{lengths:?}");
            assert_eq!(table, littered(lengths), "{lengths:?}");
        }
    }
}

#[test]
fn a_full_table_takes_new_channels_once_it_is_emptied() -> Result<(), Refusal> {
    let mut table = Table::new();
    for source in 0..64 {
        table.data(&channel(source), 100, 10, source.into())?;
        table.data(&channel(source), 100, 12, source.into())?;
    }
    assert_eq!(table.data(&channel(64), 100, 10, 64), Err(Refusal::NoPlace));
    table.empty();
    for source in 0..64 {
        assert_eq!(table.look(&channel(source)), Err(Refusal::NoChannel));
    }
    // Time may begin anew too, and nothing of the frames that waited comes back.
    let opened = table.data(&channel(64), 5, 11, 64)?;
    assert_eq!((opened.up, opened.returned), (&[64][..], &[][..]));
    assert_eq!(table.close(&channel(64), 5)?.returned, []);
    Ok(())
}
