//! Random lent tables (sound, broken, with doubled keys, of wrong lengths), random buffers and calls, judged by `peer`.

use crate::{all_of, Mismatch};
use peer::answer::{Answer, Number};
use peer::lent::{judge, Lent, Slices};
use peer::make::tables::{self, FreePlaces};
use peer::random::Random;
use peer::receiver::{Act, Buffers, ChannelEvent};
use peer::record::{Cell, Record};
use peer::table::{Key, Table};
use pikurandal::{lent, raw, Channel};

/// A channel event on slices: the implementation that is compared.
pub type Taken<'a> = &'a dyn Fn(lent::Slices<'_>, lent::Buffers<'_>, &ChannelEvent) -> raw::Answer;

/// A look at slices, with the buffers for marks and values: the implementation that is compared. It is lent the slices to
/// be written, so that one that does so can be seen.
pub type Looked<'a> = &'a dyn Fn(lent::Slices<'_>, &Channel, &mut [u8], &mut [u64]) -> raw::View;

/// The archive's channel events, through the binding.
pub fn archive(slices: lent::Slices<'_>, buffers: lent::Buffers<'_>, event: &ChannelEvent) -> raw::Answer {
    let channel = channel_of(&event.key);
    match event.act {
        Act::Data(number, handle) => lent::data(slices, buffers, &channel, event.time, number, handle),
        Act::Reminder(number) => lent::reminder(slices, buffers, &channel, event.time, number),
        Act::Tick => lent::tick(slices, buffers, &channel, event.time),
        Act::Close => lent::close(slices, buffers, &channel, event.time),
    }
}

/// The archive's look, through the binding.
pub fn archive_look(slices: lent::Slices<'_>, channel: &Channel, waits: &mut [u8], values: &mut [u64]) -> raw::View {
    let shown = lent::Shown {
        keys: slices.keys,
        words: slices.words,
        handles: slices.handles,
        marks: slices.marks,
    };
    lent::look(shown, channel, waits, values)
}

/// The binding's channel of a key.
pub fn channel_of(key: &Key) -> Channel {
    Channel {
        destination: key.destination,
        source: key.source,
        priority: key.priority,
    }
}

/// A table's slices, lent for a call.
fn slices_of(table: &mut Lent) -> lent::Slices<'_> {
    lent::Slices {
        keys: &mut table.keys,
        words: &mut table.words,
        handles: &mut table.handles,
        marks: &mut table.marks,
    }
}

/// The three answer buffers, just as long as a call says, so that whoever watches memory sees each step past their end.
#[derive(Clone, Debug, PartialEq, Eq)]
struct Owned {
    up: Vec<u32>,
    returned: Vec<u32>,
    nack: Vec<u16>,
}

impl Owned {
    fn of_litter(random: &mut Random, lengths: Buffers) -> Owned {
        Owned {
            up: (0..lengths.up).map(|_| random.word() as u32).collect(),
            returned: (0..lengths.returned).map(|_| random.word() as u32).collect(),
            nack: (0..lengths.nack).map(|_| random.word() as u16).collect(),
        }
    }
}

/// Makes tables of this seed and calls on each, until there were so many calls. Gives the number that were compared.
pub fn compare(taken: Taken<'_>, seed: u64, calls: u64, progress: impl FnMut(u64)) -> Result<u64, Mismatch> {
    on_random_tables(seed, calls, progress, |random, table| one_call(taken, random, table))
}

/// Makes tables of this seed and looks at channels of each, until there were so many looks. Gives the number that were
/// compared.
pub fn compare_looks(looked: Looked<'_>, seed: u64, looks: u64, progress: impl FnMut(u64)) -> Result<u64, Mismatch> {
    on_random_tables(seed, looks, progress, |random, table| one_look(looked, random, table))
}

fn on_random_tables(
    seed: u64,
    calls: u64,
    mut progress: impl FnMut(u64),
    call: impl Fn(&mut Random, &mut Lent) -> Result<(), String>,
) -> Result<u64, Mismatch> {
    let mut random = Random::from_seed(seed);
    let mut index = 0;
    while index < calls {
        let free_places = random.pick(&[FreePlaces::Zeros, FreePlaces::Littered]);
        let mut table = tables::table(&mut random, free_places);
        if random.once_in(40) {
            tables::misfit(&mut random, &mut table);
        }
        let on_this_table = random.between(1, 64).min(calls - index);
        for _ in 0..on_this_table {
            call(&mut random, &mut table).map_err(|account| Mismatch { seed, index, account })?;
            index += 1;
        }
        progress(index);
    }
    all_of(seed, calls, index)
}

fn one_call(taken: Taken<'_>, random: &mut Random, table: &mut Lent) -> Result<(), String> {
    let (lengths, event) = tables::call(random, &table.slices());
    judged(taken, random, table, (lengths, &event))
}

/// One call with buffers of these lengths that hold random litter before it, judged by `peer`.
pub fn judged(
    taken: Taken<'_>,
    random: &mut Random,
    table: &mut Lent,
    (lengths, event): (Buffers, &ChannelEvent),
) -> Result<(), String> {
    let before = table.clone();
    let had = Owned::of_litter(random, lengths);
    let mut has = had.clone();
    let buffers = lent::Buffers {
        up: &mut has.up,
        returned: &mut has.returned,
        nack: &mut has.nack,
    };
    let counts = taken(slices_of(table), buffers, event);
    let asked = format!("{event:?} with {lengths:?} is answered {counts:?}");
    let answer = answer_of(&counts, &has).ok_or_else(|| format!("{asked}: a count is above its buffer's length"))?;
    judge(&before.slices(), (lengths, event), &answer, &table.slices())
        .map_err(|complaint| format!("{asked}, {answer:?}; peer: {complaint:?}"))?;
    rest_is_untouched(&counts, &had, &has).map_err(|buffer| format!("{asked}: {buffer} is written past its count"))?;
    match other_change(&before.slices(), &event.key, &table.slices()) {
        None => Ok(()),
        Some(place) => Err(format!(
            "{asked}: place {place} changed, which the call does not address"
        )),
    }
}

/// A look with buffers of any length.
fn one_look(looked: Looked<'_>, random: &mut Random, table: &mut Lent) -> Result<(), String> {
    let (lengths, event) = tables::call(random, &table.slices());
    let had_waits: Vec<u8> = (0..lengths.up).map(|_| random.octet()).collect();
    let had_values: Vec<u64> = (0..lengths.returned).map(|_| random.word()).collect();
    let before = table.clone();
    let record = record_shown(&before.slices(), lengths, &event.key);
    let cells = record.as_ref().map_or([].as_slice(), |record| &record.cells);
    let expected = (
        record.as_ref().map_or_else(|number| refused_view(*number), view_of),
        [&cells.iter().map(mark).collect::<Vec<u8>>(), &had_waits[cells.len()..]].concat(),
        [
            &cells.iter().map(value).collect::<Vec<u64>>(),
            &had_values[cells.len()..],
        ]
        .concat(),
    );
    let (mut waits, mut values) = (had_waits, had_values);
    let view = looked(slices_of(table), &channel_of(&event.key), &mut waits, &mut values);
    let given = (view, waits, values);
    let asked = || format!("a look at {:?} with {lengths:?}", event.key);
    if *table != before {
        return Err(format!("{} changes the table", asked()));
    }
    if given != expected {
        return Err(format!("{} shows {given:?}; peer: {expected:?}", asked()));
    }
    Ok(())
}

/// The record that a look shows. `peer` has no number 1 for a look: it is given where a slice or a buffer does not fit.
fn record_shown(slices: &Slices<'_>, lengths: Buffers, key: &Key) -> Result<Record, Number> {
    let room = lengths.up >= Buffers::ENTRIES && lengths.returned >= Buffers::ENTRIES;
    match Table::from_slices(slices) {
        Some(table) if room => table.look(key).cloned(),
        _ => Err(1),
    }
}

fn view_of(record: &Record) -> raw::View {
    raw::View {
        number: 0,
        current: record.current as u16,
        oldest: record.oldest as u16,
        latest: record.latest,
        span: record.cells.len(),
    }
}

fn refused_view(number: u8) -> raw::View {
    raw::View {
        number,
        ..raw::View::default()
    }
}

fn mark(cell: &Cell) -> u8 {
    matches!(cell, Cell::Waits(_)).into()
}

fn value(cell: &Cell) -> u64 {
    match cell {
        Cell::Waits(handle) => (*handle).into(),
        Cell::Missing(since) => *since,
    }
}

fn answer_of(counts: &raw::Answer, buffers: &Owned) -> Option<Answer> {
    Some(Answer {
        number: counts.number,
        up: buffers.up.get(..counts.up)?.to_vec(),
        returned: buffers.returned.get(..counts.returned)?.to_vec(),
        nack: buffers
            .nack
            .get(..counts.nack)?
            .iter()
            .map(|&number| number.into())
            .collect(),
        lost: counts.lost as u64,
    })
}

fn rest_is_untouched(counts: &raw::Answer, had: &Owned, has: &Owned) -> Result<(), &'static str> {
    if had.up[counts.up..] != has.up[counts.up..] {
        return Err("the buffer of handles handed up");
    }
    if had.returned[counts.returned..] != has.returned[counts.returned..] {
        return Err("the buffer of handles returned");
    }
    if had.nack[counts.nack..] != has.nack[counts.nack..] {
        return Err("the buffer of numbers to be asked for");
    }
    Ok(())
}

/// The first place that changed though the call does not address it: every other place keeps its very words. A call
/// addresses the place of its channel, or else the first free one, where it may open it.
fn other_change(before: &Slices<'_>, key: &Key, after: &Slices<'_>) -> Option<usize> {
    let table = Table::from_slices(before);
    let addressed = table.and_then(|table| table.channel_of(key).or_else(|| table.first_free()));
    let changed = |place: &usize| {
        part(before.keys, *place) != part(after.keys, *place)
            || part(before.words, *place) != part(after.words, *place)
            || part(before.handles, *place) != part(after.handles, *place)
            || part(before.marks, *place) != part(after.marks, *place)
    };
    (0..lent::PLACES)
        .filter(|place| Some(*place) != addressed)
        .find(changed)
}

/// What a place has of a slice.
fn part<T>(slice: &[T], place: usize) -> &[T] {
    let size = slice.len() / lent::PLACES;
    &slice[size * place..][..size]
}
