//! The receiver over the lent table (document 01, 'The channel table', 'The four channel events', 'Numbers the box may
//! answer with').
//!
//! An answer is 40 octets with a gap after the number: functions that return one are inlined, so that it is laid down once.

use pikurandal::lent::{BUFFER, HANDLES, KEYS, MARKS, PLACES, WORDS};
use pikurandal::raw::Answer;
use std::slice::from_raw_parts_mut;

const SLOTS: usize = 32;
const PLACE_WORDS: usize = 3 + SLOTS;
const RING: u16 = 4_096;
const REACH: u16 = 64;
const WINDOW: u16 = 32;
const PATIENCE: u64 = 150;

/// What a call is lent besides the keys, once the lengths are known to be right.
struct Lent<'a> {
    words: &'a mut [u64; WORDS],
    handles: &'a mut [u32; HANDLES],
    marks: &'a mut [u8; MARKS],
    up: &'a mut [u32],
    returned: &'a mut [u32],
    nack: &'a mut [u16],
}

type Keys = [u64; KEYS];

/// One place, with the answer buffers.
struct Place<'a> {
    words: &'a mut [u64; PLACE_WORDS],
    handles: &'a mut [u32; SLOTS],
    marks: &'a mut [u8; SLOTS],
    up: &'a mut [u32],
    returned: &'a mut [u32],
    nack: &'a mut [u16],
}

/// The channel that a call is for.
struct Key<'a> {
    destination: &'a [u8; 6],
    source: &'a [u8; 6],
    priority: u8,
}

type Refusable = Result<Answer, u8>;

fn slot(number: u16) -> usize {
    usize::from(number) % SLOTS
}

fn forward(number: u16, steps: u16) -> u16 {
    (number + steps) % RING
}

/// How many steps forward lead from one number to another.
fn steps(from: u16, to: u16) -> u16 {
    to.wrapping_sub(from) % RING
}

/// An address as a number. The last four octets are one load and the first two another.
fn address(octets: &[u8; 6]) -> u64 {
    let [a, b, c, d, e, f] = *octets;
    let two = u16::from_be_bytes([a, b]);
    let four = u32::from_be_bytes([c, d, e, f]);
    u64::from(two) << 32 | u64::from(four)
}

impl Key<'_> {
    /// Its words in the table, with number 3.
    fn words(&self) -> Result<[u64; 2], u8> {
        if self.priority > 7 {
            return Err(3);
        }
        Ok([
            address(self.destination) * 16 + u64::from(self.priority) + 1,
            address(self.source),
        ])
    }
}

fn part<T, const SIZE: usize>(slice: &mut [T], place: usize) -> &mut [T; SIZE] {
    let part = &mut slice[SIZE * place..][..SIZE];
    part.try_into().expect("a part of that size")
}

/// The first place with this key. The source is tested first, as in the archive: it is what most channels of a table
/// differ in.
fn find(keys: &Keys, [first, second]: [u64; 2]) -> Option<usize> {
    keys.chunks_exact(2)
        .position(|stored| stored[1] == second && stored[0] == first)
}

#[inline(always)]
fn data(keys: &mut Keys, lent: Lent<'_>, key: Key<'_>, time: u64, number: u16, handle: u32) -> Refusable {
    if number >= RING {
        return Err(2);
    }
    let words = key.words()?;
    let place = match find(keys, words) {
        Some(place) => lent.place(place),
        None => return open(keys, lent, words, time, number, handle),
    };
    place.judge(time)?;
    let d = steps(place.current(), number);
    Ok(if d == 1 && place.span() == 0 {
        place.hand_up(number, handle, time)
    } else if (1..=REACH).contains(&d) {
        place.ahead(d, Some(handle), time)
    } else if d == 0 || d >= RING - REACH {
        place.behind(number, handle, time)
    } else {
        place.restart(number, handle, time)
    })
}

#[inline(always)]
fn open(keys: &mut Keys, lent: Lent<'_>, words: [u64; 2], time: u64, number: u16, handle: u32) -> Refusable {
    let index = (0..PLACES).find(|place| keys[2 * place] == 0).ok_or(5_u8)?;
    *part(keys, index) = words;
    Ok(lent.place(index).hand_up(number, handle, time))
}

#[inline(always)]
fn reminder(keys: &Keys, lent: Lent<'_>, key: Key<'_>, time: u64, number: u16) -> Refusable {
    if number >= RING {
        return Err(2);
    }
    let place = lent.place(find(keys, key.words()?).ok_or(4_u8)?);
    place.judge(time)?;
    let d = steps(place.current(), number);
    if (1..=REACH).contains(&d) {
        Ok(place.ahead(d, None, time))
    } else if d == 0 || d >= RING - REACH {
        place.words[2] = time;
        Ok(Answer::default())
    } else {
        Err(8)
    }
}

#[inline(always)]
fn tick(keys: &Keys, lent: Lent<'_>, key: Key<'_>, time: u64) -> Refusable {
    let place = lent.place(find(keys, key.words()?).ok_or(4_u8)?);
    place.judge(time)?;
    let mut answer = Answer::default();
    let mut oldest = place.oldest();
    for _ in 0..place.span() {
        let slot = slot(oldest);
        if place.marks[slot] != 0 {
            place.up[answer.up] = place.handles[slot];
            answer.up += 1;
        } else if time - place.words[3 + slot] >= PATIENCE {
            answer.lost += 1;
        } else {
            break;
        }
        oldest = forward(oldest, 1);
    }
    place.words[1] = oldest.into();
    place.words[2] = time;
    Ok(answer)
}

#[inline(always)]
fn close(keys: &mut Keys, lent: Lent<'_>, key: Key<'_>, time: u64) -> Refusable {
    let index = find(keys, key.words()?).ok_or(4_u8)?;
    let place = lent.place(index);
    place.judge(time)?;
    let returned = waiting(place.handles, place.marks, place.oldest(), place.span(), place.returned);
    *part(keys, index) = [0; 2];
    *place.words = [0; PLACE_WORDS];
    *place.handles = [0; SLOTS];
    *place.marks = [0; SLOTS];
    Ok(Answer {
        returned,
        ..Answer::default()
    })
}

impl<'a> Lent<'a> {
    #[inline(always)]
    fn place(self, place: usize) -> Place<'a> {
        Place {
            words: part(self.words, place),
            handles: part(self.handles, place),
            marks: part(self.marks, place),
            up: self.up,
            returned: self.returned,
            nack: self.nack,
        }
    }
}

/// Lays the waiting handles among `count` numbers from `from` on into a buffer: how many they are.
#[inline(always)]
fn waiting(handles: &[u32; SLOTS], marks: &[u8; SLOTS], from: u16, count: u16, buffer: &mut [u32]) -> usize {
    let mut laid = 0;
    for number in from..from + count {
        let slot = slot(number);
        if marks[slot] != 0 {
            buffer[laid] = handles[slot];
            laid += 1;
        }
    }
    laid
}

impl Place<'_> {
    fn current(&self) -> u16 {
        self.words[0] as u16
    }

    fn oldest(&self) -> u16 {
        self.words[1] as u16
    }

    fn span(&self) -> u16 {
        steps(self.oldest(), self.current() + 1)
    }

    fn is_broken(&self) -> bool {
        if self.words[0] >= RING.into() || self.words[1] >= RING.into() {
            return true;
        }
        let (oldest, span) = (self.oldest(), self.span());
        if span > WINDOW || (span > 0 && self.marks[slot(oldest)] != 0) {
            return true;
        }
        let mut before = 0;
        for number in oldest..oldest + span {
            let slot = slot(number);
            if self.marks[slot] == 0 {
                let since = self.words[3 + slot];
                if since < before {
                    return true;
                }
                before = since;
            }
        }
        before > self.words[2]
    }

    /// Numbers 6 and 7.
    #[inline(always)]
    fn judge(&self, time: u64) -> Result<(), u8> {
        if self.is_broken() {
            Err(6)
        } else if time < self.words[2] {
            Err(7)
        } else {
            Ok(())
        }
    }

    /// Nothing is missing up to this number, which goes up at once.
    #[inline(always)]
    fn hand_up(self, number: u16, handle: u32, time: u64) -> Answer {
        self.words[..3].copy_from_slice(&[number.into(), forward(number, 1).into(), time]);
        self.up[0] = handle;
        Answer {
            up: 1,
            ..Answer::default()
        }
    }

    /// d numbers come after C: all of them missing, or all but the last, which waits. What no longer fits the window is
    /// passed first.
    #[inline(always)]
    fn ahead(self, d: u16, handle: Option<u32>, time: u64) -> Answer {
        let (current, oldest, span) = (self.current(), self.oldest(), self.span());
        let over = (span + d).saturating_sub(WINDOW);
        let old = over.min(span);
        let up = waiting(self.handles, self.marks, oldest, old, self.up);
        let missing = if handle.is_some() { d - 1 } else { d };
        let mut nack = 0;
        for step in over - old + 1..=missing {
            let number = forward(current, step);
            self.words[3 + slot(number)] = time;
            self.marks[slot(number)] = 0;
            self.nack[nack] = number;
            nack += 1;
        }
        let current = forward(current, d);
        if let Some(handle) = handle {
            self.handles[slot(current)] = handle;
            self.marks[slot(current)] = 1;
        }
        self.words[0] = current.into();
        self.words[1] = forward(oldest, over).into();
        self.words[2] = time;
        let lost = usize::from(over) - up;
        Answer {
            nack,
            lost,
            ..self.settle(up)
        }
    }

    /// A number from C - 64 to C: it fills a gap, or it is here already.
    #[inline(always)]
    fn behind(self, number: u16, handle: u32, time: u64) -> Answer {
        let slot = slot(number);
        self.words[2] = time;
        if steps(self.oldest(), number) >= self.span() || self.marks[slot] != 0 {
            self.returned[0] = handle;
            return Answer {
                returned: 1,
                ..Answer::default()
            };
        }
        self.handles[slot] = handle;
        self.marks[slot] = 1;
        self.settle(0)
    }

    #[inline(always)]
    fn restart(self, number: u16, handle: u32, time: u64) -> Answer {
        let returned = waiting(self.handles, self.marks, self.oldest(), self.span(), self.returned);
        Answer {
            returned,
            ..self.hand_up(number, handle, time)
        }
    }

    /// M moves on while it waits, and goes up.
    #[inline(always)]
    fn settle(self, mut up: usize) -> Answer {
        let mut oldest = self.oldest();
        for _ in 0..self.span() {
            let slot = slot(oldest);
            if self.marks[slot] == 0 {
                break;
            }
            self.up[up] = self.handles[slot];
            up += 1;
            oldest = forward(oldest, 1);
        }
        self.words[1] = oldest.into();
        Answer {
            up,
            ..Answer::default()
        }
    }
}

/// The functions of the C interface, with number 1.
pub mod exported {
    use super::*;

    macro_rules! exported {
        ($name:ident, $pointer:ty, ($($borrow:tt)+) $(, $own:ident: $type:ty)*) => {
            /// As the archive's function of that name.
            ///
            /// # Safety
            ///
            /// What `include/pikurandal.h` asks of the host.
            pub unsafe extern "C" fn $name(
                keys: $pointer,
                keys_length: usize,
                words: *mut u64,
                words_length: usize,
                handles: *mut u32,
                handles_length: usize,
                marks: *mut u8,
                marks_length: usize,
                up: *mut u32,
                up_length: usize,
                returned: *mut u32,
                returned_length: usize,
                nack: *mut u16,
                nack_length: usize,
                destination: *const [u8; 6],
                source: *const [u8; 6],
                priority: u8,
                time: u64,
                $($own: $type),*
            ) -> Answer {
                let table = (keys_length, words_length, handles_length, marks_length);
                if up_length < BUFFER || returned_length < BUFFER || nack_length < BUFFER {
                    return refused(1);
                }
                if table != (KEYS, WORDS, HANDLES, MARKS) {
                    return refused(1);
                }
                // SAFETY: the lengths were just seen to be a table's and the buffers', and the host owes that each
                // pointer leads to so many elements, aligned, and that what is written overlaps nothing else; an address
                // has six octets.
                let (keys, lent, key) = unsafe {
                    let lent = Lent {
                        words: &mut *words.cast(),
                        handles: &mut *handles.cast(),
                        marks: &mut *marks.cast(),
                        up: from_raw_parts_mut(up, up_length),
                        returned: from_raw_parts_mut(returned, returned_length),
                        nack: from_raw_parts_mut(nack, nack_length),
                    };
                    let (destination, source) = (&*destination, &*source);
                    ($($borrow)+ keys.cast::<Keys>(), lent, Key { destination, source, priority })
                };
                super::$name(keys, lent, key, time, $($own),*).unwrap_or_else(refused)
            }
        };
    }

    fn refused(number: u8) -> Answer {
        Answer {
            number,
            ..Answer::default()
        }
    }

    exported!(data, *mut u64, (&mut *), number: u16, handle: u32);
    exported!(reminder, *const u64, (&*), number: u16);
    exported!(tick, *const u64, (&*));
    exported!(close, *mut u64, (&mut *));
}
