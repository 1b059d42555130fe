//! The moods of the maker of channel events: each reaches something that single random events would seldom reach.

/// What the maker is about to do for some events.
#[derive(Clone, Copy, Debug, PartialEq, Eq)]
pub enum Mood {
    /// Data in order.
    Run,
    /// Data with small gaps.
    Holes,
    /// Data in order behind a gap that stays, until the window is full.
    Starve,
    /// One event that empties what has been starved.
    Crest,
    /// Data that is missing.
    Fill,
    /// Data that came before.
    Copies,
    /// Data at the edges of the reach, of the window and of the ring.
    Edges,
    /// Reminders near and far.
    Remind,
    /// Gaps, and ticks about 150 after them.
    Ticks,
    /// New channels, past the last free place.
    Crowd,
    /// Closes.
    Leave,
    /// Events for channels that are not open.
    Strangers,
}

/// Each mood: how often it comes, and how many events it lasts, at least and at most.
pub const MOODS: [(u64, (Mood, u64, u64)); 11] = [
    (6, (Mood::Run, 1, 40)),
    (8, (Mood::Holes, 1, 20)),
    (6, (Mood::Starve, 20, 40)),
    (8, (Mood::Fill, 1, 30)),
    (6, (Mood::Copies, 1, 6)),
    (8, (Mood::Edges, 1, 6)),
    (10, (Mood::Remind, 1, 8)),
    (10, (Mood::Ticks, 4, 16)),
    (1, (Mood::Crowd, 10, 80)),
    (2, (Mood::Leave, 1, 50)),
    (4, (Mood::Strangers, 1, 3)),
];
