//! What several tests of the lent table share.

use pikurandal::{lent, Channel};

/// A table's slices, so that a test can look at them.
#[derive(Clone, Debug, PartialEq, Eq)]
pub struct Owned {
    pub keys: Vec<u64>,
    pub words: Vec<u64>,
    pub handles: Vec<u32>,
    pub marks: Vec<u8>,
}

impl Owned {
    pub fn slices(&mut self) -> lent::Slices<'_> {
        lent::Slices {
            keys: &mut self.keys,
            words: &mut self.words,
            handles: &mut self.handles,
            marks: &mut self.marks,
        }
    }
}

pub fn channel(source: u8) -> Channel {
    Channel {
        destination: [2, 0, 0, 0, 0, 1],
        source: [2, 0, 0, 0, 0, source],
        priority: 3,
    }
}
