//! What a channel event is answered with (document 01, 'The four channel events'), and refusals in their order
//! (document 01, 'Numbers the box may answer with').

/// A number of document 01's tables: 0 is accepted, any other a refusal.
pub type Number = u8;

/// The answer to a channel event.
#[derive(Clone, Debug, Default, PartialEq, Eq)]
pub struct Answer {
    /// 0, or the refusal.
    pub number: Number,
    /// Handles handed up, in sequence order.
    pub up: Vec<u32>,
    /// Handles returned, in sequence order.
    pub returned: Vec<u32>,
    /// Numbers to be asked for again, rising from the oldest.
    pub nack: Vec<u64>,
    /// How many numbers were given up as lost in this call.
    pub lost: u64,
}

impl Answer {
    /// A refusal: its number, with all counts 0.
    pub fn refused(number: Number) -> Answer {
        Answer {
            number,
            ..Answer::default()
        }
    }
}

/// One row of a table of refusals: its number, where its condition applies.
pub fn refuse(number: Number, applies: bool) -> Result<(), Number> {
    if applies {
        Err(number)
    } else {
        Ok(())
    }
}
