//! The numbers of document 01, 'Numbers the box may answer with'.

use crate::numbered::numbered;
use crate::raw::ACCEPTED;
use std::error::Error;
use std::fmt;

/// Declares the refusals: each with its number and its words, once.
macro_rules! refusals {
    ($($(#[$says:meta])* $case:ident = $number:literal, $words:literal;)+) => {
        numbered! {
            /// Why a call was refused. A refused call has changed and written nothing.
            ///
            /// More numbers may come, so a `match` has to have a case for those that it does not name.
            #[non_exhaustive]
            Refusal { $(#[doc = concat!("Number ", stringify!($number), ":")] $(#[$says])* $case = $number,)+ }
        }

        impl Refusal {
            fn words(self) -> &'static str {
                match self {
                    $(Refusal::$case => $words,)+
                }
            }
        }
    };
}

refusals! {
    /// an answer buffer has fewer than 32 entries, or a slice of the table has not its length.
    Misfit = 1, "a buffer or a slice of the table has the wrong length";
    /// the sequence number is above 4,095.
    NoNumber = 2, "the sequence number is above 4,095";
    /// the priority is above 7.
    NoPriority = 3, "the priority is above 7";
    /// no such channel is open.
    NoChannel = 4, "no such channel is open";
    /// the channel would be new, and no place is free.
    NoPlace = 5, "no place is free for a new channel";
    /// the channel's record is broken: someone else wrote to the slices. Every event of that channel is refused so, its
    /// close too, until its place is zeros in all four slices. To empty the table makes all 64 places so.
    Broken = 6, "the channel's record is broken";
    /// the time is earlier than the channel's latest.
    Early = 7, "the time is earlier than the channel's latest";
    /// the reminder's number is more than 64 from the current one.
    Far = 8, "the reminder's number is more than 64 from the current one";
    /// the frame has fewer than 60 or more than 1,514 octets.
    FrameLength = 10, "the frame has fewer than 60 or more than 1,514 octets";
    /// the Ethertype is not 0x886c.
    Ethertype = 11, "the Ethertype is not 0x886c";
    /// SSType is not 1.
    SsType = 12, "SSType is not 1";
    /// SSLength is below 8, or reaches past the frame's end.
    SsLength = 13, "SSLength is below 8 or reaches past the frame's end";
    /// SSVersion is not 0.
    SsVersion = 14, "SSVersion is not 0";
    /// OpCode is above 2.
    Opcode = 15, "OpCode is above 2";
    /// NumBands is 0.
    NoBand = 16, "NumBands is 0";
    /// SSLength is not 6 + 2 x NumBands + 6 x NumAddr.
    Counts = 17, "SSLength does not agree with NumBands and NumAddr";
    /// band 1's PE is not 1 to 7.
    Band1 = 18, "the PE of band 1 is not 1 to 7";
    /// band 2 is there, and its PE is neither 0 nor 9 to 15.
    Band2 = 19, "the PE of band 2 is neither 0 nor 9 to 15";
    /// a rank is 0, where band 2's counts only if there is a band 2; or both bands have the same.
    Ranks = 20, "a rank is 0, or two ranks are equal";
    /// an extra address is no group address.
    NoGroup = 21, "an extra address is no group address";
    /// Next Ethertype is not 0.
    NextEthertype = 22, "Next Ethertype is not 0";
    /// no frame holds the request. An address is not whole; there is a third band; beside one band, PE and rank of band 2
    /// are not both 0; or SSLength would not be an octet.
    Layout = 23, "a frame cannot hold the request";
    /// the output is too short.
    Output = 24, "the output is too short";
    /// the opcode of a capability frame is above 1.
    CsaOpcode = 30, "the opcode of the capability frame is above 1";
}

impl Refusal {
    /// Accepted, or the refusal of an answer's number.
    pub(crate) fn unless_accepted(number: u8) -> Result<(), Refusal> {
        if number == ACCEPTED {
            return Ok(());
        }
        Err(Refusal::of_number(number).expect("a number that the archive is proved never to give"))
    }
}

impl fmt::Display for Refusal {
    fn fmt(&self, formatter: &mut fmt::Formatter<'_>) -> fmt::Result {
        write!(formatter, "refused by number {}: {}", self.number(), self.words())
    }
}

impl Error for Refusal {}
