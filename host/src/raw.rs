//! The archive's functions as they are; `include/pikurandal.h` says what each does and what its caller owes.
//!
//! A struct or a function stands here once. What it is for Rust and how C declares it ([`structs`], [`functions`]) are made
//! of the same line, and a test holds the header to the latter.

use crate::c::{self, Type};

/// The number of an answer that is no refusal.
pub const ACCEPTED: u8 = 0;

/// Declares structs of the C interface, each by its name in C and its name here.
macro_rules! structs {
    ($($(#[$says:meta])* $c_name:ident: $name:ident { $($(#[$field_says:meta])* $field:ident: $type:ty,)+ })+) => {
        $(
            $(#[$says])*
            #[repr(C)]
            #[derive(Clone, Copy, Debug, Default, PartialEq, Eq)]
            pub struct $name {
                $($(#[$field_says])* pub $field: $type,)+
            }

            impl Type for $name {
                fn name() -> String {
                    concat!("struct ", stringify!($c_name)).to_string()
                }

                fn zeros() -> String {
                    format!("{{{}}}", [$(<$type>::zeros()),+].join(", "))
                }
            }

            impl $name {
                fn as_c_declares_it() -> c::Struct {
                    let whole = $name::default();
                    let start = std::ptr::addr_of!(whole) as usize;
                    c::Struct {
                        name: $name::name(),
                        size: std::mem::size_of::<$name>(),
                        zeros: $name::zeros(),
                        fields: vec![$(c::Field::new(
                            stringify!($field),
                            std::ptr::addr_of!(whole.$field) as usize - start,
                            &whole.$field,
                        )),+],
                    }
                }
            }
        )+

        /// Each struct as C declares it.
        #[doc(hidden)]
        pub fn structs() -> Vec<c::Struct> {
            vec![$($name::as_c_declares_it()),+]
        }
    };
}

structs! {
    /// The answer to a channel event: the number, the count of entries written in each buffer, and how many numbers were
    /// given up as lost.
    pik_answer: Answer {
        /// 0, or the refusal.
        number: u8,
        /// Handles handed up.
        up: usize,
        /// Handles returned.
        returned: usize,
        /// Numbers to be asked for again.
        nack: usize,
        /// Numbers given up as lost in this call.
        lost: usize,
    }

    /// The six sets of a station.
    pik_station: Station {
        /// The default set.
        default_set: u32,
        /// NewTx.
        new_tx: u32,
        /// PreviousTx.
        previous_tx: u32,
        /// OldestTx.
        oldest_tx: u32,
        /// NewRx.
        new_rx: u32,
        /// PreviousRx.
        previous_rx: u32,
    }

    /// The sets that a capability frame carries.
    pik_frame: Frame {
        /// OldestTx of its sender.
        oldest_tx: u32,
        /// CurrentTx of its sender.
        current_tx: u32,
        /// CurrentRx of its sender.
        current_rx: u32,
    }

    /// The answer to a station's event.
    pik_station_answer: StationAnswer {
        /// 0, or the refusal.
        number: u8,
        /// Whether a frame is to be sent now.
        sends: bool,
        /// The retransmit timer's order: 0 kept, 1 started, 2 cancelled.
        timer: u8,
        /// Flags that are really new.
        reported: u32,
        /// The station after the event.
        station: Station,
        /// The sets that a frame sent after the event carries.
        frame: Frame,
    }

    /// The fixed fields of a rate request.
    pik_request: Request {
        /// The destination address.
        destination: [u8; 6],
        /// The source address.
        source: [u8; 6],
        /// The OpCode, 0 to 2.
        opcode: u8,
        /// NumBands.
        bands: u8,
        /// The PE of band 1.
        pe1: u8,
        /// The rank of band 1.
        rank1: u8,
        /// The PE of band 2, 0 where it is not there.
        pe2: u8,
        /// The rank of band 2, 0 where it is not there.
        rank2: u8,
    }

    /// A frame that was read. Its addresses are `extent` octets of the frame, from octet `start` on.
    pik_reading: Reading {
        /// 0, or the refusal.
        number: u8,
        /// How many addresses there are.
        addresses: u8,
        /// The fixed fields.
        request: Request,
        /// Where the addresses start.
        start: usize,
        /// How many octets they take.
        extent: usize,
    }

    /// A request that was written.
    pik_written: Written {
        /// 0, or the refusal.
        number: u8,
        /// How many octets were written.
        count: usize,
    }

    /// What a look at a channel shows: its current number, its oldest missing number, the latest time, and how many numbers
    /// there are from the oldest missing to the current one.
    pik_view: View {
        /// 0, or the refusal.
        number: u8,
        /// The current number.
        current: u16,
        /// The oldest missing number.
        oldest: u16,
        /// The latest time taken.
        latest: u64,
        /// How many entries were written in each buffer.
        span: usize,
    }
}

/// Declares the archive's functions, each with a name for its type.
macro_rules! functions {
    ($($(#[$says:meta])* $type:ident: $name:ident($($word:ident: $of:ty),* $(,)?) -> $result:ty;)+) => {
        $(
            #[doc = concat!("The type of [`", stringify!($name), "`].")]
            pub type $type = unsafe extern "C" fn($($of),*) -> $result;
        )+

        extern "C" {
            $(
                $(#[$says])*
                pub fn $name($($word: $of),*) -> $result;
            )+
        }

        /// Each function as C declares it.
        #[doc(hidden)]
        pub fn functions() -> Vec<c::Function> {
            vec![$(c::Function::new::<$result>(stringify!($name), vec![$((stringify!($word), <$of>::name())),*])),+]
        }
    };
}

/// Declares the channel events by their keys and their own words, and then the other functions. All events begin with the
/// table's four slices, the three buffers, the channel and the time.
macro_rules! events_and_functions {
    (
        events { $($(#[$says:meta])* $type:ident: $name:ident($keys:ty $(, $own:ident: $word:ty)*);)+ }
        functions { $($functions:tt)+ }
    ) => {
        functions! {
            $(
                $(#[$says])*
                $type: $name(
                    keys: $keys,
                    keys_length: usize,
                    words: *mut u64,
                    words_length: usize,
                    handles: *mut u32,
                    handles_length: usize,
                    marks: *mut u8,
                    marks_length: usize,
                    up: *mut u32,
                    up_length: usize,
                    returned: *mut u32,
                    returned_length: usize,
                    nack: *mut u16,
                    nack_length: usize,
                    destination: *const [u8; 6],
                    source: *const [u8; 6],
                    priority: u8,
                    time: u64
                    $(, $own: $word)*
                ) -> Answer;
            )+
            $($functions)+
        }
    };
}

events_and_functions! {
    events {
        /// A data frame.
        Data: pik_data(*mut u64, number: u16, handle: u32);
        /// A reminder.
        Reminder: pik_reminder(*const u64, number: u16);
        /// A tick.
        Tick: pik_tick(*const u64);
        /// A close.
        Close: pik_close(*mut u64);
    }
    functions {
        /// The archive's version: 1,000,000 x major + 1,000 x minor + patch. The major version is part of the name.
        Version: pik_version_1() -> u32;

        /// Empties a table.
        Empty: pik_empty(
            keys: *mut u64,
            keys_length: usize,
            words: *mut u64,
            words_length: usize,
            handles: *mut u32,
            handles_length: usize,
            marks: *mut u8,
            marks_length: usize,
        ) -> u8;

        /// A look at a channel's record.
        Look: pik_look(
            keys: *const u64,
            keys_length: usize,
            words: *const u64,
            words_length: usize,
            handles: *const u32,
            handles_length: usize,
            marks: *const u8,
            marks_length: usize,
            destination: *const [u8; 6],
            source: *const [u8; 6],
            priority: u8,
            waits: *mut u8,
            waits_length: usize,
            values: *mut u64,
            values_length: usize,
        ) -> View;

        /// A fresh station.
        StationFresh: pik_station_fresh(default_set: u32) -> Station;

        /// The station uses flags.
        StationUse: pik_station_use(station: Station, flags: u32) -> StationAnswer;

        /// The station's period ends.
        StationPeriod: pik_station_period(station: Station) -> StationAnswer;

        /// The station receives a capability frame.
        StationReceive: pik_station_receive(station: Station, opcode: u8, frame: Frame) -> StationAnswer;

        /// The sets that a frame sent now carries.
        StationFrame: pik_station_frame(station: Station) -> Frame;

        /// Reads a rate request frame.
        RateRead: pik_rate_read(frame: *const u8, frame_length: usize) -> Reading;

        /// Writes a rate request frame.
        RateWrite: pik_rate_write(
            out: *mut u8,
            out_length: usize,
            request: Request,
            addresses: *const u8,
            addresses_length: usize,
        ) -> Written;

        /// The rate of a PE in Mbit/s, or 0.
        RateOf: pik_rate_of(pe: u8) -> u8;

        /// The band that a request chooses, or 0.
        RateChosen: pik_rate_chosen(request: Request) -> u8;
    }
}
