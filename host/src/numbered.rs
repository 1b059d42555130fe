//! An enum whose cases are the numbers of the C interface.

/// Declares one, with the list of its cases: each stands once, so that none can be missing from the list.
macro_rules! numbered {
    ($(#[$says:meta])* $name:ident { $($(#[$case_says:meta])* $case:ident = $number:literal,)+ }) => {
        $(#[$says])*
        #[derive(Clone, Copy, Debug, PartialEq, Eq, Hash)]
        #[repr(u8)]
        pub enum $name {
            $($(#[$case_says])* $case = $number,)+
        }

        impl $name {
            /// All of them, by rising number.
            pub const ALL: &'static [$name] = &[$($name::$case),+];

            /// Its number.
            pub fn number(self) -> u8 {
                self as u8
            }

            /// The one of this number.
            pub fn of_number(number: u8) -> Option<$name> {
                $name::ALL.iter().copied().find(|case| case.number() == number)
            }
        }
    };
}

pub(crate) use numbered;
