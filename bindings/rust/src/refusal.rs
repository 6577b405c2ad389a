//! The refusals.

use core::fmt;

/// Writes the enum, its numbers and its names from one table, so that they cannot part.
macro_rules! refusals {
    ($($number:literal $case:ident $name:literal $meaning:literal;)*) => {
        /// Why an operation was refused, by the numbers and names of the library's scope paper. What was lent is then as
        /// it was before the call.
        #[derive(Clone, Copy, Debug, PartialEq, Eq)]
        #[non_exhaustive]
        pub enum Refusal {
            $(#[doc = $meaning] $case,)*
            /// A number that this wrapper does not know, from an archive that is newer.
            Unknown(u8),
        }

        impl Refusal {
            /// All that have a name, in the order of their numbers.
            pub const ALL: &'static [Refusal] = &[$(Refusal::$case),*];

            /// The refusal's number.
            pub fn number(self) -> u8 {
                match self {
                    $(Refusal::$case => $number,)*
                    Refusal::Unknown(number) => number,
                }
            }

            /// The refusal's name.
            pub fn name(self) -> &'static str {
                match self {
                    $(Refusal::$case => $name,)*
                    Refusal::Unknown(_) => "UNKNOWN",
                }
            }

            /// When it is given.
            pub fn meaning(self) -> &'static str {
                match self {
                    $(Refusal::$case => $meaning,)*
                    Refusal::Unknown(_) => "a number that this wrapper does not know",
                }
            }

            fn of(number: u8) -> Refusal {
                match number {
                    $($number => Refusal::$case,)*
                    _ => Refusal::Unknown(number),
                }
            }
        }
    };
}

refusals! {
    1 Channels "CHANNELS" "no channels, or more than 8";
    2 Samples "SAMPLES" "the samples are not whole frames";
    3 Map "MAP" "the channel map has another length than there are channels";
    4 Dest "DEST" "the destination is empty, uneven, or too short for the frames";
    5 Store "STORE" "the lent store of a history is not one";
    6 Full "FULL" "a counter would pass 4294967295";
    7 Set "SET" "more than 16 histories, or one that reaches outside what was lent";
    8 Mode "MODE" "a range over queues and histograms mixed";
    9 None "NONE" "no blocks, or none at or above the gate";
    10 Nan "NAN" "the sum of the energies is not a number";
    11 Scale "SCALE" "an energy outside the scale of the readings, or not a number";
    12 Length "LENGTH" "the length of a record is wrong";
    13 Kind "KIND" "a record is not of the kind asked for";
    14 Content "CONTENT" "a field of a record breaks its rule";
    15 Room "ROOM" "an output or work slice is too short";
}

impl fmt::Display for Refusal {
    /// The number and the name: `9 NONE`.
    fn fmt(&self, f: &mut fmt::Formatter<'_>) -> fmt::Result {
        write!(f, "{} {}", self.number(), self.name())
    }
}

/// What a function of the archive answered: 0 where it did what was asked.
pub(crate) fn answered(code: u8) -> Result<(), Refusal> {
    match code {
        0 => Ok(()),
        number => Err(Refusal::of(number)),
    }
}
