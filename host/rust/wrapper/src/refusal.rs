//! Why a call was refused.
use core::error::Error;
use core::fmt;

/// Makes the enum of a table: each refusal's name, number and sentence stand there alone.
macro_rules! refusals {
    ($($name:ident, $number:literal, $sentence:literal;)*) => {
        /// Why a call was refused.
        ///
        /// A name, its number and its sentence are those of the list in `include/rank.h`.
        #[derive(Clone, Copy, Debug, PartialEq, Eq, Hash)]
        #[non_exhaustive]
        pub enum Refusal {
            $(
                #[doc = concat!($number, ": ", $sentence, ".")]
                $name,
            )*
            /// A number that this version of the wrapper does not know, which a call of another version gave.
            Unknown(u32),
        }

        impl Refusal {
            /// Its number, never 0 if a call gave it.
            #[must_use]
            pub const fn number(self) -> u32 {
                match self {
                    $(Refusal::$name => $number,)*
                    Refusal::Unknown(number) => number,
                }
            }

            /// What is wrong.
            const fn sentence(self) -> &'static str {
                match self {
                    $(Refusal::$name => $sentence,)*
                    Refusal::Unknown(_) => "a number that this version of the wrapper does not know",
                }
            }

            /// The refusal of a number, if the table has one.
            const fn known(number: u32) -> Option<Refusal> {
                match number {
                    $($number => Some(Refusal::$name),)*
                    _ => None,
                }
            }
        }
    };
}

refusals! {
    LineOutOfRange, 1, "the line, or a patrol's first line, is not below N";
    BufferLength, 2, "the line buffer is not 64 bytes";
    ChipOutOfRange, 3, "the chip is not below 9";
    PatternLength, 4, "the pattern is not 9 bytes";
    CatchWordCount, 5, "there are not nine catch-words";
    BootMemoryLength, 11, "boot: the memory is empty, no multiple of 81 bytes, or over 65,536 lines";
    NotReady, 12, "the record's Enable is clear, or its N is outside 1 to 65,536";
    MemoryLength, 13, "the memory is not 81 * N bytes";
    RegisterDiffers, 14, "a register differs from its catch-word";
    Unlocated, 20, "no chip is flagged, and the nine words don't xor to zero";
    Uncorrectable, 21,
        "two or more chips are flagged, and two or more of them are beyond mending, \
         or none is, the mended words don't xor to zero and no chip is blamed";
    TaskOutOfRange, 31, "read or patrol: the task is not below 8";
}

impl Refusal {
    /// What the number that a call of [`ffi`](crate::ffi) gave says: 0 is `Ok`, any other its refusal.
    ///
    /// # Errors
    ///
    /// The refusal of the number, [`Refusal::Unknown`] if the table has none.
    pub const fn check(number: u32) -> Result<(), Refusal> {
        if number == 0 {
            return Ok(());
        }
        match Refusal::known(number) {
            Some(refusal) => Err(refusal),
            None => Err(Refusal::Unknown(number)),
        }
    }
}

impl fmt::Display for Refusal {
    fn fmt(&self, f: &mut fmt::Formatter<'_>) -> fmt::Result {
        write!(f, "{}: {}", self.number(), self.sentence())
    }
}

impl Error for Refusal {}

impl TryFrom<u32> for Refusal {
    type Error = UnknownRefusal;

    /// The refusal of a number of the table, and never [`Refusal::Unknown`].
    fn try_from(number: u32) -> Result<Refusal, UnknownRefusal> {
        Refusal::known(number).ok_or(UnknownRefusal(number))
    }
}

/// A number that is no refusal of this version: 0, or one that the table does not have.
#[derive(Clone, Copy, Debug, PartialEq, Eq, Hash)]
pub struct UnknownRefusal(pub u32);

impl fmt::Display for UnknownRefusal {
    fn fmt(&self, f: &mut fmt::Formatter<'_>) -> fmt::Result {
        write!(f, "{} is the number of no refusal", self.0)
    }
}

impl Error for UnknownRefusal {}
