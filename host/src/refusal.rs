//! The refusals by number, name and sentence.
use std::fmt;

/// Makes the type of the refusals from their table.
macro_rules! refusals {
    ($($number:literal $name:ident $words:literal $sentence:literal)*) => {
        /// Why a call was declined. Where several apply, the lowest number is given.
        #[derive(Clone, Copy, PartialEq, Eq, Debug)]
        pub enum Refusal {
            $(#[doc = $sentence] $name,)*
            /// A number that stands for none of them: the library is of another version than this crate.
            Unknown(u32),
        }

        /// All of them, by number.
        pub const REFUSALS: [Refusal; [$($number),*].len()] = [$(Refusal::$name),*];

        impl Refusal {
            pub fn number(self) -> u32 {
                match self {
                    $(Refusal::$name => $number,)*
                    Refusal::Unknown(number) => number,
                }
            }

            pub fn name(self) -> &'static str {
                match self {
                    $(Refusal::$name => $words,)*
                    Refusal::Unknown(_) => "unknown",
                }
            }

            pub fn sentence(self) -> &'static str {
                match self {
                    $(Refusal::$name => $sentence,)*
                    Refusal::Unknown(_) => "The library gave a number that stands for no refusal.",
                }
            }
        }
    };
}

mod known;
pub use known::{Refusal, REFUSALS};

impl Refusal {
    /// The refusal that an entry of the library answered, none for 0.
    pub fn check(number: u32) -> Result<(), Refusal> {
        match number {
            0 => Ok(()),
            n => Err(REFUSALS.into_iter().find(|r| r.number() == n).unwrap_or(Refusal::Unknown(n))),
        }
    }
}

impl fmt::Display for Refusal {
    fn fmt(&self, f: &mut fmt::Formatter) -> fmt::Result {
        write!(f, "refused {} ({}): {}", self.number(), self.name(), self.sentence())
    }
}

impl std::error::Error for Refusal {}
