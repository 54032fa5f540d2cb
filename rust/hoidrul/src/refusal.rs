//! Refusals, as docs/SPECIFICATION.md lists them in section 8.
use core::error::Error;
use core::fmt;

/// Makes [`Reason`] of a table: number, name, words.
macro_rules! reasons {
    ($($number:literal $name:ident $words:literal)*) => {
        /// Why a call was refused; shown in the words below.
        ///
        /// Later versions may have more reasons. Where the archive is of such a version, a refusal by
        /// one of them is [`Reason::Unknown`], with its number; `try_from` fails for that number.
        ///
        /// ```
        /// use hoidrul::Reason;
        ///
        /// assert_eq!(Reason::Work.number(), 9);
        /// assert_eq!(Reason::try_from(9), Ok(Reason::Work));
        /// assert_eq!(Reason::Work.to_string(), "the work area is too small");
        ///
        /// let unknown = Reason::try_from(0).unwrap_err();
        /// assert_eq!(unknown.to_string(), "no reason of this version has the number 0");
        /// ```
        #[must_use]
        #[derive(Clone, Copy, Debug, PartialEq, Eq, PartialOrd, Ord, Hash)]
        #[non_exhaustive]
        pub enum Reason {
            $(
                #[doc = concat!(stringify!($number), ": ", $words, ".")]
                $name,
            )*
            /// A number that this version does not know: the archive is newer than the binding.
            Unknown(UnknownReason),
        }

        impl Reason {
            /// All reasons that this version knows, in rising number.
            pub const ALL: &'static [Reason] = &[$(Reason::$name),*];

            /// The number, by which the C header and the judging program tell the reason.
            #[must_use]
            pub const fn number(self) -> u32 {
                match self {
                    $(Reason::$name => $number,)*
                    Reason::Unknown(reason) => reason.number,
                }
            }

            const fn words(self) -> &'static str {
                match self {
                    $(Reason::$name => $words,)*
                    Reason::Unknown(_) => "a reason that this version does not have",
                }
            }
        }

        /// The known reason of a number.
        impl TryFrom<u32> for Reason {
            type Error = UnknownReason;

            fn try_from(number: u32) -> Result<Reason, UnknownReason> {
                match number {
                    $($number => Ok(Reason::$name),)*
                    _ => Err(UnknownReason { number }),
                }
            }
        }
    };
}

reasons! {
    1 Pairs "under 16 bytes or too long, or the pairs do not lay four sections in a row, at most three zero bytes apart"
    2 Labels "no label, or too many"
    3 Steps "section 1 ends inside a step, or a step names no state or action of the case or does not come after the one before"
    4 Rule "the rule is not 1 to 64 whole nodes and then the number of one of them, or the start states do not rise or are not all in the table"
    5 Node "a node's kind or bytes are out of range, or it names a node that is not below it"
    6 Binder "a variable is bound a second time"
    7 Free "a variable is free in the root"
    8 Beyond "the section, set or state asked for is not in the case"
    9 Work "the work area is too small"
    10 Unlike "the two states are one state, or are not alike"
    11 Shape "there is no law or node of that number, or the law's shape is not there"
    12 TooManyNodes "the rewritten rule would have more than 64 nodes"
    13 Room "the output area is too small for the result"
    14 Form "the rule is not of the form that the entry takes"
    15 Table "the table of kinds does not hold each of 0 to 14 once"
}

/// The reason's words.
impl fmt::Display for Reason {
    fn fmt(&self, f: &mut fmt::Formatter<'_>) -> fmt::Result {
        f.write_str(self.words())
    }
}

/// The number of no known reason. It cannot be made by hand, so that each reason has one form.
#[must_use]
#[derive(Clone, Copy, Debug, PartialEq, Eq, PartialOrd, Ord, Hash)]
pub struct UnknownReason {
    number: u32,
}

impl UnknownReason {
    /// The number.
    #[must_use]
    pub const fn number(self) -> u32 {
        self.number
    }
}

impl fmt::Display for UnknownReason {
    fn fmt(&self, f: &mut fmt::Formatter<'_>) -> fmt::Result {
        write!(
            f,
            "no reason of this version has the number {}",
            self.number
        )
    }
}

impl Error for UnknownReason {}

/// A reason and the place of the fault.
///
/// ```
/// use hoidrul::Reason;
///
/// let refusal = hoidrul::vet(&[], 0).unwrap_err();
/// assert_eq!((refusal.reason, refusal.place), (Reason::Pairs, 0));
/// assert_eq!(refusal.number(), 1);
/// assert_eq!(
///     refusal.to_string(),
///     "refused 1 0: under 16 bytes or too long, or the pairs do not lay four sections in a row, at most three zero bytes apart"
/// );
/// ```
#[must_use]
#[derive(Clone, Copy, Debug, PartialEq, Eq, Hash)]
pub struct Refusal {
    /// Why.
    pub reason: Reason,
    /// The step in [`Reason::Steps`], the node in [`Reason::Node`] and [`Reason::Binder`],
    /// else 0. The lowest there is.
    pub place: usize,
}

impl Refusal {
    /// The reason's number.
    #[must_use]
    pub const fn number(self) -> u32 {
        self.reason.number()
    }
}

/// The line of the judging program, and the reason.
impl fmt::Display for Refusal {
    fn fmt(&self, f: &mut fmt::Formatter<'_>) -> fmt::Result {
        let Refusal { reason, place } = self;
        write!(f, "refused {} {place}: {reason}", self.number())
    }
}

impl Error for Refusal {}

/// Takes a reply of the C boundary apart: bit 63 marks a refusal.
pub(crate) fn answer(reply: u64) -> Result<u64, Refusal> {
    if reply >> 63 == 0 {
        return Ok(reply);
    }
    let number = (reply << 1 >> 33) as u32;
    let reason = Reason::try_from(number).unwrap_or_else(Reason::Unknown);
    let place = reply as u32 as usize;
    Err(Refusal { reason, place })
}

#[cfg(test)]
mod tests {
    extern crate std;

    use super::*;
    use std::string::ToString;
    use std::vec::Vec;

    fn refused(number: u64, place: u64) -> Refusal {
        answer((1 << 63) + (number << 32) + place).unwrap_err()
    }

    #[test]
    fn bit_63_marks_a_refusal() {
        assert_eq!(answer(0), Ok(0));
        assert_eq!(answer(u64::MAX >> 1), Ok(u64::MAX >> 1));
        let refusal = |reason, place| Refusal { reason, place };
        assert_eq!(refused(6, 9), refusal(Reason::Binder, 9));
        assert_eq!(refused(3, 2047), refusal(Reason::Steps, 2047));
        assert_eq!(refused(13, 0xffff_ffff), refusal(Reason::Room, 0xffff_ffff));
    }

    /// A newer archive's refusal keeps its number and place.
    #[test]
    fn an_unknown_number() {
        let next = Reason::ALL.len() as u32 + 1;
        for number in [0, next, next + 1, 0x7fff_ffff] {
            let unknown = Reason::try_from(number).unwrap_err();
            assert_eq!(unknown.number(), number);
            let refusal = refused(number.into(), 5);
            assert_eq!(refusal.reason, Reason::Unknown(unknown));
            assert_eq!((refusal.number(), refusal.place), (number, 5));
            let words = "a reason that this version does not have";
            assert_eq!(
                refusal.to_string(),
                std::format!("refused {number} 5: {words}")
            );
        }
        assert!(Reason::try_from(u32::MAX).is_err());
    }

    #[test]
    fn numbers_count_from_1() {
        let numbers: Vec<u32> = Reason::ALL.iter().map(|reason| reason.number()).collect();
        assert_eq!(numbers, Vec::from_iter(1..=Reason::ALL.len() as u32));
        for &reason in Reason::ALL {
            assert_eq!(Reason::try_from(reason.number()), Ok(reason));
            assert_eq!(refused(reason.number().into(), 0).reason, reason);
        }
        assert!(Reason::ALL.is_sorted());
    }
}
