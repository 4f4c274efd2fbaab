//! Why a call is turned back: the paper's numbers, each with its words.

use std::fmt;

/// A row of the table of refusals.
#[derive(Clone, Copy, Debug, PartialEq, Eq)]
pub struct Meaning {
    /// The paper's number.
    pub number: u64,
    /// What is wrong, in words.
    pub words: &'static str,
    /// What the place counts; nothing where the place is always 0.
    pub place: &'static str,
}

macro_rules! refusals {
    (
        plain { $($plain:ident = $plain_number:literal, $plain_words:literal;)* }
        placed { $($placed:ident = $number:literal, $words:literal, $place:literal;)* }
    ) => {
        /// Why a call is turned back. A refused call changes nothing.
        ///
        /// ```
        /// use roffelaine::Refusal;
        /// let refusal = Refusal::ShortOfStock { place: 3 };
        /// assert_eq!((refusal.number(), refusal.place()), (9, 3));
        /// assert_eq!(refusal.to_string(), "refused 9 3: short of stock or units");
        /// ```
        #[derive(Clone, Copy, Debug, PartialEq, Eq, Hash)]
        pub enum Refusal {
            $(#[doc = concat!(stringify!($plain_number), ": ", $plain_words, ".")] $plain,)*
            $(#[doc = concat!(stringify!($number), ": ", $words, "; the place is ", $place, ".")] $placed {
                #[doc = $place]
                place: u64,
            },)*
        }

        impl Refusal {
            /// The refusal that the archive says with a number and a place; none
            /// for a number that no refusal has.
            pub const fn from_numbers(number: u64, place: u64) -> Option<Self> {
                match number {
                    $($plain_number => Some(Refusal::$plain),)*
                    $($number => Some(Refusal::$placed { place }),)*
                    _ => None,
                }
            }

            /// The paper's number, 1 to 21.
            pub const fn number(&self) -> u64 {
                match self {
                    $(Refusal::$plain => $plain_number,)*
                    $(Refusal::$placed { .. } => $number,)*
                }
            }

            /// The paper's place, 0 where a refusal has none.
            pub const fn place(&self) -> u64 {
                match *self {
                    $(Refusal::$plain => 0,)*
                    $(Refusal::$placed { place } => place,)*
                }
            }
        }

        const UNSORTED: &[Meaning] = &[
            $(Meaning { number: $plain_number, words: $plain_words, place: "" },)*
            $(Meaning { number: $number, words: $words, place: $place },)*
        ];
    };
}

refusals! {
    plain {
        Sizes = 1, "the count of accounts or components is out of range, or a lent run has another length than they need";
        FundField = 2, "a field of the fund is out of range";
        UnsoundDay = 5, "the day is not open, or breaks a test";
        NoSuchLine = 6, "there is no such line";
        QuantityOrPrice = 7, "the quantity or the price is out of range";
        Account = 8, "there is no such account for this call";
        ShortOfCash = 10, "short of cash";
        NotWholeBaskets = 11, "the units are not 1 to 20 whole baskets";
        Switch = 12, "the switch CreationRedemption forbids it";
        Limit = 13, "a limit would be passed";
        NoReferenceValue = 14, "there is no reference value";
        CashRatio = 15, "more stock is missing than MaxCashRatio allows";
        ListTooShort = 16, "the lent list, run or output is too short";
        RecordCount = 20, "Recordnum is not 1 to 300, or not the count of component lines";
    }
    placed {
        Component = 3, "a component is out of range, out of order or uses its flag wrongly", "the component";
        Total = 4, "a total is too large, or the fund holds units", "the line, N + 1 for cash";
        ShortOfStock = 9, "short of stock or units", "the component, where a creation is short";
        FundShort = 17, "the fund is short of stock or cash", "the component, N for cash";
        TextLine = 18, "a line of the list does not stand as it must", "the line's first byte";
        TextField = 19, "a field of the list is not written as it must be", "the field's first byte";
        FlagTable = 21, "the flag table breaks its rules", "the lowest flag at fault";
    }
}

/// How many refusals there are.
const COUNT: usize = UNSORTED.len();

/// Every refusal, in the order of the paper's numbers, which start at 1.
pub const REFUSALS: [Meaning; COUNT] = sorted();

const fn sorted() -> [Meaning; COUNT] {
    let mut table = [UNSORTED[0]; COUNT];
    let mut at = 0;
    while at < COUNT {
        table[UNSORTED[at].number as usize - 1] = UNSORTED[at];
        at += 1;
    }
    table
}

impl Refusal {
    /// What is wrong, in words.
    pub const fn words(&self) -> &'static str {
        REFUSALS[self.number() as usize - 1].words
    }
}

impl fmt::Display for Refusal {
    fn fmt(&self, out: &mut fmt::Formatter<'_>) -> fmt::Result {
        let (number, place) = (self.number(), self.place());
        write!(out, "refused {number} {place}: {}", self.words())
    }
}

impl std::error::Error for Refusal {}

#[cfg(test)]
mod tests {
    use super::*;

    #[test]
    fn every_number_is_there_once() {
        for (at, meaning) in REFUSALS.iter().enumerate() {
            assert_eq!(meaning.number, at as u64 + 1);
            let refusal = Refusal::from_numbers(meaning.number, 7).expect("a refusal");
            assert_eq!(refusal.number(), meaning.number);
            assert_eq!(refusal.words(), meaning.words);
            let placed = !meaning.place.is_empty();
            assert_eq!(refusal.place(), if placed { 7 } else { 0 });
        }
        assert_eq!(Refusal::from_numbers(0, 0), None);
        assert_eq!(Refusal::from_numbers(REFUSALS.len() as u64 + 1, 0), None);
    }
}
