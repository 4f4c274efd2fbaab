//! Money, rates, values and units, each in the unit of count that the day book
//! counts it in, so that one is not taken for another.

use std::fmt;
use std::str::FromStr;

/// Why a text is no amount.
#[derive(Clone, Copy, Debug, PartialEq, Eq)]
pub enum AmountError {
    /// There is nothing.
    Empty,
    /// A byte that no amount has; its place in the text.
    Character(usize),
    /// A comma; its place in the text.
    Comma(usize),
    /// Zeros at the left that say nothing.
    SpareZeros,
    /// No digit before or behind the point; the point's place in the text.
    Point(usize),
    /// More decimals than the amount has; how many it may have.
    Decimals(usize),
    /// More than 64 bits hold; how many decimals the amount has.
    TooLarge(usize),
}

impl AmountError {
    /// The place of the fault in the text that was read.
    pub fn place(&self) -> usize {
        match *self {
            AmountError::Character(at) | AmountError::Comma(at) | AmountError::Point(at) => at,
            _ => 0,
        }
    }
}

impl fmt::Display for AmountError {
    fn fmt(&self, out: &mut fmt::Formatter<'_>) -> fmt::Result {
        match *self {
            AmountError::Empty => out.write_str("a number is missing"),
            AmountError::Character(_) => out.write_str("a number has digits alone"),
            AmountError::Comma(_) => out.write_str("a number is written without commas"),
            AmountError::SpareZeros => out.write_str("a number has no zeros in front"),
            AmountError::Point(_) => out.write_str("digits stand on both sides of the point"),
            AmountError::Decimals(0) => out.write_str("a whole number has no decimals"),
            AmountError::Decimals(most) => write!(out, "at most {most} decimals"),
            AmountError::TooLarge(decimals) => {
                out.write_str("more than ")?;
                put_decimal(out, u64::MAX, decimals)
            }
        }
    }
}

impl std::error::Error for AmountError {}

/// A number with at most so many decimals, counted in the last of them: digits
/// with no spare zeros in front, and perhaps a point and decimals.
///
/// ```
/// use roffelaine::{decimal, AmountError};
/// assert_eq!(decimal("1500000.5", 3), Ok(1_500_000_500));
/// assert_eq!(decimal("18446744073709551615", 0), Ok(u64::MAX));
/// assert_eq!(decimal("1,000", 3), Err(AmountError::Comma(1)));
/// ```
pub fn decimal(text: &str, decimals: usize) -> Result<u64, AmountError> {
    let (whole, fraction) = match text.find('.') {
        Some(point) => (&text[..point], Some(&text[point + 1..])),
        None => (text, None),
    };
    if text.is_empty() {
        return Err(AmountError::Empty);
    }
    let point = whole.len();
    all_digits(whole, 0)?;
    all_digits(fraction.unwrap_or_default(), point + 1)?;
    if whole.is_empty() || fraction.is_some_and(str::is_empty) {
        return Err(AmountError::Point(point));
    }
    if whole.len() > 1 && whole.starts_with('0') {
        return Err(AmountError::SpareZeros);
    }
    let fraction = fraction.unwrap_or_default();
    if fraction.len() > decimals {
        return Err(AmountError::Decimals(decimals));
    }
    let zeros = decimals - fraction.len();
    let digits = whole.bytes().chain(fraction.bytes());
    digits
        .chain(std::iter::repeat_n(b'0', zeros))
        .try_fold(0u64, |number, digit| {
            number.checked_mul(10)?.checked_add(u64::from(digit - b'0'))
        })
        .ok_or(AmountError::TooLarge(decimals))
}

/// Whether a part that starts at `from` has digits alone.
fn all_digits(part: &str, from: usize) -> Result<(), AmountError> {
    match part.bytes().position(|byte| !byte.is_ascii_digit()) {
        None => Ok(()),
        Some(at) if part.as_bytes()[at] == b',' => Err(AmountError::Comma(from + at)),
        Some(at) => Err(AmountError::Character(from + at)),
    }
}

/// Writes a number that counts in the last of so many decimals.
fn put_decimal(out: &mut fmt::Formatter<'_>, number: u64, decimals: usize) -> fmt::Result {
    let one = 10u64.pow(decimals as u32);
    write!(out, "{}", number / one)?;
    if decimals > 0 {
        write!(out, ".{:0decimals$}", number % one)?;
    }
    Ok(())
}

macro_rules! amount {
    ($(#[$doc:meta])* $name:ident, $decimals:literal) => {
        $(#[$doc])*
        #[derive(Clone, Copy, Debug, Default, PartialEq, Eq, PartialOrd, Ord, Hash)]
        pub struct $name(pub u64);

        impl $name {
            /// How many decimals it is written with.
            pub const DECIMALS: usize = $decimals;
        }

        impl fmt::Display for $name {
            fn fmt(&self, out: &mut fmt::Formatter<'_>) -> fmt::Result {
                put_decimal(out, self.0, $decimals)
            }
        }

        impl FromStr for $name {
            type Err = AmountError;

            fn from_str(text: &str) -> Result<Self, AmountError> {
                decimal(text, $decimals).map($name)
            }
        }
    };
}

amount! {
    /// Money in thousandths of a yuan.
    ///
    /// ```
    /// use roffelaine::Money;
    /// assert_eq!(Money::from_yuan(113_000).to_string(), "113000.000");
    /// assert_eq!("0.113".parse(), Ok(Money(113)));
    /// ```
    Money, 3
}

amount! {
    /// A rate in hundred-thousandths.
    Rate, 5
}

amount! {
    /// A reference value, of one unit, in ten-thousandths of a yuan.
    ReferenceValue, 4
}

amount! {
    /// Units of the fund.
    Units, 0
}

impl Money {
    /// Whole yuan.
    ///
    /// # Panics
    ///
    /// Where thousandths of so many yuan are more than 64 bits hold.
    pub const fn from_yuan(yuan: u64) -> Self {
        match yuan.checked_mul(1_000) {
            Some(thousandths) => Money(thousandths),
            None => panic!("more yuan than money counts"),
        }
    }
}

/// Money of a basket in hundredths of a yuan, which may be below zero.
///
/// ```
/// assert_eq!(roffelaine::Cents(-33_122).to_string(), "-331.22");
/// ```
#[derive(Clone, Copy, Debug, Default, PartialEq, Eq, PartialOrd, Ord, Hash)]
pub struct Cents(pub i64);

impl fmt::Display for Cents {
    fn fmt(&self, out: &mut fmt::Formatter<'_>) -> fmt::Result {
        if self.0 < 0 {
            out.write_str("-")?;
        }
        put_decimal(out, self.0.unsigned_abs(), 2)
    }
}

#[cfg(test)]
mod tests {
    use super::*;
    use AmountError::*;

    #[test]
    fn amounts_are_read_to_the_last_number() {
        assert_eq!(
            "4000000000000000.000".parse(),
            Ok(Money(4_000_000_000_000_000_000))
        );
        assert_eq!("18446744073709551.615".parse(), Ok(Money(u64::MAX)));
        assert_eq!(decimal("18446744073709551.616", 3), Err(TooLarge(3)));
        assert_eq!(decimal("18446744073709551616", 0), Err(TooLarge(0)));
        assert_eq!("0.05".parse(), Ok(Rate(5_000)));
    }

    #[test]
    fn what_is_no_amount_is_said() {
        let faults = [
            ("", Empty),
            ("1,000,000", Comma(1)),
            ("1.0,0", Comma(3)),
            ("x", Character(0)),
            ("-1", Character(0)),
            ("1.2.3", Character(3)),
            ("5e3", Character(1)),
            ("007", SpareZeros),
            (".5", Point(0)),
            ("5.", Point(1)),
            ("0.1234", Decimals(3)),
        ];
        for (text, fault) in faults {
            assert_eq!(decimal(text, 3), Err(fault), "{text:?}");
        }
        assert_eq!(decimal("1.5", 0), Err(Decimals(0)));
        assert_eq!(TooLarge(3).to_string(), "more than 18446744073709551.615");
    }

    #[test]
    fn amounts_are_written_with_all_decimals() {
        assert_eq!(Money(0).to_string(), "0.000");
        assert_eq!(Money(1_500).to_string(), "1.500");
        assert_eq!(Rate(100_000).to_string(), "1.00000");
        assert_eq!(ReferenceValue(4_257).to_string(), "0.4257");
        assert_eq!(Units(7).to_string(), "7");
        assert_eq!(Cents(-5).to_string(), "-0.05");
        assert_eq!(Cents(1_200).to_string(), "12.00");
    }
}
