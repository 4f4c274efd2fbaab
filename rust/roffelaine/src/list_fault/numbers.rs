//! How numbers are written, and the same written right.

/// A number of a list.
#[derive(Clone, Copy)]
pub struct Number {
    decimals: usize,
    /// Whether it may be below zero.
    is_signed: bool,
}

impl Number {
    pub const fn unsigned(decimals: usize) -> Self {
        Number {
            decimals,
            is_signed: false,
        }
    }

    pub const fn signed(decimals: usize) -> Self {
        Number {
            decimals,
            is_signed: true,
        }
    }

    /// What is expected where a value stands that is not written so.
    pub fn expected(&self, value: &[u8]) -> String {
        let without = without(&self.barred(value));
        let example = self.example(value, LONGEST_EXAMPLE);
        let example = example.map_or(String::new(), |text| format!(", as {text}"));
        format!(
            "{}{without}{}{example}",
            self.kind(value),
            self.excess(value)
        )
    }

    /// The same for a value that stands right in so many columns.
    pub fn expected_right(&self, value: &[u8], width: usize) -> String {
        let mut barred = self.barred(value);
        barred.retain(|&thing| thing != BLANKS);
        let without = format!(" right in blanks{}", without(&barred));
        let example = self.example(value, width);
        let example = example.map_or(String::new(), |text| format!(", as \"{text:>width$}\""));
        format!(
            "{}{without}{}{example}",
            self.kind(value),
            self.excess(value)
        )
    }

    /// The number that stands there; in a whole number no comma is a point.
    fn written(&self, value: &[u8]) -> Option<Written> {
        Written::of(value, self.decimals > 0)
    }

    fn kind(&self, value: &[u8]) -> String {
        let is_zero = self
            .written(value)
            .is_some_and(|number| number.is_minus_zero());
        match self.decimals {
            _ if is_zero => "zero".to_owned(),
            0 => "a whole number".to_owned(),
            count => format!("{} decimals", count_word(count)),
        }
    }

    /// What stands in a value that must not.
    fn barred(&self, value: &[u8]) -> Vec<&'static str> {
        let has = |byte| value.contains(&byte);
        let number = self.written(value);
        let is_zero = number.as_ref().is_some_and(Written::is_minus_zero);
        let has_decimals = number.is_some_and(|number| !number.fraction.is_empty());
        let things = [
            (has(b','), "commas"),
            (has(b' ') || has(b'\t'), BLANKS),
            (has(b'|'), "\"|\""),
            (has(b'+'), "\"+\""),
            (has(b'-') && (!self.is_signed || is_zero), "\"-\""),
            (has_spare_zeros(value), "spare zeros"),
            (has_decimals && self.decimals == 0, "decimals"),
        ];
        let there = things.into_iter().filter(|(is_there, _)| *is_there);
        there.map(|(_, thing)| thing).collect()
    }

    /// How many decimals stand there, if that is too many.
    fn excess(&self, value: &[u8]) -> String {
        let count = self
            .written(value)
            .map_or(0, |number| number.fraction.len());
        match self.decimals {
            0 => String::new(),
            most if count <= most => String::new(),
            _ => format!(", not {count}"),
        }
    }

    /// The number that stands there written right in so many bytes. Where no
    /// number stands, one that shows decimals.
    fn example(&self, value: &[u8], most: usize) -> Option<String> {
        let any = || {
            self.written(&b"0.12345"[..2 + self.decimals])
                .filter(|_| self.decimals > 0)
        };
        let number = self.written(value).or_else(any)?;
        let is_below_zero = number.is_minus && !number.is_minus_zero();
        if number.fraction.len() > self.decimals || (is_below_zero && !self.is_signed) {
            return None;
        }
        let sign = if is_below_zero { "-" } else { "" };
        let (whole, fraction) = (number.whole, number.fraction);
        let text = match self.decimals {
            0 => format!("{sign}{whole}"),
            decimals => format!("{sign}{whole}.{fraction:0<decimals$}"),
        };
        (text.len() <= most).then_some(text)
    }
}

const BLANKS: &str = "blanks";
/// Bytes of the longest example in the head.
const LONGEST_EXAMPLE: usize = 20;

fn without(things: &[&str]) -> String {
    match things {
        [] => String::new(),
        _ => format!(" without {}", things.join(" or ")),
    }
}

/// A small count in words.
pub fn count_word(count: usize) -> &'static str {
    const WORDS: [&str; 9] = [
        "no", "one", "two", "three", "four", "five", "six", "seven", "eight",
    ];
    WORDS.get(count).copied().unwrap_or("many")
}

/// A number however it is written: with blanks around it, a sign, commas
/// between thousands, spare zeros.
struct Written {
    is_minus: bool,
    /// Digits without spare zeros.
    whole: String,
    /// Decimals up to the last that is not 0.
    fraction: String,
}

impl Written {
    /// Where commas may be points, one that parts no thousands is one.
    fn of(value: &[u8], comma_is_point: bool) -> Option<Self> {
        let text = std::str::from_utf8(value.trim_ascii()).ok()?;
        let unsigned = text.strip_prefix(['-', '+']).unwrap_or(text);
        let (whole, fraction) = unsigned.split_once('.').unwrap_or((unsigned, ""));
        let (whole, fraction) = match (without_commas(whole), unsigned.split_once(',')) {
            (Some(whole), _) => (whole, fraction),
            (None, Some((whole, part))) if comma_is_point => (whole.to_owned(), part),
            _ => return None,
        };
        let mut digits = whole.bytes().chain(fraction.bytes());
        if whole.len() + fraction.len() == 0 || !digits.all(|byte| byte.is_ascii_digit()) {
            return None;
        }
        let whole = whole.trim_start_matches('0');
        Some(Written {
            is_minus: text.starts_with('-'),
            whole: if whole.is_empty() { "0" } else { whole }.to_owned(),
            fraction: fraction.trim_end_matches('0').to_owned(),
        })
    }

    fn is_minus_zero(&self) -> bool {
        self.is_minus && self.whole == "0" && self.fraction.is_empty()
    }
}

/// Digits without the commas between thousands; none where a comma stands
/// elsewhere, for it may be a decimal comma.
fn without_commas(digits: &str) -> Option<String> {
    let mut groups = digits.split(',');
    let first = groups.next()?;
    if first.len() == digits.len() {
        return Some(digits.to_owned());
    }
    let is_first = (1..=3).contains(&first.len()) && first != "0";
    let is_right = is_first && groups.all(|group| group.len() == 3);
    is_right.then(|| digits.replace(',', ""))
}

fn has_spare_zeros(value: &[u8]) -> bool {
    let mut digits = value.trim_ascii();
    if let [b'-' | b'+', rest @ ..] = digits {
        digits = rest;
    }
    matches!(digits, [b'0', next, ..] if next.is_ascii_digit())
}

/// The number that a well-written value counts in its last decimal, at most the
/// highest of 128 bits.
pub fn number_of(value: &[u8]) -> i128 {
    let digits = value.iter().filter(|byte| byte.is_ascii_digit());
    let size = digits.fold(0i128, |number, digit| {
        let digit = i128::from(digit - b'0');
        number.saturating_mul(10).saturating_add(digit)
    });
    if value.starts_with(b"-") {
        -size
    } else {
        size
    }
}

#[cfg(test)]
mod tests {
    use super::*;

    #[test]
    fn numbers_are_mended() {
        let whole = Number::unsigned(0);
        let rate = Number::unsigned(5);
        let cash = Number::signed(2);
        let rows = [
            (rate, "0.5", "five decimals, as 0.50000"),
            (rate, ".5", "five decimals, as 0.50000"),
            (rate, "0.500000", "five decimals, as 0.50000"),
            (rate, "0.123456", "five decimals, not 6"),
            (rate, "0,500", "five decimals without commas, as 0.50000"),
            (rate, "5%", "five decimals, as 0.12345"),
            (rate, "0,05000", "five decimals without commas, as 0.05000"),
            (rate, "-0.05", "five decimals without \"-\""),
            (rate, "", "five decimals, as 0.12345"),
            (
                whole,
                "1,000,000",
                "a whole number without commas, as 1000000",
            ),
            (whole, "1,00", "a whole number without commas"),
            (whole, "0100", "a whole number without spare zeros, as 100"),
            (whole, "000", "a whole number without spare zeros, as 0"),
            (whole, "1000.00", "a whole number, as 1000"),
            (whole, "1.5", "a whole number without decimals"),
            (
                whole,
                " 01 ",
                "a whole number without blanks or spare zeros, as 1",
            ),
            (whole, "1e6", "a whole number"),
            (cash, "-0.00", "zero without \"-\", as 0.00"),
            (cash, "-331.2", "two decimals, as -331.20"),
            (cash, "+5.00", "two decimals without \"+\", as 5.00"),
            (cash, "--5.00", "two decimals, as 0.12"),
            (cash, "-00.50", "two decimals without spare zeros, as -0.50"),
        ];
        for (number, value, expected) in rows {
            assert_eq!(number.expected(value.as_bytes()), expected, "{value:?}");
        }
    }

    #[test]
    fn numbers_stand_right() {
        let quantity = |value: &[u8]| Number::unsigned(0).expected_right(value, 8);
        let rate = |value: &[u8]| Number::unsigned(5).expected_right(value, 7);
        let right = "a whole number right in blanks";
        assert_eq!(quantity(b"8000    "), format!("{right}, as \"    8000\""));
        assert_eq!(quantity(b"        "), right);
        assert_eq!(
            rate(b"    0.1"),
            "five decimals right in blanks, as \"0.10000\""
        );
        assert_eq!(rate(b"12.1   "), "five decimals right in blanks");
    }

    #[test]
    fn numbers_count_their_last_decimal() {
        assert_eq!(number_of(b"-331.22"), -33_122);
        assert_eq!(number_of(b"   8000"), 8_000);
        assert_eq!(number_of(&[b'9'; 99]), i128::MAX);
    }
}
