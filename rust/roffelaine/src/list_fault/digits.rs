//! How fixed digits and dates are written, and the same written right.

use super::numbers::count_word;

/// What is expected where other than so many digits stand.
pub fn digits_expected(value: &[u8], width: usize) -> String {
    let digits = value.trim_ascii();
    let is_short = (1..width).contains(&digits.len()) || digits.len() < value.len();
    let text = std::str::from_utf8(digits).unwrap_or_default();
    let kind = format!("{} digits", count_word(width));
    if is_short && text.len() <= width && text.bytes().all(|digit| digit.is_ascii_digit()) {
        return format!("{kind}, as {text:0>width$}");
    }
    kind
}

/// What is expected where no date in eight digits stands.
pub fn date_expected(value: &[u8]) -> String {
    let text = std::str::from_utf8(value).unwrap_or_default();
    let digits = text.bytes().filter(u8::is_ascii_digit).count();
    if value.len() == DATE_DIGITS && digits == DATE_DIGITS {
        return format!("{text} is no date: {}", why_no_date(text));
    }
    let example = date_of_parts(text).unwrap_or_else(|| "20250630".to_owned());
    format!("a date in eight digits, as {example}")
}

const DATE_DIGITS: usize = 8;

/// Why eight digits say no date; empty where they say one.
fn why_no_date(digits: &str) -> String {
    let [year, month, day] =
        [0..4, 4..6, 6..8].map(|part| digits[part].parse::<u32>().unwrap_or_default());
    let days = days_in_month(year, month);
    if year == 0 {
        return "the year is 0001 to 9999".to_owned();
    }
    if days == 0 {
        return "the month is 01 to 12".to_owned();
    }
    if !(1..=days).contains(&day) {
        return format!("the month has days 01 to {days}");
    }
    String::new()
}

/// Days of a month; 0 where there is no such month.
fn days_in_month(year: u32, month: u32) -> u32 {
    let is_leap = year.is_multiple_of(4) && (!year.is_multiple_of(100) || year.is_multiple_of(400));
    match month {
        2 if is_leap => 29,
        2 => 28,
        4 | 6 | 9 | 11 => 30,
        1..=12 => 31,
        _ => 0,
    }
}

/// The eight digits of a date that is written in parts, as 2025-06-30, or has
/// blanks around it.
fn date_of_parts(text: &str) -> Option<String> {
    let parts: Vec<&str> = text.trim().split(['-', '/', '.']).collect();
    let digits = match parts[..] {
        [year, month, day] => format!("{year:0>4}{month:0>2}{day:0>2}"),
        [whole] => whole.to_owned(),
        _ => return None,
    };
    let is_date = digits.len() == DATE_DIGITS
        && digits.bytes().all(|digit| digit.is_ascii_digit())
        && why_no_date(&digits).is_empty();
    is_date.then_some(digits)
}

#[cfg(test)]
mod tests {
    use super::*;

    #[test]
    fn digits_and_dates_are_mended() {
        assert_eq!(digits_expected(b"   001", 6), "six digits, as 000001");
        assert_eq!(digits_expected(b"510301 ", 6), "six digits, as 510301");
        assert_eq!(digits_expected(b"5103011", 6), "six digits");
        assert_eq!(digits_expected(b"", 6), "six digits");
        assert_eq!(digits_expected(b"51030x", 6), "six digits");
        let rows = [
            (
                "20250231",
                "20250231 is no date: the month has days 01 to 28",
            ),
            (
                "20240230",
                "20240230 is no date: the month has days 01 to 29",
            ),
            (
                "19000229",
                "19000229 is no date: the month has days 01 to 28",
            ),
            (
                "20250600",
                "20250600 is no date: the month has days 01 to 30",
            ),
            ("20251301", "20251301 is no date: the month is 01 to 12"),
            ("00000101", "00000101 is no date: the year is 0001 to 9999"),
            ("2025-6-30", "a date in eight digits, as 20250630"),
            ("2024/02/29", "a date in eight digits, as 20240229"),
            ("20240229 ", "a date in eight digits, as 20240229"),
            ("2025-02-31", "a date in eight digits, as 20250630"),
            ("", "a date in eight digits, as 20250630"),
        ];
        for (value, expected) in rows {
            assert_eq!(date_expected(value.as_bytes()), expected);
        }
    }
}
