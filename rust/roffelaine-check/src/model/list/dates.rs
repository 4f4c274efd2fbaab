//! Gregorian dates as eight digits.

/// Whether the number says a real date of the years 0001 to 9999.
pub(super) fn is_date(number: u64) -> bool {
    let (year, month, day) = (number / 10_000, number / 100 % 100, number % 100);
    (1..=9_999).contains(&year)
        && (1..=12).contains(&month)
        && (1..=days_in_month(year, month)).contains(&day)
}

fn days_in_month(year: u64, month: u64) -> u64 {
    match month {
        2 if is_leap_year(year) => 29,
        2 => 28,
        4 | 6 | 9 | 11 => 30,
        _ => 31,
    }
}

fn is_leap_year(year: u64) -> bool {
    year.is_multiple_of(4) && (!year.is_multiple_of(100) || year.is_multiple_of(400))
}

#[cfg(test)]
mod tests {
    use super::*;

    #[test]
    fn real_dates() {
        for date in [10_101, 99_991_231, 20_000_229, 20_240_229, 20_250_630] {
            assert!(is_date(date), "{date}");
        }
        for date in [
            0, 101, 1_231, 19_000_229, 20_230_229, 20_250_631, 20_251_301, 20_250_100,
        ] {
            assert!(!is_date(date), "{date}");
        }
        assert!(!is_date(100_000_101));
    }
}
