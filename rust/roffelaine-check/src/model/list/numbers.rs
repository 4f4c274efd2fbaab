//! Numbers as the list text writes them. Reading saturates: a well-written
//! number of any length is then past its range.

/// Digits that a number of 64 bits always holds.
const SAFE_DIGITS: usize = 19;

/// Digits alone, at least one.
#[inline]
pub(super) fn digits(bytes: &[u8]) -> Option<u64> {
    if bytes.is_empty() || !bytes.iter().all(u8::is_ascii_digit) {
        return None;
    }
    let value = |byte: &u8| u64::from(byte - b'0');
    if bytes.len() <= SAFE_DIGITS {
        return Some(
            bytes
                .iter()
                .fold(0, |number, byte| 10 * number + value(byte)),
        );
    }
    let add = |number: u64, byte| number.saturating_mul(10).saturating_add(value(byte));
    Some(bytes.iter().fold(0, add))
}

/// "0", or digits with no leading 0.
#[inline]
pub(super) fn whole(bytes: &[u8]) -> Option<u64> {
    if bytes.len() > 1 && bytes[0] == b'0' {
        return None;
    }
    digits(bytes)
}

/// A whole number, a point and just `decimals` digits, counted in the last.
#[inline]
pub(super) fn decimal(bytes: &[u8], decimals: usize) -> Option<u64> {
    let point = bytes.len().checked_sub(decimals + 1)?;
    let (before, after) = bytes.split_at(point);
    if after[0] != b'.' {
        return None;
    }
    let (before, after) = (whole(before)?, digits(&after[1..])?);
    Some(
        before
            .saturating_mul(10u64.pow(decimals as u32))
            .saturating_add(after),
    )
}

/// Money of two decimals, perhaps below 0; "-0.00" is not written so.
pub(super) fn signed_money(bytes: &[u8]) -> Option<i64> {
    let size = |bytes| decimal(bytes, 2).map(|size| i64::try_from(size).unwrap_or(i64::MAX));
    match bytes.strip_prefix(b"-") {
        None => size(bytes),
        Some(bytes) => size(bytes).filter(|&size| size != 0).map(|size| -size),
    }
}

/// What follows the blanks at the left.
#[inline]
pub(super) fn after_blanks(bytes: &[u8]) -> &[u8] {
    let blanks = bytes.iter().take_while(|&&byte| byte == b' ').count();
    &bytes[blanks..]
}

/// Writes a number right in the place, with its last `decimals` digits after
/// a point, and gives the bytes before it.
pub(super) fn put_right(place: &mut [u8], number: u64, decimals: usize) -> &mut [u8] {
    let mut at = place.len();
    let mut rest = number;
    for written in 0.. {
        if written == decimals && decimals > 0 {
            at -= 1;
            place[at] = b'.';
        }
        if written > decimals && rest == 0 {
            break;
        }
        at -= 1;
        place[at] = b'0' + (rest % 10) as u8;
        rest /= 10;
    }
    &mut place[..at]
}

/// Writes the last digits of a number, as many as the place has.
pub(super) fn put_digits(place: &mut [u8], number: u64) {
    let mut rest = number;
    for byte in place.iter_mut().rev() {
        *byte = b'0' + (rest % 10) as u8;
        rest /= 10;
    }
}

#[cfg(test)]
mod tests {
    use super::*;

    #[test]
    fn whole_numbers_have_no_spare_zeros() {
        assert_eq!(whole(b"0"), Some(0));
        assert_eq!(whole(b"120"), Some(120));
        assert_eq!(
            whole(b"9999999999999999999"),
            Some(9_999_999_999_999_999_999)
        );
        assert_eq!(whole(b"18446744073709551615"), Some(u64::MAX));
        assert_eq!(whole(b"99999999999999999999999999"), Some(u64::MAX));
        for bytes in [&b""[..], b"00", b"012", b"+1", b"1 ", b"1.0"] {
            assert_eq!(whole(bytes), None);
        }
    }

    #[test]
    fn decimals_are_counted_exactly() {
        assert_eq!(decimal(b"0.05551", 5), Some(5_551));
        assert_eq!(decimal(b"12.00", 2), Some(1_200));
        for bytes in [
            &b""[..],
            b".00",
            b"1.0",
            b"1.000",
            b"1,00",
            b"01.00",
            b"1.0a",
            b"-1.00",
        ] {
            assert_eq!(decimal(bytes, 2), None);
        }
    }

    #[test]
    fn money_may_be_negative_but_not_minus_nothing() {
        assert_eq!(signed_money(b"-331.22"), Some(-33_122));
        assert_eq!(signed_money(b"0.00"), Some(0));
        for bytes in [&b"-0.00"[..], b"--1.00", b"-", b"-01.00", b"- 1.00"] {
            assert_eq!(signed_money(bytes), None);
        }
    }

    #[test]
    fn numbers_are_written_right() {
        let written = |number, decimals| {
            let mut place = [b' '; 12];
            put_right(&mut place, number, decimals);
            String::from_utf8(place.to_vec()).unwrap()
        };
        assert_eq!(written(0, 0), "           0");
        assert_eq!(written(5_200, 0), "        5200");
        assert_eq!(written(0, 3), "       0.000");
        assert_eq!(written(99_999_999_999, 3), "99999999.999");
        assert_eq!(written(51, 3), "       0.051");
    }
}
