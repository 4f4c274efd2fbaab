//! How the lines of a list text stand (refusal 18).

use super::super::refusal::{Refusal, TEXT_LINE};

/// The names of the head lines, in order and as written.
pub const HEAD_NAMES: [&str; 20] = [
    "Fundid1",
    "CreationRedemptionUnit",
    "MaxCashRatio",
    "Publish",
    "CreationRedemption",
    "Recordnum",
    "EstimateCashComponent",
    "TradingDay",
    "PreTradingDay",
    "CashComponent",
    "NAVperCU",
    "NAV",
    "CreationLimit",
    "RedemptionLimit",
    "CreationLimitPerUser",
    "RedemptionLimitPerUser",
    "NetCreationLimit",
    "NetRedemptionLimit",
    "NetCreationLimitPerUser",
    "NetRedemptionLimitPerUser",
];

pub(super) const LINE_END: &[u8] = b"\r\n";
pub(super) const LETTERS_BEFORE: &[u8] = b"[ETF";
pub(super) const LETTERS_AFTER: &[u8] = b"]\r\n";
pub(super) const LETTERS_MAX: usize = 8;
pub(super) const COMPONENTS_BEFORE: &[u8] = b"TAGTAG\r\n";
pub(super) const COMPONENTS_AFTER: &[u8] = b"ENDENDEND\r\n";

/// Bytes of a component line without its end.
pub const COMPONENT_LINE: usize = 56;
/// Bytes of a component line with its end.
pub(super) const COMPONENT_STRIDE: usize = COMPONENT_LINE + LINE_END.len();
/// Bytes of a component's name.
pub const NAME_BYTES: usize = 8;

/// The fields of a component line; each is followed by a bar.
pub(super) const CODE: Field = Field { start: 0, end: 6 };
pub(super) const NAME: Field = Field { start: 7, end: 15 };
pub(super) const QUANTITY: Field = Field { start: 16, end: 24 };
pub(super) const FLAG: Field = Field { start: 25, end: 26 };
pub(super) const PREMIUM: Field = Field { start: 27, end: 34 };
pub(super) const DISCOUNT: Field = Field { start: 35, end: 42 };
pub(super) const AMOUNT: Field = Field { start: 43, end: 55 };
pub(super) const FIELDS: [Field; 7] = [CODE, NAME, QUANTITY, FLAG, PREMIUM, DISCOUNT, AMOUNT];
pub(super) const BAR: u8 = b'|';

/// Where a field stands, in its line or in the text.
#[derive(Clone, Copy, Debug, Default, PartialEq, Eq)]
pub(super) struct Field {
    pub(super) start: usize,
    pub(super) end: usize,
}

impl Field {
    #[inline]
    pub(super) fn of<'t>(&self, bytes: &'t [u8]) -> &'t [u8] {
        &bytes[self.start..self.end]
    }
}

/// Where the parts of a text stand.
pub(super) struct Layout<'t> {
    pub(super) letters: &'t [u8],
    /// The values of the head lines.
    pub(super) values: [Field; HEAD_NAMES.len()],
    /// Start of the first component line.
    pub(super) components_at: usize,
    /// The component lines with their ends.
    pub(super) components: &'t [u8],
}

impl<'t> Layout<'t> {
    /// Finds the parts, or the first line that does not stand as it must.
    pub(super) fn of(text: &'t [u8]) -> Result<Self, Refusal> {
        let letters = first_line(text).ok_or(wrong_line(0))?;
        let mut at = LETTERS_BEFORE.len() + letters.len() + LETTERS_AFTER.len();
        let mut values = [Field::default(); HEAD_NAMES.len()];
        for (value, name) in values.iter_mut().zip(HEAD_NAMES) {
            *value = head_value(text, at, name.as_bytes()).ok_or(wrong_line(at))?;
            at = value.end + LINE_END.len();
        }
        if !text[at..].starts_with(COMPONENTS_BEFORE) {
            return Err(wrong_line(at));
        }
        let components_at = at + COMPONENTS_BEFORE.len();
        let components = component_lines(text, components_at)?;
        Ok(Layout {
            letters,
            values,
            components_at,
            components,
        })
    }

    /// Count of the component lines.
    pub(super) fn count(&self) -> usize {
        self.components.len() / COMPONENT_STRIDE
    }
}

fn wrong_line(at: usize) -> Refusal {
    Refusal::at(TEXT_LINE, at)
}

pub(super) fn letters_fit(letters: &[u8]) -> bool {
    (1..=LETTERS_MAX).contains(&letters.len()) && letters.iter().all(u8::is_ascii_alphanumeric)
}

/// The letters of the first line, if all of that line is right.
pub(super) fn first_line(text: &[u8]) -> Option<&[u8]> {
    let rest = text.strip_prefix(LETTERS_BEFORE)?;
    let length = rest
        .iter()
        .take_while(|byte| byte.is_ascii_alphanumeric())
        .count();
    let (letters, rest) = rest.split_at(length);
    (letters_fit(letters) && rest.starts_with(LETTERS_AFTER)).then_some(letters)
}

/// The value of the head line that starts at `at`, if it has this name.
fn head_value(text: &[u8], at: usize, name: &[u8]) -> Option<Field> {
    let line = &text[at..];
    let named = line.get(..name.len())?.eq_ignore_ascii_case(name);
    if !named || line.get(name.len()) != Some(&b'=') {
        return None;
    }
    let start = at + name.len() + 1;
    let length = text[start..].windows(2).position(|pair| pair == LINE_END)?;
    Some(Field {
        start,
        end: start + length,
    })
}

/// All component lines from `start` on, up to the end of the list and text.
fn component_lines(text: &[u8], start: usize) -> Result<&[u8], Refusal> {
    let mut at = start;
    while text[at..].first_chunk().is_some_and(is_component_line) {
        at += COMPONENT_STRIDE;
    }
    let Some(after) = text[at..].strip_prefix(COMPONENTS_AFTER) else {
        return Err(wrong_line(at));
    };
    if !after.is_empty() {
        return Err(wrong_line(at + COMPONENTS_AFTER.len()));
    }
    Ok(&text[start..at])
}

/// Whether these bytes are one line with its bars. Its end must not come
/// earlier; a lone 0D or 0A is a byte like any other here.
fn is_component_line(bytes: &[u8; COMPONENT_STRIDE]) -> bool {
    let (line, end) = bytes.split_at(COMPONENT_LINE);
    end == LINE_END
        && FIELDS.iter().all(|field| line[field.end] == BAR)
        && !(line.contains(&b'\r') && line.windows(2).any(|pair| pair == LINE_END))
}

#[cfg(test)]
mod tests {
    use super::*;

    #[test]
    fn bars_stand_after_the_fields() {
        let widths = FIELDS.map(|field| field.end - field.start);
        assert_eq!(widths, [6, 8, 8, 1, 7, 7, 12]);
        let mut start = 0;
        for field in FIELDS {
            assert_eq!(field.start, start);
            start = field.end + 1;
        }
        assert_eq!(start, COMPONENT_LINE);
        assert_eq!(NAME.end - NAME.start, NAME_BYTES);
    }

    #[test]
    fn the_first_line_is_exact() {
        assert_eq!(first_line(b"[ETF50]\r\n"), Some(&b"50"[..]));
        for text in [
            &b"[ETF]\r\n"[..],
            b"[etf50]\r\n",
            b"[ETF123456789]\r\n",
            b"[ETF50]\n",
        ] {
            assert_eq!(first_line(text), None);
        }
    }
}
