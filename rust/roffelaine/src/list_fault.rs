//! What is wrong with a list that is refused, and where. The archive decides;
//! here its number and place are put in words for people.

mod component_line;
mod digits;
mod ends;
mod fields;
mod flags;
mod form;
mod lines;
mod numbers;
mod ranges;
mod text_lines;
mod wanted;

use crate::{FlagTable, Refusal};
use std::fmt;

pub use ends::{lines_in_lf, list_end, with_crlf};

/// A place in a text as an editor counts it, both from 1; a column counts bytes.
#[derive(Clone, Copy, Debug, PartialEq, Eq)]
pub struct Position {
    /// The line.
    pub line: usize,
    /// The column.
    pub column: usize,
}

impl fmt::Display for Position {
    fn fmt(&self, out: &mut fmt::Formatter<'_>) -> fmt::Result {
        write!(out, "{}:{}", self.line, self.column)
    }
}

/// Where a byte of a text stands; lines end in LF.
pub fn position(text: &[u8], place: usize) -> Position {
    let before = &text[..place.min(text.len())];
    let line = before.iter().filter(|&&byte| byte == b'\n').count() + 1;
    let start = before.iter().rposition(|&byte| byte == b'\n');
    Position {
        line,
        column: before.len() - start.map_or(0, |at| at + 1) + 1,
    }
}

/// What is wrong with a list text that was refused.
///
/// ```
/// use roffelaine::{List, ListFault};
/// let text = b"[ETF300]\r\nFundid=510301\r\n";
/// let refusal = List::read(text).unwrap_err();
/// let fault = ListFault::of(text, refusal).expect("reading refused it");
/// assert_eq!(
///     fault.to_string(),
///     "2:1 Fundid1 \"Fundid=510301\": the line Fundid1=.. is expected here"
/// );
/// ```
#[derive(Clone, Debug, PartialEq, Eq)]
pub struct ListFault {
    /// Where.
    pub position: Position,
    /// The field's or the line's name.
    pub field: String,
    /// What stands there, cut where it is long; bytes that do not print are
    /// escaped.
    pub found: String,
    /// What is expected.
    pub expected: String,
}

impl ListFault {
    /// The fault behind a refusal of this text by [`List::read`](crate::List::read).
    /// None for a refusal that reading it does not give.
    pub fn of(text: &[u8], refusal: Refusal) -> Option<Self> {
        ListFault::of_with_table(text, refusal, &FlagTable::OURS)
    }

    /// The fault behind a refusal by
    /// [`List::read_with_table`](crate::List::read_with_table). None for a refusal
    /// that reading does not give, and for that of the table, which is no fault of
    /// the text.
    pub fn of_with_table(text: &[u8], refusal: Refusal, table: &FlagTable) -> Option<Self> {
        let place = usize::try_from(refusal.place()).ok()?;
        match refusal {
            Refusal::TextLine { .. } => lines::fault(text, place),
            Refusal::TextField { .. } => fields::fault(text, place, table),
            Refusal::RecordCount => ranges::record_count(text),
            Refusal::FundField => ranges::fund_field(text),
            Refusal::Component { .. } => ranges::component(text, place, table),
            _ => None,
        }
    }

    /// A fault at a place of a text.
    fn new(text: &[u8], place: usize, field: &str, found: &[u8], expected: String) -> Self {
        ListFault {
            position: position(text, place),
            field: field.to_owned(),
            found: shown(found),
            expected,
        }
    }
}

impl fmt::Display for ListFault {
    fn fmt(&self, out: &mut fmt::Formatter<'_>) -> fmt::Result {
        let (position, field, found) = (self.position, &self.field, &self.found);
        write!(out, "{position} {field} \"{found}\": {}", self.expected)
    }
}

impl std::error::Error for ListFault {}

/// Characters of a text that are shown, more than a component line has.
const MOST_SHOWN: usize = 64;

/// Bytes as they are shown: a text in UTF-8 as it is, else bytes past ASCII
/// escaped; what does not print escaped; a long text cut.
fn shown(bytes: &[u8]) -> String {
    match std::str::from_utf8(bytes) {
        Ok(text) => cut(text.chars().map(shown_character)),
        Err(_) => cut(bytes.iter().map(|&byte| match byte {
            0x80.. => format!("\\x{byte:02x}"),
            _ => shown_character(char::from(byte)),
        })),
    }
}

fn cut(mut characters: impl Iterator<Item = String>) -> String {
    let start: String = characters.by_ref().take(MOST_SHOWN).collect();
    match characters.next() {
        Some(_) => start + "..",
        None => start,
    }
}

fn shown_character(character: char) -> String {
    match character {
        '"' | '\'' | '\\' => character.to_string(),
        _ => character.escape_debug().to_string(),
    }
}

#[cfg(test)]
mod tests {
    use super::*;

    #[test]
    fn positions_count_from_one() {
        let text = b"ab\r\nc\nd";
        let places = [
            (0, 1, 1),
            (3, 1, 4),
            (4, 2, 1),
            (6, 3, 1),
            (7, 3, 2),
            (99, 3, 2),
        ];
        for (place, line, column) in places {
            assert_eq!(position(text, place), Position { line, column });
        }
        assert_eq!(position(b"", 0).to_string(), "1:1");
    }

    #[test]
    fn bytes_are_shown() {
        assert_eq!(shown(b"0.5"), "0.5");
        assert_eq!(shown(b"a\"b\\\r\n\t\0"), "a\"b\\\\r\\n\\t\\0");
        assert_eq!(shown("平安银行".as_bytes()), "平安银行");
        assert_eq!(shown(b"\xc6\xbd\xb0\xb2x"), "\\xc6\\xbd\\xb0\\xb2x");
        assert_eq!(shown(&[b'x'; MOST_SHOWN]), "x".repeat(MOST_SHOWN));
        assert_eq!(shown(&[b'x'; 100]), "x".repeat(MOST_SHOWN) + "..");
        assert_eq!(shown(&[0xff; 100]), "\\xff".repeat(MOST_SHOWN) + "..");
    }
}
