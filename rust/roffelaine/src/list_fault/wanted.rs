//! The line that is expected at a place, and what is wrong with another there.

use super::component_line;
use super::form::{
    HeadField, BAR, END, FIRST_FIELD, FIRST_ROW, HEAD, LETTERS_AFTER, LETTERS_BEFORE, MOST_LETTERS,
    TAG, TAG_LINE,
};
use super::text_lines::{lines, Line};
use super::ListFault;

/// The line that is expected.
pub enum Wanted {
    First,
    Head(&'static HeadField),
    Tag,
    /// A component line or ENDENDEND.
    Row,
    /// None, behind ENDENDEND.
    Nothing,
}

impl Wanted {
    /// The line that is expected as the line of this number, from 0.
    pub fn at(text: &[u8], number: usize) -> Self {
        match number {
            0 => Wanted::First,
            TAG_LINE => Wanted::Tag,
            _ if number < TAG_LINE => Wanted::Head(&HEAD[number - FIRST_FIELD]),
            _ if number > FIRST_ROW && is_end(text, number - 1) => Wanted::Nothing,
            _ => Wanted::Row,
        }
    }

    fn field(&self) -> &'static str {
        match self {
            Wanted::First => "first line",
            Wanted::Head(field) => field.name,
            Wanted::Tag => "TAGTAG",
            Wanted::Row => "component line",
            Wanted::Nothing => "text behind ENDENDEND",
        }
    }

    fn words(&self) -> String {
        match self {
            Wanted::First => "the line [ETF..]".to_owned(),
            Wanted::Head(field) => format!("the line {}=..", field.name),
            Wanted::Tag => "the line TAGTAG".to_owned(),
            Wanted::Row => "a component line or ENDENDEND".to_owned(),
            Wanted::Nothing => "no line".to_owned(),
        }
    }

    /// Whether a line is the expected one; the value of a field may be any.
    pub fn fits(&self, line: &[u8]) -> bool {
        match self {
            Wanted::First => letters(line).is_some_and(|letters| {
                (1..=MOST_LETTERS).contains(&letters.len())
                    && letters.iter().all(u8::is_ascii_alphanumeric)
            }),
            Wanted::Head(field) => names(field, line),
            Wanted::Tag => line == TAG,
            Wanted::Row => line == END || component_line::fits(line),
            Wanted::Nothing => false,
        }
    }

    /// What is wrong with a line that is not the expected one.
    pub fn fault(&self, text: &[u8], line: &Line<'_>) -> ListFault {
        let found = up_to_lf(line.bytes);
        let new = |at, field, found, expected| {
            ListFault::new(text, line.start + at, field, found, expected)
        };
        match self {
            Wanted::Nothing => {
                let expected = "a list ends with ENDENDEND".to_owned();
                new(0, self.field(), &text[line.start..], expected)
            }
            _ if line.start == text.len() => {
                let expected = format!("the file ends here; {} is expected", self.words());
                new(0, self.field(), found, expected)
            }
            Wanted::Row if found.contains(&BAR) => {
                let fault = component_line::fault(found);
                let (field, found) = fault.field.unwrap_or((self.field(), found));
                new(fault.at, field, found, fault.expected)
            }
            Wanted::Row if is_like(found, END) => {
                let expected = format!("the line ENDENDEND is expected here; {EXACTLY}");
                new(0, "ENDENDEND", found, expected)
            }
            _ => new(0, self.field(), found, self.mismatch(found)),
        }
    }

    fn mismatch(&self, found: &[u8]) -> String {
        let expected = format!("{} is expected here", self.words());
        if found.is_empty() {
            return expected + ", not an empty line";
        }
        let detail = own_place(found).or_else(|| match self {
            Wanted::First => Some(first_line_words(found)),
            Wanted::Head(field) => head_line_words(field, found),
            Wanted::Tag if is_like(found, TAG) => Some(EXACTLY.to_owned()),
            _ => None,
        });
        match detail {
            Some(detail) => format!("{expected}; {detail}"),
            None => expected,
        }
    }
}

const EXACTLY: &str = "in capitals, without blanks";

/// Whether the line of a number is ENDENDEND.
fn is_end(text: &[u8], number: usize) -> bool {
    lines(text)
        .nth(number)
        .is_some_and(|line| line.bytes == END)
}

/// The line up to its first LF, as an editor shows it.
fn up_to_lf(line: &[u8]) -> &[u8] {
    let end = line.iter().position(|&byte| byte == b'\n');
    &line[..end.unwrap_or(line.len())]
}

/// Whether a line is a fixed one but for case and blanks around it.
fn is_like(line: &[u8], fixed: &[u8]) -> bool {
    line.trim_ascii().eq_ignore_ascii_case(fixed)
}

/// Whether a line starts with a field's name, in any case, and "=".
fn names(field: &HeadField, line: &[u8]) -> bool {
    let name = field.name.as_bytes();
    line.get(name.len()) == Some(&b'=') && line[..name.len()].eq_ignore_ascii_case(name)
}

/// What stands between "[ETF" and a "]" at the line's end.
fn letters(line: &[u8]) -> Option<&[u8]> {
    line.strip_prefix(LETTERS_BEFORE)?
        .strip_suffix(&[LETTERS_AFTER])
}

fn first_line_words(line: &[u8]) -> String {
    let start = line.get(..LETTERS_BEFORE.len()).unwrap_or_default();
    if !start.eq_ignore_ascii_case(LETTERS_BEFORE) {
        return format!("it is \"[ETF\", 1 to {MOST_LETTERS} letters or digits, \"]\"");
    }
    if start != LETTERS_BEFORE {
        return "\"[ETF\" in capitals".to_owned();
    }
    let Some(letters) = letters(line) else {
        return "it ends with \"]\"".to_owned();
    };
    if letters.iter().all(u8::is_ascii_alphanumeric) {
        let count = letters.len();
        return format!("1 to {MOST_LETTERS} letters or digits before \"]\", not {count}");
    }
    "letters and digits alone before \"]\"".to_owned()
}

/// What is wrong with a line that has a field's name, but not as it must be.
fn head_line_words(field: &HeadField, line: &[u8]) -> Option<String> {
    let name = field.name.as_bytes();
    let start = line.trim_ascii_start();
    if !start.get(..name.len())?.eq_ignore_ascii_case(name) {
        return None;
    }
    Some(match start.len() == line.len() {
        true => "\"=\" directly behind the name".to_owned(),
        false => "without blanks before the name".to_owned(),
    })
}

/// Where a line of a list has its place, if this is one.
fn own_place(line: &[u8]) -> Option<String> {
    if let Some(at) = HEAD.iter().position(|field| names(field, line)) {
        let (name, number) = (HEAD[at].name, at + FIRST_FIELD + 1);
        return Some(format!("{name}=.. is line {number} of a list"));
    }
    if line == TAG {
        return Some(format!("TAGTAG is line {} of a list", TAG_LINE + 1));
    }
    if line == END {
        return Some("ENDENDEND is the last line of a list".to_owned());
    }
    component_line::fits(line).then(|| "component lines stand behind TAGTAG".to_owned())
}
