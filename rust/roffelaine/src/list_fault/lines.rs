//! Lines that do not stand as they must (refusal 18).

use super::ends::end_fault;
use super::form::{FIRST_ROW, LINE_END};
use super::text_lines::{line_with, lines};
use super::wanted::Wanted;
use super::ListFault;

/// The fault in the line that starts at a place.
pub fn fault(text: &[u8], place: usize) -> Option<ListFault> {
    let (number, line) = line_with(text, place).filter(|(_, line)| line.start == place)?;
    if let Some(fault) = encoding_fault(text).filter(|_| number == 0) {
        return Some(fault);
    }
    if let Some(end) = joined_lines(text, place) {
        return Some(end_fault(text, end));
    }
    let wanted = Wanted::at(text, number);
    if matches!(wanted, Wanted::Nothing) && place == text.len() {
        return None;
    }
    // The expected line may stand there with another end.
    let (bytes, lf) = (line.bytes, &LINE_END[1..]);
    let mut ends = [LINE_END, lf].into_iter().map(|end| first_of(bytes, end));
    match ends.find(|&end| wanted.fits(&bytes[..end])) {
        Some(end) if end == bytes.len() && line.is_ended => None,
        Some(end) => Some(end_fault(text, place + end)),
        None => Some(wanted.fault(text, &line)),
    }
}

/// Where a CR or LF alone joins two lines of the head before a place, so that
/// the line behind them is found at fault.
fn joined_lines(text: &[u8], place: usize) -> Option<usize> {
    let head = lines(text).take(FIRST_ROW);
    let mut before = head.take_while(|line| line.start < place);
    before.find_map(|line| {
        let end = first_of(line.bytes, LINE_END);
        let is_joint = line.bytes[end..].iter().any(|&byte| byte != b'\r');
        is_joint.then_some(line.start + end)
    })
}

/// Where the first of some bytes stands; the length where none does.
fn first_of(bytes: &[u8], some: &[u8]) -> usize {
    let place = bytes.iter().position(|byte| some.contains(byte));
    place.unwrap_or(bytes.len())
}

/// The fault of a text that starts with a byte order mark.
fn encoding_fault(text: &[u8]) -> Option<ListFault> {
    let (mark, expected) = match text {
        [0xef, 0xbb, 0xbf, ..] => ("EF BB BF", ""),
        [0xff, 0xfe, ..] => ("FF FE", "the text is in UTF-16, "),
        [0xfe, 0xff, ..] => ("FE FF", "the text is in UTF-16, "),
        _ => return None,
    };
    let expected =
        format!("{expected}a list starts with \"[ETF\"; save it as UTF-8 without a mark");
    let field = "byte order mark";
    Some(ListFault::new(text, 0, field, mark.as_bytes(), expected))
}
