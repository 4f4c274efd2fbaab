//! The names of codes, for tables that people read.

use roffelaine::{List, Report, ReportType};
use std::borrow::Cow;

/// The name of a code: a component's without the blanks behind it, as the list
/// has it; words for the codes of the fund.
pub fn name_of<'t>(list: &List<'t>, code: u64) -> Cow<'t, [u8]> {
    let words: &[u8] = match code.checked_sub(list.head.fund.first_code) {
        Some(0) => b"units",
        Some(1) => b"units by order",
        Some(2) => b"Shanghai cash",
        Some(5) => b"other cash",
        _ => {
            let line = list.line_of(code);
            let name = line.and_then(|line| list.names.get(line));
            return Cow::Borrowed(name.map_or(&[][..], |name| name.trim_ascii_end()));
        }
    };
    Cow::Borrowed(words)
}

/// The same as text; bytes that are no UTF-8 are replaced.
pub fn text_name(list: &List<'_>, code: u64) -> String {
    String::from_utf8_lossy(&name_of(list, code)).into_owned()
}

/// The name of what a report tells of: that of its code, which one of cash has
/// not.
pub fn report_name<'t>(list: &List<'t>, report: &Report) -> Cow<'t, [u8]> {
    match report.report_type {
        ReportType::Unit | ReportType::Stock => name_of(list, report.code),
        ReportType::Cash => Cow::Borrowed(b"cash"),
    }
}

/// The same as text.
pub fn text_report_name(list: &List<'_>, report: &Report) -> String {
    String::from_utf8_lossy(&report_name(list, report)).into_owned()
}
