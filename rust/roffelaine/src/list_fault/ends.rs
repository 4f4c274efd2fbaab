//! The ends of lines.

use super::form::{END, LINE_END};
use super::ListFault;
use std::borrow::Cow;

/// How many lines of a text end in LF alone; those of a list end in CR and LF.
pub fn lines_in_lf(text: &[u8]) -> usize {
    lf_places(text).count()
}

/// The text with CR and LF at the end of every line that ended in LF alone.
///
/// ```
/// assert_eq!(*roffelaine::with_crlf(b"TAGTAG\r\nENDENDEND\n"), *b"TAGTAG\r\nENDENDEND\r\n");
/// ```
pub fn with_crlf(text: &[u8]) -> Cow<'_, [u8]> {
    let count = lines_in_lf(text);
    if count == 0 {
        return Cow::Borrowed(text);
    }
    let mut out = Vec::with_capacity(text.len() + count);
    let mut from = 0;
    for place in lf_places(text) {
        out.extend_from_slice(&text[from..place]);
        out.extend_from_slice(LINE_END);
        from = place + 1;
    }
    out.extend_from_slice(&text[from..]);
    Cow::Owned(out)
}

/// Where the list ends in a text that has other lines behind it: behind the
/// line `ENDENDEND` with its end, also if that is LF alone. The whole text where
/// there is no such line.
///
/// ```
/// assert_eq!(roffelaine::list_end(b"TAGTAG\r\nENDENDEND\r\nprice 600036 40\n"), 19);
/// ```
pub fn list_end(text: &[u8]) -> usize {
    let mut end = 0;
    for line in text.split_inclusive(|&byte| byte == b'\n') {
        end += line.len();
        let bytes = line.strip_suffix(LINE_END);
        if bytes.or(line.strip_suffix(b"\n")) == Some(END) {
            return end;
        }
    }
    text.len()
}

fn lf_places(text: &[u8]) -> impl Iterator<Item = usize> + '_ {
    let is_alone = |at: usize| at.checked_sub(1).is_none_or(|before| text[before] != b'\r');
    (0..text.len()).filter(move |&at| text[at] == b'\n' && is_alone(at))
}

/// The fault of a line that ends at a place in other than CR and LF.
pub fn end_fault(text: &[u8], place: usize) -> ListFault {
    let found = end_name(&text[place..]);
    let expected = match found.as_str() {
        "LF" => lf_words(lines_in_lf(text)),
        "" => "the file ends here; its last line ends in CRLF too".to_owned(),
        _ => "lines end in CRLF".to_owned(),
    };
    ListFault::new(text, place, "line end", found.as_bytes(), expected)
}

fn lf_words(count: usize) -> String {
    let (lines, them) = match count {
        1 => ("1 line ends".to_owned(), "it"),
        _ => (format!("{count} lines end"), "them"),
    };
    format!("lines end in CRLF; {lines} in LF alone, --crlf mends {them}")
}

/// The name of the line end that a text starts with: some CR, an LF, or both.
fn end_name(text: &[u8]) -> String {
    let count = text.iter().take_while(|&&byte| byte == b'\r').count();
    let mut names = vec!["CR"; count];
    if text.get(count) == Some(&b'\n') {
        names.push("LF");
    }
    names.join(" ")
}

#[cfg(test)]
mod tests {
    use super::*;

    #[test]
    fn lf_becomes_crlf() {
        let rows: [(&[u8], usize, &[u8]); 6] = [
            (b"", 0, b""),
            (b"\n", 1, b"\r\n"),
            (b"a\nb\r\nc\n\n", 3, b"a\r\nb\r\nc\r\n\r\n"),
            (b"a\r\nb\r\n", 0, b"a\r\nb\r\n"),
            (b"\ra\r\r\nb", 0, b"\ra\r\r\nb"),
            (b"a\n\rb", 1, b"a\r\n\rb"),
        ];
        for (text, count, mended) in rows {
            assert_eq!((lines_in_lf(text), &*with_crlf(text)), (count, mended));
            assert_eq!(lines_in_lf(mended), 0);
        }
        assert!(matches!(with_crlf(b"a\r\n"), Cow::Borrowed(_)));
    }

    #[test]
    fn the_list_ends_behind_its_last_line() {
        let rows: [(&[u8], usize); 9] = [
            (b"", 0),
            (b"ENDENDEND\r\n", 11),
            (b"ENDENDEND\nprice 1 2\n", 10),
            (b"a\r\nENDENDEND\r\nopen\nENDENDEND\r\n", 14),
            (b"a\nENDENDEND\nopen\n", 12),
            (b"a\r\nENDENDEND", 12),
            (b"ENDENDEND \r\nopen\r\n", 18),
            (b" ENDENDEND\r\nopen\r\n", 18),
            (b"ENDENDEND\r\r\nopen", 16),
        ];
        for (text, end) in rows {
            assert_eq!(list_end(text), end);
        }
    }

    #[test]
    fn ends_have_names() {
        let rows: [(&[u8], &str); 5] = [
            (b"", ""),
            (b"\nx", "LF"),
            (b"\r", "CR"),
            (b"\rx\n", "CR"),
            (b"\r\r\n", "CR CR LF"),
        ];
        for (text, name) in rows {
            assert_eq!(end_name(text), name);
        }
    }
}
