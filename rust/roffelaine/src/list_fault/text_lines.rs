//! The lines of a text.

use super::form::LINE_END;

/// A line, which runs to its first CR LF or to the end of the text.
#[derive(Clone, Copy)]
pub struct Line<'t> {
    /// Where it starts in the text.
    pub start: usize,
    /// Its bytes without its end.
    pub bytes: &'t [u8],
    pub is_ended: bool,
}

impl<'t> Line<'t> {
    fn at(text: &'t [u8], start: usize) -> Self {
        let rest = &text[start..];
        let end = rest
            .windows(LINE_END.len())
            .position(|pair| pair == LINE_END);
        Line {
            start,
            bytes: &rest[..end.unwrap_or(rest.len())],
            is_ended: end.is_some(),
        }
    }

    fn next_start(&self) -> usize {
        self.start + self.bytes.len() + LINE_END.len()
    }
}

/// The lines of a text. The last has no end; it is empty where the text ends in
/// CR LF.
pub fn lines(text: &[u8]) -> impl Iterator<Item = Line<'_>> {
    std::iter::successors(Some(Line::at(text, 0)), |line| {
        line.is_ended.then(|| Line::at(text, line.next_start()))
    })
}

/// The line in which a place stands, and its number from 0.
pub fn line_with(text: &[u8], place: usize) -> Option<(usize, Line<'_>)> {
    let numbered = lines(text).enumerate();
    numbered.take_while(|(_, line)| line.start <= place).last()
}

#[cfg(test)]
mod tests {
    use super::*;

    #[test]
    fn lines_end_in_cr_lf_alone() {
        let text = b"a\r\n\r\nb\nc\rd\r\n";
        let found: Vec<_> = lines(text).map(|line| (line.start, line.bytes)).collect();
        let expected: [(usize, &[u8]); 4] = [(0, b"a"), (3, b""), (5, b"b\nc\rd"), (12, b"")];
        assert_eq!(found, expected);
        for (place, number) in [(0, 0), (2, 0), (3, 1), (11, 2), (12, 3), (99, 3)] {
            assert_eq!(line_with(text, place).map(|found| found.0), Some(number));
        }
    }
}
