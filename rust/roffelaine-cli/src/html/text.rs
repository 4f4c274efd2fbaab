//! Text and numbers as a page shows them.

use std::fmt::{self, Display, Write};

/// How many characters of a line of the file are shown.
const SHOWN: usize = 300;

/// Text of a file, none of which is taken for markup.
pub struct Escaped<'t>(pub &'t str);

impl Display for Escaped<'_> {
    fn fmt(&self, out: &mut fmt::Formatter<'_>) -> fmt::Result {
        self.0.chars().try_for_each(|each| match each {
            '&' => out.write_str("&amp;"),
            '<' => out.write_str("&lt;"),
            '>' => out.write_str("&gt;"),
            '"' => out.write_str("&quot;"),
            '\'' => out.write_str("&#39;"),
            '\t' => out.write_char(' '),
            hidden if is_hidden(hidden) => out.write_char(char::REPLACEMENT_CHARACTER),
            other => out.write_char(other),
        })
    }
}

/// Whether a character shows nothing, or changes the direction of what stands
/// behind it.
fn is_hidden(character: char) -> bool {
    let is_none = (u32::from(character) & 0xfffe) == 0xfffe;
    let turns = matches!(
        character,
        '\u{61c}' | '\u{200e}' | '\u{200f}' | '\u{202a}'..='\u{202e}' | '\u{2066}'..='\u{2069}'
    );
    character.is_control() || is_none || turns || ('\u{fdd0}'..='\u{fdef}').contains(&character)
}

/// A line of the file, as it stands there.
pub fn code(text: &str) -> String {
    format!("<code>{}</code>", Escaped(text))
}

/// The start of a text that is longer than a page shows.
pub fn shortened(text: &str) -> String {
    match text.char_indices().nth(SHOWN) {
        Some((end, _)) => format!("{} …", &text[..end]),
        None => text.to_string(),
    }
}

/// A number with commas between its thousands.
pub fn grouped(number: impl Display) -> String {
    let number = number.to_string();
    let start = usize::from(number.starts_with('-'));
    let point = number.find('.').unwrap_or(number.len());
    let mut grouped = String::with_capacity(number.len() + number.len() / 3);
    for (at, digit) in number.char_indices() {
        let is_inside = at > start && at < point;
        if is_inside && (point - at).is_multiple_of(3) {
            grouped.push(',');
        }
        grouped.push(digit);
    }
    grouped
}

/// A count with its noun, which takes an s where it is not one.
pub fn counted(count: usize, noun: &str) -> String {
    let ending = if count == 1 { "" } else { "s" };
    format!("{} {noun}{ending}", grouped(count))
}

/// An account's name.
pub fn account_name(account: u64) -> String {
    match account {
        0 => "account 0 (the fund)".to_string(),
        account => format!("account {account}"),
    }
}

#[cfg(test)]
mod tests {
    use super::*;

    #[test]
    fn no_text_is_markup() {
        let text = Escaped("<a href=\"x\">&'\u{0}\u{202e}\u{ffff}\t平").to_string();
        let shown = "&lt;a href=&quot;x&quot;&gt;&amp;&#39;\u{fffd}\u{fffd}\u{fffd} 平";
        assert_eq!(text, shown);
    }

    #[test]
    fn long_lines_are_cut() {
        assert_eq!(shortened(&"平".repeat(SHOWN)), "平".repeat(SHOWN));
        let cut = format!("{} …", "平".repeat(SHOWN));
        assert_eq!(shortened(&"平".repeat(SHOWN + 1)), cut);
    }

    #[test]
    fn thousands_stand_apart() {
        let numbers = [
            ("0", "0"),
            ("999", "999"),
            ("1000", "1,000"),
            ("-123456.789", "-123,456.789"),
            ("1712992.000", "1,712,992.000"),
            ("0.113", "0.113"),
            ("18446744073709551615", "18,446,744,073,709,551,615"),
        ];
        for (number, shown) in numbers {
            assert_eq!(grouped(number), shown);
        }
    }

    #[test]
    fn counts_have_their_nouns() {
        assert_eq!(counted(1, "call"), "1 call");
        assert_eq!(counted(0, "call"), "0 calls");
        assert_eq!(counted(1_200, "call"), "1,200 calls");
    }
}
