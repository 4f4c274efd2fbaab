//! The fields of a row, with the column that each starts at.

use roffelaine::AmountError;
use std::str::FromStr;

/// A field without the blanks and quotes around it.
#[derive(Debug, PartialEq, Eq)]
pub struct Field<'l> {
    /// The column of its text, as an editor counts characters.
    pub column: usize,
    pub text: &'l str,
}

/// Why a row is not understood, where and what stands there.
#[derive(Clone, Debug, PartialEq, Eq)]
pub struct Fault {
    pub column: usize,
    pub found: String,
    pub why: String,
}

impl Field<'_> {
    pub fn is_empty(&self) -> bool {
        self.text.is_empty()
    }

    /// The column behind its text.
    pub fn end(&self) -> usize {
        self.column + self.text.chars().count()
    }

    pub fn fault(&self, why: &str) -> Fault {
        Fault {
            column: self.column,
            found: self.text.to_string(),
            why: why.to_string(),
        }
    }

    /// The field as an amount; a fault has the column of the character that
    /// is not understood.
    pub fn amount<T: FromStr<Err = AmountError>>(&self) -> Result<T, Fault> {
        self.text.parse().map_err(|error: AmountError| {
            let fault = self.fault(&error.to_string());
            let before = self.text.get(..error.place()).unwrap_or_default();
            Fault {
                column: self.column + before.chars().count(),
                ..fault
            }
        })
    }
}

/// The fields of a line; there is at least one.
pub fn fields(line: &str) -> Result<Vec<Field<'_>>, Fault> {
    let mut fields = Vec::new();
    let mut rest = line;
    loop {
        let start = rest.trim_start();
        let (field, end) = match start.strip_prefix('"') {
            Some(inner) => quoted(line, inner)?,
            None => {
                let (text, end) = start.split_at(start.find(',').unwrap_or(start.len()));
                (field(line, text, end), end)
            }
        };
        fields.push(field);
        match end.strip_prefix(',') {
            Some(next) => rest = next,
            None => return Ok(fields),
        }
    }
}

/// A field from behind its opening quote, and what follows: a comma or
/// nothing. No field that is understood has a quote in it.
fn quoted<'l>(line: &'l str, inner: &'l str) -> Result<(Field<'l>, &'l str), Fault> {
    let Some((text, behind)) = inner.split_once('"') else {
        return Err(field(line, inner, "").fault("its quote is not closed"));
    };
    let end = behind.trim_start();
    if end.is_empty() || end.starts_with(',') {
        let closed = &inner[text.len()..];
        return Ok((field(line, text, closed), end));
    }
    Err(field(line, end, "").fault("a comma is expected behind the closing quote"))
}

/// A field of a line whose text has blanks around it and `rest` behind it.
fn field<'l>(line: &'l str, text: &'l str, rest: &str) -> Field<'l> {
    let behind = text.trim_start().len() + rest.len();
    let before = &line[..line.len() - behind];
    Field {
        column: before.chars().count() + 1,
        text: text.trim(),
    }
}

#[cfg(test)]
mod tests {
    use super::*;

    fn texts(line: &str) -> Vec<(usize, &str)> {
        let fields = fields(line).expect("fields");
        fields.iter().map(|each| (each.column, each.text)).collect()
    }

    #[test]
    fn fields_have_their_columns() {
        assert_eq!(texts("1,cash,30"), [(1, "1"), (3, "cash"), (8, "30")]);
        assert_eq!(texts(" 1\t, \"a,b\" ,"), [(2, "1"), (7, "a,b"), (13, "")]);
        assert_eq!(texts("\"  x \",é,y"), [(4, "x"), (8, "é"), (10, "y")]);
        assert_eq!(texts(""), [(1, "")]);
        assert_eq!(texts(",\"\""), [(1, ""), (3, "")]);
    }

    #[test]
    fn quotes_that_do_not_fit_are_faults() {
        let faulty = [
            ("1,\"600036,5", 4, "600036,5", "its quote is not closed"),
            (
                "1,\"600\"036,5",
                8,
                "036,5",
                "a comma is expected behind the closing quote",
            ),
        ];
        for (line, column, found, why) in faulty {
            let fault = fields(line).expect_err("a fault");
            assert_eq!(
                (fault.column, &fault.found[..], &fault.why[..]),
                (column, found, why)
            );
        }
    }

    #[test]
    fn a_fault_in_a_number_has_the_column_of_its_character() {
        let number = Field {
            column: 5,
            text: "1,000",
        };
        let fault = number.amount::<roffelaine::Units>().expect_err("a fault");
        assert_eq!((fault.column, &fault.found[..]), (6, "1,000"));
    }
}
