//! What is wrong with the form of a component line: its width and its bars.

use super::form::{Column, BAR, COLUMNS, DISCOUNT, ROW_BYTES};

/// Whether a line has the width and the bars of a component line.
pub fn fits(line: &[u8]) -> bool {
    line.len() == ROW_BYTES && missing_bar(line).is_none()
}

/// A fault in a component line's form: where in the line, the field's name and
/// what stands there if one is too wide or too narrow, what is expected.
pub struct RowFault<'t> {
    pub at: usize,
    pub field: Option<(&'static str, &'t [u8])>,
    pub expected: String,
}

/// What is wrong with a line that has a bar but not the form.
pub fn fault(line: &[u8]) -> RowFault<'_> {
    let mut expected = width_words(line);
    if let Some((at, column, part)) = wrong_width(line) {
        let (name, width) = (column.name, column.width);
        expected.push(format!(
            "the {name} has {}, it takes {width}",
            bytes(part.len())
        ));
        return RowFault {
            at,
            field: Some((name, part)),
            expected: expected.join("; "),
        };
    }
    let at = match missing_bar(line) {
        Some(_) if lacks_discount(line) => {
            let width = DISCOUNT.width;
            expected.push(format!(
                "it is a line of an old list, without the discount: \
                 {width} bytes and \"|\" behind the premium"
            ));
            DISCOUNT.start
        }
        Some(bar) => {
            expected.push(format!("column {} is not \"|\"", bar + 1));
            bar.min(line.len())
        }
        None => {
            expected.push("the line ends with its last \"|\"".to_owned());
            ROW_BYTES
        }
    };
    RowFault {
        at,
        field: None,
        expected: expected.join("; "),
    }
}

fn bytes(count: usize) -> String {
    match count {
        1 => "1 byte".to_owned(),
        _ => format!("{count} bytes"),
    }
}

fn width_words(line: &[u8]) -> Vec<String> {
    match line.len() {
        ROW_BYTES => Vec::new(),
        length => vec![format!(
            "the line is {}, a component line has {ROW_BYTES}",
            bytes(length)
        )],
    }
}

/// Whether a line has the form of a component line once a discount stands in
/// it, as the lines of older lists do.
fn lacks_discount(line: &[u8]) -> bool {
    let Some((before, behind)) = line.split_at_checked(DISCOUNT.start) else {
        return false;
    };
    let mut discount = vec![b' '; DISCOUNT.width];
    discount.push(BAR);
    fits(&[before, &discount, behind].concat())
}

/// Where the first bar should stand that does not.
fn missing_bar(line: &[u8]) -> Option<usize> {
    let bars = COLUMNS.iter().map(Column::bar);
    bars.into_iter().find(|&bar| line.get(bar) != Some(&BAR))
}

/// The first field of another width than its column, with its start, where a
/// line has just the bars of a component line and ends with one.
fn wrong_width(line: &[u8]) -> Option<(usize, &'static Column, &[u8])> {
    let parts: Vec<&[u8]> = line
        .strip_suffix(&[BAR])?
        .split(|&byte| byte == BAR)
        .collect();
    if parts.len() != COLUMNS.len() {
        return None;
    }
    let mut at = 0;
    for (column, part) in COLUMNS.iter().zip(parts) {
        if part.len() != column.width {
            return Some((at, column, part));
        }
        at += part.len() + 1;
    }
    None
}
