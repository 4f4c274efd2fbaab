//! What moved and what is held, over the fund and all accounts.

use super::text::{counted, grouped, Escaped};
use crate::names::text_name;
use crate::said::Total;
use crate::text::figures;
use roffelaine::List;
use std::io::{self, Write};

/// Writes the totals at the end of the day.
pub fn section(out: &mut impl Write, list: &List<'_>, totals: &[Total]) -> io::Result<()> {
    write!(out, "<section id=\"totals\"><h2>Totals</h2>")?;
    if totals.is_empty() {
        return writeln!(out, "<p>No day was opened.</p></section>");
    }
    let unbalanced = totals.iter().filter(|total| !total.balances()).count();
    write!(
        out,
        "<p>Over the fund and all accounts, shares and units by code and cash in yuan. \
         Opened with and came in, less went out, is what is held"
    )?;
    match unbalanced {
        0 => write!(out, ": every row balances.</p>")?,
        rows => {
            let (rows, verb) = (counted(rows, "row"), if rows == 1 { "does" } else { "do" });
            write!(out, ".</p><p class=\"no\">{rows} {verb} not balance.</p>")?;
        }
    }
    table(out, list, totals)?;
    writeln!(out, "</section>")
}

/// Writes a row for each line and one for cash.
pub fn table(out: &mut impl Write, list: &List<'_>, totals: &[Total]) -> io::Result<()> {
    write!(
        out,
        "<div class=\"w\"><table><thead><tr><th scope=\"col\">Code</th>\
         <th scope=\"col\" class=\"t\">Name</th><th scope=\"col\">Opened with</th>\
         <th scope=\"col\">Came in</th><th scope=\"col\">Went out</th>\
         <th scope=\"col\">Holds</th></tr></thead><tbody>"
    )?;
    totals.iter().try_for_each(|total| row(out, list, total))?;
    write!(out, "</tbody></table></div>")
}

fn row(out: &mut impl Write, list: &List<'_>, total: &Total) -> io::Result<()> {
    let (code, name) = match total.code {
        Some(code) => (format!("{code:06}"), text_name(list, code)),
        None => ("cash".to_string(), "yuan".to_string()),
    };
    let [opened, came_in, went_out, holds] = figures(total).map(grouped);
    write!(
        out,
        "<tr><th scope=\"row\">{code}</th><td class=\"t\">{}</td><td>{opened}</td>\
         <td>{came_in}</td><td>{went_out}</td><td>{holds}",
        Escaped(&name)
    )?;
    if !total.balances() {
        write!(out, " <strong class=\"no\">does not balance</strong>")?;
    }
    write!(out, "</td></tr>")
}

#[cfg(test)]
mod tests {
    use super::*;
    use roffelaine::Head;

    fn total(code: Option<u64>, holds: i128) -> Total {
        Total {
            code,
            opened: 5_000,
            came_in: 200,
            went_out: 100,
            holds,
        }
    }

    #[test]
    fn a_total_that_does_not_balance_is_marked() {
        let list = List {
            letters: b"",
            head: Head::default(),
            components: Vec::new(),
            names: Vec::new(),
        };
        let page = |totals: &[Total]| {
            let mut out = Vec::new();
            section(&mut out, &list, totals).expect("written");
            String::from_utf8(out).expect("text")
        };
        let balanced = page(&[total(Some(600_000), 5_100), total(None, 5_100)]);
        assert!(balanced.contains("every row balances"));
        assert!(!balanced.contains("does not balance"));
        assert!(balanced.contains("<td>5,100</td>") && balanced.contains("<td>5.100</td>"));
        let wrong = page(&[total(Some(600_000), 5_101), total(None, 5_100)]);
        assert!(wrong.contains("1 row does not balance."));
        assert!(wrong.contains("<td>5,101 <strong class=\"no\">does not balance</strong></td>"));
        assert!(page(&[]).contains("No day was opened."));
    }
}
