//! A flag table that a day is opened with.

use roffelaine::{FlagColumn, FlagTable, FLAGS, FLAG_COLUMNS};
use std::io::{self, Write};

/// The headings of the columns, in the order of `FlagColumn::ALL`.
const HEADINGS: [&str; FLAG_COLUMNS] = [
    "Stock moves",
    "Shortage in cash",
    "Rate used",
    "Amount used",
    "Shanghai",
    "Priced",
    "In use",
];

/// Writes a row for each flag; of one that is not in use only that.
pub fn table(out: &mut impl Write, table: &FlagTable) -> io::Result<()> {
    write!(
        out,
        "<details open><summary>Flag table of the day</summary>\
         <div class=\"w\"><table><thead><tr><th scope=\"col\">Flag</th>"
    )?;
    for heading in HEADINGS {
        write!(out, "<th scope=\"col\" class=\"t\">{heading}</th>")?;
    }
    write!(out, "</tr></thead><tbody>")?;
    for flag in 0..FLAGS {
        write!(out, "<tr><th scope=\"row\">{flag}</th>")?;
        for column in FlagColumn::ALL {
            let word = cell(table, flag as u64, column);
            write!(out, "<td class=\"t\">{word}</td>")?;
        }
        write!(out, "</tr>")?;
    }
    write!(out, "</tbody></table></div></details>")
}

fn cell(table: &FlagTable, flag: u64, column: FlagColumn) -> &'static str {
    match column {
        _ if table.says(flag, column) => "yes",
        FlagColumn::InUse => "no",
        _ if table.says(flag, FlagColumn::InUse) => "no",
        _ => "",
    }
}
