//! Positions that a keeper gives, as rows `account,code,quantity`.

mod fields;

use crate::input;
use fields::{fields, Fault, Field};
use roffelaine::{List, Money, Units};
use std::collections::btree_map::{BTreeMap, Entry};
use std::collections::BTreeSet;
use std::ffi::OsStr;
use std::fmt;

/// A file of positions as it was read.
pub struct GivenFile {
    /// Its name, as messages say it.
    pub name: String,
    pub bytes: Vec<u8>,
}

impl GivenFile {
    /// Reads a file, or standard input for `-`.
    pub fn read(file: &OsStr) -> Result<Self, String> {
        let name = file.to_string_lossy().into_owned();
        let bytes = input::read(file)?;
        Ok(GivenFile { name, bytes })
    }
}

/// The positions of a file, by account and place: the lines of the list, the
/// unit's behind the components, and cash last.
#[derive(Debug, Default)]
pub struct Positions {
    rows: BTreeMap<(u64, usize), Row>,
    faults: Vec<RowFault>,
}

#[derive(Clone, Copy, Debug, PartialEq, Eq)]
struct Row {
    /// Shares or units; thousandths of a yuan for cash.
    quantity: u64,
    line: usize,
    /// The column of its account.
    column: usize,
}

/// A row that is not understood, and the line that it stands in.
#[derive(Clone, Debug, PartialEq, Eq)]
pub struct RowFault {
    line: usize,
    fault: Fault,
}

impl fmt::Display for RowFault {
    fn fmt(&self, out: &mut fmt::Formatter<'_>) -> fmt::Result {
        let Fault { column, found, why } = &self.fault;
        write!(out, "{}:{column} {found:?}: {why}", self.line)
    }
}

const BYTE_ORDER_MARK: char = '\u{feff}';
const HEADER: [&str; 3] = ["account", "code", "quantity"];
const CASH: &str = "cash";

impl Positions {
    /// Reads a file. Codes must be the list's; accounts are tested by
    /// [`Positions::faults`].
    pub fn read(list: &List<'_>, bytes: &[u8]) -> Self {
        let mut positions = Positions::default();
        let text = String::from_utf8_lossy(bytes);
        let text = text.strip_prefix(BYTE_ORDER_MARK).unwrap_or(&text);
        let mut is_first = true;
        for (line, text) in (1..).zip(text.split('\n')) {
            let text = text.trim_end();
            if text.trim_start().starts_with('#') {
                continue;
            }
            let read = match fields(text) {
                Ok(fields) if fields.iter().all(Field::is_empty) => continue,
                Ok(fields) if is_first && is_header(&fields) => Ok(()),
                Ok(fields) if fields.len() == 1 => {
                    Err(fields[0].fault("a row is account,code,quantity, parted by commas"))
                }
                Ok(fields) if is_first && has_names(&fields) => {
                    Err(fields[0].fault("a row of names is account,code,quantity"))
                }
                Ok(fields) => positions.row(list, line, &fields),
                Err(fault) => Err(fault),
            };
            let fault = read.err().map(|fault| RowFault { line, fault });
            positions.faults.extend(fault);
            is_first = false;
        }
        positions
    }

    fn row(&mut self, list: &List<'_>, line: usize, fields: &[Field<'_>]) -> Result<(), Fault> {
        let account_field = named(fields, 0, "the account")?;
        let account = account_field.amount::<Units>()?.0;
        let code = named(fields, 1, "the code")?;
        let place = place_of(list, code)?;
        let quantity = named(fields, 2, "the quantity")?;
        if let Some(more) = fields.get(HEADER.len()) {
            return Err(more.fault("one field too many (a number is written without commas)"));
        }
        let quantity = if place == cash_place(list) {
            quantity.amount::<Money>()?.0
        } else {
            quantity.amount::<Units>()?.0
        };
        match self.rows.entry((account, place)) {
            Entry::Vacant(vacant) => {
                let column = account_field.column;
                vacant.insert(Row {
                    quantity,
                    line,
                    column,
                });
                Ok(())
            }
            Entry::Occupied(before) => {
                let line = before.get().line;
                Err(code.fault(&format!("given for account {account} in line {line}")))
            }
        }
    }

    /// The rows that are not understood, in their order; no account is known
    /// where no day is open, and none is tested.
    pub fn faults(&self, accounts: usize) -> Vec<RowFault> {
        let unknown = self.rows.range((accounts as u64, 0)..);
        let unknown = unknown.filter(|_| accounts > 0);
        let unknown = unknown.map(|(&(account, _), row)| RowFault {
            line: row.line,
            fault: Fault {
                column: row.column,
                found: account.to_string(),
                why: format!("the day has the accounts 0 to {}", accounts - 1),
            },
        });
        let mut faults: Vec<_> = self.faults.iter().cloned().chain(unknown).collect();
        faults.sort_by_key(|fault| fault.line);
        faults
    }

    /// How many positions are given.
    pub fn count(&self) -> usize {
        self.rows.len()
    }

    /// The quantity that is given for a place of an account.
    pub fn at(&self, account: usize, place: usize) -> Option<i128> {
        let row = self.rows.get(&(account as u64, place));
        row.map(|row| row.quantity.into())
    }

    /// The accounts of which at least one position is given.
    pub fn accounts(&self) -> BTreeSet<usize> {
        let accounts = self.rows.keys().map(|&(account, _)| account as usize);
        accounts.collect()
    }
}

/// A field that must be there.
fn named<'f, 'l>(fields: &'f [Field<'l>], at: usize, name: &str) -> Result<&'f Field<'l>, Fault> {
    let missing = |column| Fault {
        column,
        found: String::new(),
        why: format!("{name} is missing"),
    };
    match fields.get(at) {
        Some(field) if !field.is_empty() => Ok(field),
        Some(empty) => Err(missing(empty.column)),
        None => Err(missing(fields.last().map_or(1, Field::end))),
    }
}

/// Whether a row has no digit anywhere, as one of names has not.
fn has_names(fields: &[Field<'_>]) -> bool {
    let mut bytes = fields.iter().flat_map(|field| field.text.bytes());
    !bytes.any(|byte| byte.is_ascii_digit())
}

fn is_header(fields: &[Field<'_>]) -> bool {
    let names = fields.iter().map(|field| field.text.to_ascii_lowercase());
    names.eq(HEADER)
}

/// The place of cash, behind the unit's.
fn cash_place(list: &List<'_>) -> usize {
    list.components.len() + 1
}

/// The place of a code: a component's, the unit's under the first code, or
/// that of cash.
fn place_of(list: &List<'_>, field: &Field<'_>) -> Result<usize, Fault> {
    let text = field.text;
    if text.eq_ignore_ascii_case(CASH) {
        return Ok(cash_place(list));
    }
    let is_code = text.len() == 6 && text.bytes().all(|byte| byte.is_ascii_digit());
    let code: Option<u64> = text.parse().ok().filter(|_| is_code);
    let code = code.ok_or_else(|| field.fault("a code has six digits, or is cash"))?;
    let first = list.head.fund.first_code;
    let line = list.line_of(code);
    line.ok_or_else(|| match code.checked_sub(first) {
        Some(1) => field.fault(&format!("units stand under the first code, {first:06}")),
        Some(2 | 5) => field.fault("cash stands under the code cash"),
        _ => field.fault("neither a component of the list nor the unit"),
    })
}

#[cfg(test)]
mod tests {
    use super::*;
    use crate::sample::{self, list, CMB, UNIT};

    /// All positions as account, place and quantity.
    fn rows(text: &str) -> Vec<(u64, usize, u64)> {
        let positions = Positions::read(&list(), text.as_bytes());
        assert_eq!(positions.faults, [], "{text:?}");
        let rows = positions.rows.iter();
        rows.map(|(&(account, place), row)| (account, place, row.quantity))
            .collect()
    }

    fn faults(text: &str) -> Vec<String> {
        let positions = Positions::read(&list(), text.as_bytes());
        let faults = positions.faults(3);
        faults.iter().map(RowFault::to_string).collect()
    }

    #[test]
    fn rows_stand_by_account_and_place() {
        let text = "1,cash,1500000.5\n0,600036,7\n1,510300,18446744073709551615\n1,000001,0\n";
        let expected = [
            (0, CMB, 7),
            (1, 0, 0),
            (1, UNIT, u64::MAX),
            (1, sample::CASH, 1_500_000_500),
        ];
        assert_eq!(rows(text), expected);
    }

    #[test]
    fn headers_marks_blanks_quotes_and_line_ends_are_passed_over() {
        let row = [(1, CMB, 30)];
        let texts = [
            "1,600036,30",
            "account,code,quantity\n1,600036,30\n",
            "\u{feff}Account,CODE,Quantity\r\n1,600036,30\r\n",
            "# kept by account 1\n\n \"account\" , code ,\tquantity\r\n\r\n 1 ,\t600036 , 30 \r\n",
            "\u{feff}\"1\",\"600036\",\" 30 \"\r\n  # the end\r\n,,\r\n\r\n",
        ];
        for text in texts {
            assert_eq!(rows(text), row, "{text:?}");
        }
        assert_eq!(rows("1,Cash,0.001"), [(1, sample::CASH, 1)]);
        assert_eq!(rows(""), []);
    }

    const FAULTY: [(&str, &str); 16] = [
        (
            "1,600036,\"1,000\"",
            "1:12 \"1,000\": a number is written without commas",
        ),
        (
            "1,600036,1,000",
            "1:12 \"000\": one field too many (a number is written without commas)",
        ),
        ("1,600036,-5", "1:10 \"-5\": a number has digits alone"),
        (
            "1,600036,1.5",
            "1:10 \"1.5\": a whole number has no decimals",
        ),
        ("1,cash,0.0001", "1:8 \"0.0001\": at most 3 decimals"),
        (
            "1,cash,18446744073709551.616",
            "1:8 \"18446744073709551.616\": more than 18446744073709551.615",
        ),
        ("1,600036", "1:9 \"\": the quantity is missing"),
        ("1,600036, \r\n", "1:10 \"\": the quantity is missing"),
        ("1,,5", "1:3 \"\": the code is missing"),
        ("1,1,5", "1:3 \"1\": a code has six digits, or is cash"),
        (
            "1,600037,5",
            "1:3 \"600037\": neither a component of the list nor the unit",
        ),
        (
            "1,510301,5",
            "1:3 \"510301\": units stand under the first code, 510300",
        ),
        (
            "1,510305,5",
            "1:3 \"510305\": cash stands under the code cash",
        ),
        (
            "holder,code,quantity",
            "1:1 \"holder\": a row of names is account,code,quantity",
        ),
        (
            "1;600036;5",
            "1:1 \"1;600036;5\": a row is account,code,quantity, parted by commas",
        ),
        (
            " \"3\",600036,5",
            "1:3 \"3\": the day has the accounts 0 to 2",
        ),
    ];

    #[test]
    fn faults_say_where_and_why() {
        for (text, fault) in FAULTY {
            assert_eq!(faults(text), [fault], "{text:?}");
        }
    }

    #[test]
    fn all_faults_are_said_in_the_order_of_lines() {
        let text = "9,cash,1\n1,cash,1\n1,cash,2\naccount,code,quantity\n";
        assert_eq!(
            faults(text),
            [
                "1:1 \"9\": the day has the accounts 0 to 2",
                "3:3 \"cash\": given for account 1 in line 2",
                "4:1 \"account\": a number has digits alone",
            ]
        );
    }
}
