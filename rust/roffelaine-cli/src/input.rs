//! A file with a list, and perhaps the lines of a day behind it.

use crate::flag_rows::{above_first_open, GivenRows};
use crate::reasons;
use roffelaine::{lines_in_lf, list_end, with_crlf, FlagTable, List, ListFault, Refusal};
use std::borrow::Cow;
use std::ffi::OsStr;
use std::fmt;
use std::fs::File;
use std::io::Read;

/// A file as it was read.
pub struct Input {
    /// Its name, as messages say it.
    pub name: String,
    bytes: Vec<u8>,
    list_end: usize,
    /// How many lines of the list were mended.
    pub mended: usize,
    /// The rows of the flag table that the list is read under, which the lines
    /// above the first `open` give, and why one of these lines gives none.
    pub rows: GivenRows,
    faulty_row: Option<String>,
}

/// A list that is refused, and why, with the file's name.
pub struct RefusedList {
    pub refusal: Refusal,
    pub reason: String,
}

impl fmt::Display for RefusedList {
    fn fmt(&self, out: &mut fmt::Formatter<'_>) -> fmt::Result {
        let (number, place) = (self.refusal.number(), self.refusal.place());
        write!(out, "list refused {number} {place}: {}", self.reason)
    }
}

impl Input {
    /// Reads a file, or standard input for `-`. With `crlf`, lines of the list
    /// that end in LF alone end in CRLF.
    pub fn read(file: &OsStr, crlf: bool) -> Result<Self, String> {
        let name = file.to_string_lossy().into_owned();
        let bytes = read(file)?;
        let mut input = Input {
            name,
            list_end: list_end(&bytes),
            bytes,
            mended: 0,
            rows: GivenRows::default(),
            faulty_row: None,
        };
        if crlf {
            input.mended = lines_in_lf(input.list_text());
            let mut bytes = with_crlf(input.list_text()).into_owned();
            bytes.extend_from_slice(&input.bytes[input.list_end..]);
            input.bytes = bytes;
            input.list_end += input.mended;
        }
        (input.rows, input.faulty_row) = above_first_open(input.texts());
        Ok(input)
    }

    /// The list's part.
    fn list_text(&self) -> &[u8] {
        &self.bytes[..self.list_end]
    }

    /// The whole file, its list mended where that was asked for.
    pub fn bytes(&self) -> &[u8] {
        &self.bytes
    }

    /// The list, or what is wrong with it.
    pub fn list(&self) -> Result<List<'_>, RefusedList> {
        let table = self.rows.table().unwrap_or_default();
        let read = List::read_with_table(self.list_text(), &table);
        read.map_err(|refusal| RefusedList {
            refusal,
            reason: self.reason(&table, refusal),
        })
    }

    /// Why the list is refused. A line that was to give a row of the table and
    /// does not may be the cause.
    fn reason(&self, table: &FlagTable, refusal: Refusal) -> String {
        let fault = ListFault::of_with_table(self.list_text(), refusal, table);
        let mut reason = match (refusal, fault) {
            (Refusal::FlagTable { place }, _) => reasons::flag_table(table, place as usize),
            (_, Some(fault)) => format!("{}:{fault}", self.name),
            (_, None) => refusal.words().to_string(),
        };
        if let Some(why) = &self.faulty_row {
            reason += &format!("; {why}");
        }
        reason
    }

    /// The lines behind the list, with their numbers in the file.
    pub fn lines(&self) -> impl Iterator<Item = (usize, &[u8])> {
        let before = self.list_text().iter().filter(|&&byte| byte == b'\n');
        let first = before.count() + 1;
        let lines = self.bytes[self.list_end..].split(|&byte| byte == b'\n');
        (first..).zip(lines)
    }

    /// The same as text; bytes that are no UTF-8 are replaced.
    pub fn texts(&self) -> impl Iterator<Item = (usize, Cow<'_, str>)> {
        let lines = self.lines();
        lines.map(|(line, bytes)| (line, String::from_utf8_lossy(bytes)))
    }
}

/// The bytes of a file, or of standard input for `-`.
pub fn read(file: &OsStr) -> Result<Vec<u8>, String> {
    let mut bytes = Vec::new();
    let read = match file.to_str() {
        Some("-") => std::io::stdin().lock().read_to_end(&mut bytes),
        _ => File::open(file).and_then(|mut opened| opened.read_to_end(&mut bytes)),
    };
    match read {
        Ok(_) => Ok(bytes),
        Err(error) => Err(format!("{}: {error}", file.to_string_lossy())),
    }
}
