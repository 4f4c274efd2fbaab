//! How the items of a page look.

use std::fmt;

/// How an item looks, as attributes.
#[derive(Clone, Copy)]
pub enum How {
    Plain,
    Refused,
    /// A line that needs to be looked at.
    Odd,
    /// With so many rows of a table, for its height before it is drawn.
    Rows(usize),
}

impl How {
    /// Plain with the rows of a table and its header, where there are any.
    pub fn of_rows(rows: usize) -> Self {
        match rows {
            0 => How::Plain,
            rows => How::Rows(rows + 2),
        }
    }
}

impl fmt::Display for How {
    fn fmt(&self, out: &mut fmt::Formatter<'_>) -> fmt::Result {
        match self {
            How::Plain => Ok(()),
            How::Refused => out.write_str(" class=\"no\""),
            How::Odd => out.write_str(" class=\"odd\""),
            How::Rows(rows) => write!(out, " style=\"--r:{rows}\""),
        }
    }
}
