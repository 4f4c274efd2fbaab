//! What an engine offers to be compared, and the model as one.

use crate::flat::{field_numbers, part_numbers, FIELD_NUMBERS, PART_NUMBERS};
use crate::model::list::{self, Writing};
use crate::model::{self, Call, Day, Lengths, Lists, Opening, PerList, Reply, Work};
use std::ops::Range;

/// The day and all that calls on it are lent.
#[derive(Clone, Debug, PartialEq, Eq)]
pub struct Lent {
    pub day: Day,
    pub book: Vec<u64>,
    pub prices: Vec<u64>,
    /// The runs of records and of reports to both parties. An order called
    /// alone is lent the front of each, one in the driver the parts that its
    /// row names.
    pub runs: Runs,
}

/// The three runs that orders are lent.
pub type Runs = PerList<Vec<u64>>;

impl Runs {
    pub fn lengths(&self) -> Lengths {
        self.as_ref().map(Vec::len)
    }

    pub fn lend(&mut self) -> Lists<'_> {
        self.as_mut().map(|run| &mut run[..])
    }

    /// Lists of such lengths at the front of the runs, which must have them.
    pub fn front(&mut self, lengths: Lengths) -> Lists<'_> {
        let lists = self.lend().zip(lengths);
        lists.map(|(run, length)| &mut run[..length])
    }
}

/// What reading a list is lent, besides the text.
#[derive(Clone, Debug, PartialEq, Eq)]
pub struct LentList {
    pub components: Vec<u64>,
    pub fields: [u64; FIELD_NUMBERS],
    /// Where the first component line starts.
    pub first_row: u64,
}

/// The calls of the day book. Whatever an engine is lent, it must leave what
/// the paper says, places past the last too.
pub trait Engine {
    /// Opens the day; the lent day, book and prices are filled.
    fn open(&self, opening: &Opening<'_>, lent: &mut Lent) -> Reply;

    /// Makes one call with the test of the day.
    fn call(&self, call: &Call, lent: &mut Lent) -> Reply;

    /// The driver: makes the calls that the rows name, with one test of the
    /// day where that is enough.
    fn run(&self, rows: &[u64], lent: &mut Lent, answers: &mut [u64]) -> Reply;

    /// The same, with the test of the day in each call.
    fn run_one_by_one(&self, rows: &[u64], lent: &mut Lent, answers: &mut [u64]) -> Reply;

    /// Reads a list under the table of a run, under ours where it is empty; the
    /// value of the reply is its count of components.
    fn read(&self, text: &[u8], table: &[u64], lent: &mut LentList) -> Reply;

    /// Where the name of a component stands in a text whose first component
    /// line starts at `first_row`: its place and length go to the front of the
    /// lent part if there is room for both. Gives the length.
    fn name(&self, text: &[u8], first_row: u64, component: u64, part: &mut [u64]) -> u64;

    /// Where the letters of a text's first line stand, in the same way.
    fn letters(&self, text: &[u8], part: &mut [u64]) -> u64;

    /// Writes a list to the lent output; the value of the reply is the count
    /// of bytes.
    fn write(&self, list: &Writing<'_>, output: &mut [u8]) -> Reply;
}

/// The model of this crate.
pub struct Model;

impl Lent {
    /// What the model's driver works on.
    fn work(&mut self) -> Work<'_> {
        Work {
            day: &self.day,
            book: &mut self.book,
            prices: &mut self.prices,
            runs: self.runs.lend(),
        }
    }
}

/// Stores a part's place and length if there is room for both, and gives the
/// length.
fn store_part(found: Option<Range<usize>>, part: &mut [u64]) -> u64 {
    let numbers = part_numbers(found);
    if let Some(front) = part.first_chunk_mut::<PART_NUMBERS>() {
        *front = numbers;
    }
    numbers[1]
}

impl Engine for Model {
    fn open(&self, opening: &Opening<'_>, lent: &mut Lent) -> Reply {
        match model::open(opening, &mut lent.book, &mut lent.prices) {
            Ok(day) => {
                lent.day = day;
                Reply::accepted(0)
            }
            Err(refusal) => refusal.into(),
        }
    }

    fn call(&self, call: &Call, lent: &mut Lent) -> Reply {
        let Lent {
            day,
            book,
            prices,
            runs,
        } = lent;
        model::call(day, book, prices, runs.front(call.lengths()), call)
    }

    fn run(&self, rows: &[u64], lent: &mut Lent, answers: &mut [u64]) -> Reply {
        model::run(&mut lent.work(), rows, answers)
    }

    fn run_one_by_one(&self, rows: &[u64], lent: &mut Lent, answers: &mut [u64]) -> Reply {
        model::run_one_by_one(&mut lent.work(), rows, answers)
    }

    fn read(&self, text: &[u8], table: &[u64], lent: &mut LentList) -> Reply {
        match list::read(text, table, &mut lent.components) {
            Ok(list) => {
                lent.fields = field_numbers(&list.head, list.count);
                lent.first_row = list.first_row as u64;
                Reply::accepted(list.count)
            }
            Err(refusal) => refusal.into(),
        }
    }

    fn name(&self, text: &[u8], first_row: u64, component: u64, part: &mut [u64]) -> u64 {
        store_part(list::name_behind(text, first_row, component), part)
    }

    fn letters(&self, text: &[u8], part: &mut [u64]) -> u64 {
        store_part(list::letters_of(text), part)
    }

    fn write(&self, list: &Writing<'_>, output: &mut [u8]) -> Reply {
        list::write(list, output)
    }
}
