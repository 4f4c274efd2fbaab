//! A day in pages of its own, with all that its calls are lent.

use super::system::Run;
use roffelaine::lent;
use roffelaine_check::archive;
use roffelaine_check::engine::Lent;
use roffelaine_check::flat::{day_numbers, day_of};
use roffelaine_check::model::{lengths_for, Call, Counts, Lengths, PerList, Reply, ANSWER_NUMBERS};
use std::ops::Range;

/// A day and what its calls are lent, each run in pages of its own.
pub struct Memory {
    pub day: Run,
    pub book: Run,
    pub prices: Run,
    pub lists: PerList<Run>,
    /// The answers, four numbers to each call.
    pub answers: Run,
}

/// Some pages of each run but the answers, which every call writes.
#[derive(Default)]
pub struct Pages {
    pub day: Vec<usize>,
    pub book: Vec<usize>,
    pub prices: Vec<usize>,
    pub lists: PerList<Vec<usize>>,
}

impl Memory {
    pub fn of(start: &Lent, answers: usize) -> Self {
        Memory {
            day: Run::of(&day_numbers(&start.day)),
            book: Run::of(&start.book),
            prices: Run::of(&start.prices),
            lists: start.runs.as_ref().map(|run| Run::of(run)),
            answers: Run::of(&vec![7; answers]),
        }
    }

    /// All pages.
    pub fn all_pages(&self) -> Pages {
        Pages {
            day: self.day.pages_without(&[]),
            book: self.book.pages_without(&[]),
            prices: self.prices.pages_without(&[]),
            lists: self.lists.as_ref().map(|list| list.pages_without(&[])),
        }
    }

    /// All pages but those with some parts of the book, and with what the calls
    /// write to their lists by these answers.
    pub fn pages_without(&self, book: &[Range<usize>], calls: &[Call], answers: &[u64]) -> Pages {
        let mut written = PerList::<Vec<Range<usize>>>::default();
        for (at, answer) in answers.chunks_exact(ANSWER_NUMBERS).enumerate() {
            let made = lengths_for(Counts {
                records: answer[2],
                reports: answer[3],
            });
            let parts = written.as_mut().zip(starts(calls, at)).zip(made);
            parts.map(|((parts, start), made)| parts.push(start..start + made));
        }
        let lists = self.lists.as_ref().zip(written);
        Pages {
            book: self.book.pages_without(book),
            lists: lists.map(|(list, written)| list.pages_without(&written)),
            ..self.all_pages()
        }
    }

    /// From here on these pages may only be read, by this process.
    pub fn protect(&self, pages: &Pages) -> bool {
        let lists = self.lists.as_ref().zip(pages.lists.as_ref());
        self.day.protect(&pages.day)
            && self.book.protect(&pages.book)
            && self.prices.protect(&pages.prices)
            && lists.map(|(list, pages)| list.protect(pages)) == PerList::from([true; 3])
    }

    /// Makes one of some calls, with its parts of the lists, and puts its
    /// answer.
    pub fn call(&mut self, calls: &[Call], at: usize) {
        let call = &calls[at];
        let parts = starts(calls, at).zip(call.lengths());
        let lists = self.lists.as_mut().zip(parts);
        let lists = lists.map(|(run, (start, length))| &mut run.numbers_mut()[start..][..length]);
        let (book, prices) = (self.book.numbers_mut(), self.prices.numbers_mut());
        let reply = archive::call(self.day.numbers(), book, prices, lists, call);
        let answer = &mut self.answers.numbers_mut()[ANSWER_NUMBERS * at..];
        answer[..ANSWER_NUMBERS].copy_from_slice(&reply.numbers());
    }

    /// Makes the calls of some rows in the driver.
    pub fn run(&mut self, rows: &[u64]) -> Reply {
        let lists = self.lists.as_mut().map(|run| run.numbers_mut());
        let (book, prices) = (self.book.numbers_mut(), self.prices.numbers_mut());
        let (lists, answers) = (archive::lists_of(lists), self.answers.numbers_mut());
        lent::run(self.day.numbers(), book, prices, rows, lists, answers).into()
    }

    /// What the calls left.
    pub fn left(&self, start: &Lent) -> Lent {
        let day = self.day.numbers().try_into().expect("the numbers of a day");
        assert_eq!(day, day_numbers(&start.day));
        Lent {
            day: day_of(&day),
            book: self.book.numbers().to_vec(),
            prices: self.prices.numbers().to_vec(),
            runs: self.lists.as_ref().map(|list| list.numbers().to_vec()),
        }
    }
}

/// Where the parts of a call start: behind those of the calls before it.
fn starts(calls: &[Call], at: usize) -> Lengths {
    let none = Lengths::default();
    calls[..at].iter().fold(none, |starts, call| {
        let both = starts.zip(call.lengths());
        both.map(|(start, length)| start + length)
    })
}
