//! Posted against book.

use crate::posting::{held, Posting};
use roffelaine::Book;

/// A position as it was posted and as the book has it.
#[derive(Clone, Copy, Debug, PartialEq, Eq)]
pub struct Compared {
    pub account: usize,
    pub place: usize,
    pub posted: i128,
    pub book: i128,
}

impl Compared {
    pub fn agrees(&self) -> bool {
        self.posted == self.book
    }
}

/// All positions of an account.
pub fn compared<'b>(
    posting: &'b Posting,
    book: &'b Book<'b>,
    account: usize,
) -> impl Iterator<Item = Compared> + 'b {
    (0..posting.places()).map(move |place| Compared {
        account,
        place,
        posted: posting.at(account, place).posted(),
        book: held(book, account, place),
    })
}
