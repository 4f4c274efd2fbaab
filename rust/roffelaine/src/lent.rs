//! The archive's functions over lent runs, as safe functions: the layout of each
//! run is that of the C header `include/roffelaine.h`. All `unsafe` of this crate
//! is here.
//!
//! Why the calls are safe: a function of the archive takes a run as a pointer
//! and a length, and each pointer below goes with the length of the slice that
//! it comes from. The slices are borrowed for the whole call, those written to
//! by `&mut`, so that none overlaps another. The functions are proved for
//! every input, to stay within what they are lent and to return; they keep no
//! pointer, allocate nothing and hold no state.

use crate::{Counts, Refusal};

// Lines, accounts and counts of 64 bits cross as `usize`.
const _: () = assert!(usize::BITS == 64);

/// The declarations of include/roffelaine.h.
mod exported {
    unsafe extern "C" {
        pub fn roffelaine_open(
            accounts: usize,
            count: usize,
            fund: *const u64,
            fund_length: usize,
            table: *const u64,
            table_length: usize,
            components: *const u64,
            components_length: usize,
            holdings: *const u64,
            holdings_length: usize,
            book: *mut u64,
            book_length: usize,
            prices: *mut u64,
            prices_length: usize,
            day: *mut u64,
            day_length: usize,
            place: &mut u64,
            value: &mut u64,
        ) -> u64;

        pub fn roffelaine_price(
            day: *const u64,
            day_length: usize,
            book: *const u64,
            book_length: usize,
            prices: *mut u64,
            prices_length: usize,
            line: usize,
            price: u64,
            place: &mut u64,
            value: &mut u64,
        ) -> u64;

        pub fn roffelaine_trade(
            day: *const u64,
            day_length: usize,
            book: *mut u64,
            book_length: usize,
            prices: *const u64,
            prices_length: usize,
            line: usize,
            quantity: u64,
            price: u64,
            seller: usize,
            buyer: usize,
            place: &mut u64,
            value: &mut u64,
        ) -> u64;

        pub fn roffelaine_reference_value(
            day: *const u64,
            day_length: usize,
            book: *const u64,
            book_length: usize,
            prices: *const u64,
            prices_length: usize,
            place: &mut u64,
            value: &mut u64,
        ) -> u64;

        pub fn roffelaine_create(
            day: *const u64,
            day_length: usize,
            book: *mut u64,
            book_length: usize,
            prices: *const u64,
            prices_length: usize,
            account: usize,
            units: u64,
            records: *mut u64,
            records_length: usize,
            investor: *mut u64,
            investor_length: usize,
            fund: *mut u64,
            fund_length: usize,
            place: &mut u64,
            value: &mut u64,
            reports: &mut u64,
        ) -> u64;

        pub fn roffelaine_redeem(
            day: *const u64,
            day_length: usize,
            book: *mut u64,
            book_length: usize,
            prices: *const u64,
            prices_length: usize,
            account: usize,
            units: u64,
            records: *mut u64,
            records_length: usize,
            investor: *mut u64,
            investor_length: usize,
            fund: *mut u64,
            fund_length: usize,
            place: &mut u64,
            value: &mut u64,
            reports: &mut u64,
        ) -> u64;

        pub fn roffelaine_creation_test(
            day: *const u64,
            day_length: usize,
            book: *const u64,
            book_length: usize,
            prices: *const u64,
            prices_length: usize,
            account: usize,
            units: u64,
            records_length: usize,
            investor_length: usize,
            fund_length: usize,
            place: &mut u64,
            value: &mut u64,
            reports: &mut u64,
        ) -> u64;

        pub fn roffelaine_redemption_test(
            day: *const u64,
            day_length: usize,
            book: *const u64,
            book_length: usize,
            prices: *const u64,
            prices_length: usize,
            account: usize,
            units: u64,
            records_length: usize,
            investor_length: usize,
            fund_length: usize,
            place: &mut u64,
            value: &mut u64,
            reports: &mut u64,
        ) -> u64;

        pub fn roffelaine_run(
            day: *const u64,
            day_length: usize,
            book: *mut u64,
            book_length: usize,
            prices: *mut u64,
            prices_length: usize,
            rows: *const u64,
            rows_length: usize,
            records: *mut u64,
            records_length: usize,
            investor: *mut u64,
            investor_length: usize,
            fund: *mut u64,
            fund_length: usize,
            answers: *mut u64,
            answers_length: usize,
            place: &mut u64,
            value: &mut u64,
        ) -> u64;

        pub fn roffelaine_run_public(
            day: *const u64,
            day_length: usize,
            book: *mut u64,
            book_length: usize,
            prices: *mut u64,
            prices_length: usize,
            rows: *const u64,
            rows_length: usize,
            records: *mut u64,
            records_length: usize,
            investor: *mut u64,
            investor_length: usize,
            fund: *mut u64,
            fund_length: usize,
            answers: *mut u64,
            answers_length: usize,
            place: &mut u64,
            value: &mut u64,
        ) -> u64;

        pub fn roffelaine_read(
            text: *const u8,
            text_length: usize,
            table: *const u64,
            table_length: usize,
            run: *mut u64,
            run_length: usize,
            fields: *mut u64,
            fields_length: usize,
            first_row: &mut u64,
            place: &mut u64,
            value: &mut u64,
        ) -> u64;

        pub fn roffelaine_name(
            text: *const u8,
            text_length: usize,
            first_row: usize,
            j: usize,
            part: *mut u64,
            part_length: usize,
        ) -> u64;

        pub fn roffelaine_letters(
            text: *const u8,
            text_length: usize,
            part: *mut u64,
            part_length: usize,
        ) -> u64;

        pub fn roffelaine_write(
            fields: *const u64,
            fields_length: usize,
            table: *const u64,
            table_length: usize,
            run: *const u64,
            run_length: usize,
            names: *const u8,
            names_length: usize,
            letters: *const u8,
            letters_length: usize,
            output: *mut u8,
            output_length: usize,
            place: &mut u64,
            value: &mut u64,
        ) -> u64;
    }
}

/// The answer to a call as four numbers. Number 0 is accepted; the value is
/// the count of records, components or bytes, or the reference value, else 0;
/// the count of reports is 0 for every call that is no order.
#[derive(Clone, Copy, Debug, Default, PartialEq, Eq)]
pub struct Reply {
    /// The refusal's number, 0 for none.
    pub number: u64,
    /// The refusal's place.
    pub place: u64,
    /// The value of an accepted call.
    pub value: u64,
    /// How many reports an accepted order makes to each party.
    pub reports: u64,
}

impl Reply {
    /// The value of an accepted call, or its refusal.
    pub const fn outcome(&self) -> Result<u64, Refusal> {
        match Refusal::from_numbers(self.number, self.place) {
            None => Ok(self.value),
            Some(refusal) => Err(refusal),
        }
    }

    /// How much an accepted order makes, or its refusal.
    pub const fn counts(&self) -> Result<Counts, Refusal> {
        match self.outcome() {
            Ok(records) => Ok(Counts {
                records: records as usize,
                reports: self.reports as usize,
            }),
            Err(refusal) => Err(refusal),
        }
    }
}

/// The lists that an order is lent, or the runs of which a row of the driver
/// names a part each: a record has 5 numbers, a report 10.
#[derive(Debug, Default, PartialEq, Eq)]
pub struct Lists<'l> {
    /// The records.
    pub records: &'l mut [u64],
    /// The reports to the investor.
    pub investor: &'l mut [u64],
    /// The reports to the fund's manager.
    pub fund: &'l mut [u64],
}

/// The lengths of the three lists, in numbers.
#[derive(Clone, Copy, Debug, Default, PartialEq, Eq)]
pub struct Lengths {
    /// Of the list of records.
    pub records: usize,
    /// Of the list of reports to the investor.
    pub investor: usize,
    /// Of the list of reports to the fund's manager.
    pub fund: usize,
}

/// The reply of a call that puts its place and value where it is told to.
fn reply(call: impl FnOnce(&mut u64, &mut u64) -> u64) -> Reply {
    order_reply(|place, value, _| call(place, value))
}

/// The reply of an order, which puts the count of its reports there too.
fn order_reply(call: impl FnOnce(&mut u64, &mut u64, &mut u64) -> u64) -> Reply {
    let (mut place, mut value, mut reports) = (0, 0, 0);
    let number = call(&mut place, &mut value, &mut reports);
    Reply {
        number,
        place,
        value,
        reports,
    }
}

/// Opens a day: the book, the prices and the day are filled. An empty table is
/// none, and ours is taken.
#[allow(clippy::too_many_arguments)]
pub fn open(
    accounts: u64,
    count: u64,
    fund: &[u64],
    table: &[u64],
    components: &[u64],
    holdings: &[u64],
    book: &mut [u64],
    prices: &mut [u64],
    day: &mut [u64],
) -> Reply {
    // SAFETY: each pointer stands beside the length of its own slice.
    reply(|place, value| unsafe {
        exported::roffelaine_open(
            accounts as usize,
            count as usize,
            fund.as_ptr(),
            fund.len(),
            table.as_ptr(),
            table.len(),
            components.as_ptr(),
            components.len(),
            holdings.as_ptr(),
            holdings.len(),
            book.as_mut_ptr(),
            book.len(),
            prices.as_mut_ptr(),
            prices.len(),
            day.as_mut_ptr(),
            day.len(),
            place,
            value,
        )
    })
}

/// Sets a component's price.
pub fn price(day: &[u64], book: &[u64], prices: &mut [u64], line: u64, price: u64) -> Reply {
    // SAFETY: each pointer stands beside the length of its own slice.
    reply(|place, value| unsafe {
        exported::roffelaine_price(
            day.as_ptr(),
            day.len(),
            book.as_ptr(),
            book.len(),
            prices.as_mut_ptr(),
            prices.len(),
            line as usize,
            price,
            place,
            value,
        )
    })
}

/// Trades a quantity of a line at a price.
#[allow(clippy::too_many_arguments)]
pub fn trade(
    day: &[u64],
    book: &mut [u64],
    prices: &[u64],
    line: u64,
    quantity: u64,
    price: u64,
    seller: u64,
    buyer: u64,
) -> Reply {
    // SAFETY: each pointer stands beside the length of its own slice.
    reply(|place, value| unsafe {
        exported::roffelaine_trade(
            day.as_ptr(),
            day.len(),
            book.as_mut_ptr(),
            book.len(),
            prices.as_ptr(),
            prices.len(),
            line as usize,
            quantity,
            price,
            seller as usize,
            buyer as usize,
            place,
            value,
        )
    })
}

/// The reference value at this moment.
pub fn reference_value(day: &[u64], book: &[u64], prices: &[u64]) -> Reply {
    // SAFETY: each pointer stands beside the length of its own slice.
    reply(|place, value| unsafe {
        exported::roffelaine_reference_value(
            day.as_ptr(),
            day.len(),
            book.as_ptr(),
            book.len(),
            prices.as_ptr(),
            prices.len(),
            place,
            value,
        )
    })
}

/// Creates units for an account; the records and the reports to both
/// parties go to the lent lists.
pub fn create(
    day: &[u64],
    book: &mut [u64],
    prices: &[u64],
    account: u64,
    units: u64,
    lists: Lists<'_>,
) -> Reply {
    let Lists {
        records,
        investor,
        fund,
    } = lists;
    // SAFETY: each pointer stands beside the length of its own slice.
    order_reply(|place, value, reports| unsafe {
        exported::roffelaine_create(
            day.as_ptr(),
            day.len(),
            book.as_mut_ptr(),
            book.len(),
            prices.as_ptr(),
            prices.len(),
            account as usize,
            units,
            records.as_mut_ptr(),
            records.len(),
            investor.as_mut_ptr(),
            investor.len(),
            fund.as_mut_ptr(),
            fund.len(),
            place,
            value,
            reports,
        )
    })
}

/// Redeems units of an account; the records and the reports to both
/// parties go to the lent lists.
pub fn redeem(
    day: &[u64],
    book: &mut [u64],
    prices: &[u64],
    account: u64,
    units: u64,
    lists: Lists<'_>,
) -> Reply {
    let Lists {
        records,
        investor,
        fund,
    } = lists;
    // SAFETY: each pointer stands beside the length of its own slice.
    order_reply(|place, value, reports| unsafe {
        exported::roffelaine_redeem(
            day.as_ptr(),
            day.len(),
            book.as_mut_ptr(),
            book.len(),
            prices.as_ptr(),
            prices.len(),
            account as usize,
            units,
            records.as_mut_ptr(),
            records.len(),
            investor.as_mut_ptr(),
            investor.len(),
            fund.as_mut_ptr(),
            fund.len(),
            place,
            value,
            reports,
        )
    })
}

/// The tests of a creation alone: number, place and both counts are those of
/// [`create`] with lists of such lengths. All that is lent is only read.
pub fn creation_test(
    day: &[u64],
    book: &[u64],
    prices: &[u64],
    account: u64,
    units: u64,
    lengths: Lengths,
) -> Reply {
    // SAFETY: each pointer stands beside the length of its own slice; the
    // lengths of the lists go with none.
    order_reply(|place, value, reports| unsafe {
        exported::roffelaine_creation_test(
            day.as_ptr(),
            day.len(),
            book.as_ptr(),
            book.len(),
            prices.as_ptr(),
            prices.len(),
            account as usize,
            units,
            lengths.records,
            lengths.investor,
            lengths.fund,
            place,
            value,
            reports,
        )
    })
}

/// The tests of a redemption alone: number, place and both counts are those of
/// [`redeem`] with lists of such lengths. All that is lent is only read.
pub fn redemption_test(
    day: &[u64],
    book: &[u64],
    prices: &[u64],
    account: u64,
    units: u64,
    lengths: Lengths,
) -> Reply {
    // SAFETY: each pointer stands beside the length of its own slice; the
    // lengths of the lists go with none.
    order_reply(|place, value, reports| unsafe {
        exported::roffelaine_redemption_test(
            day.as_ptr(),
            day.len(),
            book.as_ptr(),
            book.len(),
            prices.as_ptr(),
            prices.len(),
            account as usize,
            units,
            lengths.records,
            lengths.investor,
            lengths.fund,
            place,
            value,
            reports,
        )
    })
}

/// The driver: makes the calls that the rows name, with one test of the day
/// where every call keeps it sound.
pub fn run(
    day: &[u64],
    book: &mut [u64],
    prices: &mut [u64],
    rows: &[u64],
    lists: Lists<'_>,
    answers: &mut [u64],
) -> Reply {
    let Lists {
        records,
        investor,
        fund,
    } = lists;
    // SAFETY: each pointer stands beside the length of its own slice.
    reply(|place, value| unsafe {
        exported::roffelaine_run(
            day.as_ptr(),
            day.len(),
            book.as_mut_ptr(),
            book.len(),
            prices.as_mut_ptr(),
            prices.len(),
            rows.as_ptr(),
            rows.len(),
            records.as_mut_ptr(),
            records.len(),
            investor.as_mut_ptr(),
            investor.len(),
            fund.as_mut_ptr(),
            fund.len(),
            answers.as_mut_ptr(),
            answers.len(),
            place,
            value,
        )
    })
}

/// The same calls, each with its own test of the day.
pub fn run_one_by_one(
    day: &[u64],
    book: &mut [u64],
    prices: &mut [u64],
    rows: &[u64],
    lists: Lists<'_>,
    answers: &mut [u64],
) -> Reply {
    let Lists {
        records,
        investor,
        fund,
    } = lists;
    // SAFETY: each pointer stands beside the length of its own slice.
    reply(|place, value| unsafe {
        exported::roffelaine_run_public(
            day.as_ptr(),
            day.len(),
            book.as_mut_ptr(),
            book.len(),
            prices.as_mut_ptr(),
            prices.len(),
            rows.as_ptr(),
            rows.len(),
            records.as_mut_ptr(),
            records.len(),
            investor.as_mut_ptr(),
            investor.len(),
            fund.as_mut_ptr(),
            fund.len(),
            answers.as_mut_ptr(),
            answers.len(),
            place,
            value,
        )
    })
}

/// Reads a list text under a flag table, under ours where it is empty: its
/// components, its fields, and where its first component line starts.
pub fn read(
    text: &[u8],
    table: &[u64],
    components: &mut [u64],
    fields: &mut [u64],
    first_row: &mut u64,
) -> Reply {
    // SAFETY: each pointer stands beside the length of its own slice.
    reply(|place, value| unsafe {
        exported::roffelaine_read(
            text.as_ptr(),
            text.len(),
            table.as_ptr(),
            table.len(),
            components.as_mut_ptr(),
            components.len(),
            fields.as_mut_ptr(),
            fields.len(),
            first_row,
            place,
            value,
        )
    })
}

/// Where the name of a component stands in a text whose first component line
/// starts at `first_row`: its place and length go to the front of the part if
/// there is room for both. Gives the length.
pub fn name(text: &[u8], first_row: u64, component: u64, part: &mut [u64]) -> u64 {
    // SAFETY: each pointer stands beside the length of its own slice.
    unsafe {
        exported::roffelaine_name(
            text.as_ptr(),
            text.len(),
            first_row as usize,
            component as usize,
            part.as_mut_ptr(),
            part.len(),
        )
    }
}

/// Where the letters of a text's first line stand, in the same way.
pub fn letters(text: &[u8], part: &mut [u64]) -> u64 {
    // SAFETY: each pointer stands beside the length of its own slice.
    unsafe {
        exported::roffelaine_letters(text.as_ptr(), text.len(), part.as_mut_ptr(), part.len())
    }
}

/// Writes a list under a flag table, under ours where it is empty, at the front
/// of the output.
pub fn write(
    fields: &[u64],
    table: &[u64],
    components: &[u64],
    names: &[u8],
    letters: &[u8],
    output: &mut [u8],
) -> Reply {
    // SAFETY: each pointer stands beside the length of its own slice.
    reply(|place, value| unsafe {
        exported::roffelaine_write(
            fields.as_ptr(),
            fields.len(),
            table.as_ptr(),
            table.len(),
            components.as_ptr(),
            components.len(),
            names.as_ptr(),
            names.len(),
            letters.as_ptr(),
            letters.len(),
            output.as_mut_ptr(),
            output.len(),
            place,
            value,
        )
    })
}
