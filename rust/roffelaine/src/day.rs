//! An open day that owns its book and prices.

use crate::layout::{component_run, fund_numbers, stretch_width, table_of, DAY_NUMBERS};
use crate::lent::{self, Lengths, Lists, Reply};
use crate::{
    Batch, Book, Component, Counts, Execution, FlagTable, Fund, Money, OrderLists, Outcome,
    ReferenceValue, Refusal, Rooms, Units, MOST_ACCOUNTS, MOST_COMPONENTS,
};

/// What an account opens with.
#[derive(Clone, Debug, Default, PartialEq, Eq)]
pub struct Holdings {
    /// Its cash.
    pub cash: Money,
    /// Of each component, and of the unit last.
    pub lines: Vec<u64>,
}

impl Holdings {
    fn numbers(&self) -> impl Iterator<Item = u64> + '_ {
        std::iter::once(self.cash.0).chain(self.lines.iter().copied())
    }
}

/// A trade: stock or units go from seller to buyer, and cash the other way.
#[derive(Clone, Copy, Debug, Default, PartialEq, Eq)]
pub struct Trade {
    /// A component's line, or the unit's.
    pub line: usize,
    /// Shares or units.
    pub quantity: u64,
    /// Of one share or unit.
    pub price: Money,
    /// The account that sells.
    pub seller: usize,
    /// The account that buys.
    pub buyer: usize,
}

/// A creation or a redemption over lent runs, and the test of one.
type LentOrder = fn(&[u64], &mut [u64], &[u64], u64, u64, Lists<'_>) -> Reply;
type LentTest = fn(&[u64], &[u64], &[u64], u64, u64, Lengths) -> Reply;

/// An open day. Lines and accounts count from 0; the line behind the last
/// component is the unit, and account 0 the fund. A refused call changes
/// nothing. A call takes one pass over the book, which a [`Batch`] takes once
/// for all of its calls.
///
/// ```
/// use roffelaine::{Component, Day, Fund, Holdings, Money, Refusal, Switch, Units};
///
/// # fn main() -> Result<(), Refusal> {
/// let fund = Fund {
///     first_code: 510_300,
///     basket_size: Units(1_000),
///     switch: Switch::Both,
///     ..Fund::default()
/// };
/// let stock = Component { code: 600_036, quantity: 30, ..Component::default() };
/// let accounts = [
///     Holdings { cash: Money(0), lines: vec![500, 0] },
///     Holdings { cash: Money::from_yuan(9_000), lines: vec![60, 0] },
/// ];
/// let mut day = Day::open(&fund, &[stock], &accounts)?;
///
/// let made = day.create(1, Units(2_000))?;
/// assert_eq!((made.records[1].code, made.records[1].quantity), (600_036, 60));
/// assert_eq!(made.investor[1].to_string(), "2 2 600036 60");
/// assert_eq!(made.fund[1], made.investor[1].opposite());
///
/// let units = day.line_of(510_300).expect("the unit's line");
/// assert_eq!(day.book().account(1).expect("account 1").lots(units).got, 2_000);
/// assert_eq!(day.create(1, Units(1_000)), Err(Refusal::ShortOfStock { place: 0 }));
/// # Ok(())
/// # }
/// ```
#[derive(Clone, Debug, PartialEq, Eq)]
pub struct Day {
    day: Box<[u64; DAY_NUMBERS]>,
    book: Vec<u64>,
    prices: Vec<u64>,
    /// The code of each line.
    codes: Vec<u64>,
}

impl Day {
    /// Opens a day under our flag table, on which no component has a price.
    pub fn open(
        fund: &Fund,
        components: &[Component],
        accounts: &[Holdings],
    ) -> Result<Self, Refusal> {
        Day::open_lent(fund, &[], components, accounts)
    }

    /// Opens a day under a flag table, which the day then holds. Under
    /// [`FlagTable::OURS`] it is the day that [`Day::open`] opens.
    ///
    /// ```
    /// use roffelaine::{Component, Day, FlagTable, Fund, Holdings, Money, Refusal, Units};
    ///
    /// # fn main() -> Result<(), Refusal> {
    /// let fund = Fund { first_code: 510_300, basket_size: Units(1_000), ..Fund::default() };
    /// let amount = Money::from_yuan(96);
    /// let piloted = [Component { code: 600_036, quantity: 30, flag: 5, amount, ..Component::default() }];
    /// let accounts = [
    ///     Holdings { cash: Money(0), lines: vec![0, 0] },
    ///     Holdings { cash: Money::from_yuan(9_000), lines: vec![0, 0] },
    /// ];
    /// assert_eq!(Day::open(&fund, &piloted, &accounts), Err(Refusal::Component { place: 0 }));
    ///
    /// let mut table = FlagTable::OURS;
    /// table.set_row(5, [0, 0, 0, 1, 0, 0, 1]);
    /// let day = Day::open_with_table(&fund, &table, &piloted, &accounts)?;
    /// assert_eq!(day.flag_table(), table);
    ///
    /// table.set_row(5, [0, 0, 0, 0, 0, 0, 1]);
    /// let refused = Day::open_with_table(&fund, &table, &piloted, &accounts);
    /// assert_eq!(refused, Err(Refusal::FlagTable { place: 5 }));
    /// # Ok(())
    /// # }
    /// ```
    pub fn open_with_table(
        fund: &Fund,
        table: &FlagTable,
        components: &[Component],
        accounts: &[Holdings],
    ) -> Result<Self, Refusal> {
        Day::open_lent(fund, table.as_run(), components, accounts)
    }

    /// Opens a day under the table that a run has, under ours where it is empty.
    fn open_lent(
        fund: &Fund,
        table: &[u64],
        components: &[Component],
        accounts: &[Holdings],
    ) -> Result<Self, Refusal> {
        let count = components.len();
        // All runs together may have their length where single ones have not.
        if accounts.iter().any(|held| held.lines.len() != count + 1) {
            return Err(Refusal::Sizes);
        }
        let holdings: Vec<u64> = accounts.iter().flat_map(Holdings::numbers).collect();
        let mut opened = Day::of_size(accounts.len(), count);
        lent::open(
            accounts.len() as u64,
            count as u64,
            &fund_numbers(fund),
            table,
            &component_run(components),
            &holdings,
            &mut opened.book,
            &mut opened.prices,
            &mut opened.day[..],
        )
        .outcome()?;
        let codes = components.iter().map(|component| component.code);
        opened.codes = codes.chain([fund.first_code]).collect();
        Ok(opened)
    }

    /// A day that is not open: every call is refused with 5.
    ///
    /// ```
    /// use roffelaine::{Day, Refusal};
    /// assert_eq!(Day::closed().reference_value(), Err(Refusal::UnsoundDay));
    /// ```
    pub fn closed() -> Self {
        Day::of_size(0, 0)
    }

    /// A blank day; past the largest sizes its runs are too short to open.
    fn of_size(accounts: usize, count: usize) -> Self {
        let count = count.min(MOST_COMPONENTS);
        Day {
            day: Box::new([0; DAY_NUMBERS]),
            book: vec![0; accounts.min(MOST_ACCOUNTS) * stretch_width(count)],
            prices: vec![0; count],
            codes: Vec::new(),
        }
    }

    /// The line of a code: a component's, or the unit's for the fund's first
    /// code.
    pub fn line_of(&self, code: u64) -> Option<usize> {
        let (&unit, components) = self.codes.split_last()?;
        match components.binary_search(&code) {
            Ok(line) => Some(line),
            Err(_) => (code == unit).then_some(components.len()),
        }
    }

    /// The code of a line.
    pub fn code_of(&self, line: usize) -> Option<u64> {
        self.codes.get(line).copied()
    }

    /// The flag table that the day was opened under; all 0 where it is not open.
    pub fn flag_table(&self) -> FlagTable {
        table_of(&self.day)
    }

    /// Sets the price of a component.
    pub fn set_price(&mut self, line: usize, price: Money) -> Result<(), Refusal> {
        let Day {
            day, book, prices, ..
        } = self;
        let reply = lent::price(&day[..], book, prices, line as u64, price.0);
        reply.outcome().map(drop)
    }

    /// Moves stock or units from seller to buyer and cash the other way.
    pub fn trade(&mut self, trade: &Trade) -> Result<(), Refusal> {
        let Day {
            day, book, prices, ..
        } = self;
        let reply = lent::trade(
            &day[..],
            book,
            prices,
            trade.line as u64,
            trade.quantity,
            trade.price.0,
            trade.seller as u64,
            trade.buyer as u64,
        );
        reply.outcome().map(drop)
    }

    /// The reference value at this moment.
    pub fn reference_value(&self) -> Result<ReferenceValue, Refusal> {
        let reply = lent::reference_value(&self.day[..], &self.book, &self.prices);
        reply.outcome().map(ReferenceValue)
    }

    /// Creates units for an account, and gives the records and the reports.
    pub fn create(&mut self, account: usize, units: Units) -> Result<Execution, Refusal> {
        let mut lists = self.ample_lists();
        let counts = self.create_into(account, units, &mut lists)?;
        Ok(lists.execution(counts))
    }

    /// Redeems units of an account, and gives the records and the reports.
    pub fn redeem(&mut self, account: usize, units: Units) -> Result<Execution, Refusal> {
        let mut lists = self.ample_lists();
        let counts = self.redeem_into(account, units, &mut lists)?;
        Ok(lists.execution(counts))
    }

    /// Room for the records and the reports of any order of the day.
    pub fn ample_rooms(&self) -> Rooms {
        Rooms::ample(self.prices.len())
    }

    /// Lists that take the records and the reports of any order of the day.
    pub fn ample_lists(&self) -> OrderLists {
        OrderLists::with_rooms(self.ample_rooms())
    }

    /// Creates units for an account; the records and the reports go to the lent
    /// lists, and their counts are the answer.
    pub fn create_into(
        &mut self,
        account: usize,
        units: Units,
        lists: &mut OrderLists,
    ) -> Result<Counts, Refusal> {
        self.order(lent::create, account, units, lists)
    }

    /// Redeems units of an account; the records and the reports go to the lent
    /// lists, and their counts are the answer.
    pub fn redeem_into(
        &mut self,
        account: usize,
        units: Units,
        lists: &mut OrderLists,
    ) -> Result<Counts, Refusal> {
        self.order(lent::redeem, account, units, lists)
    }

    fn order(
        &mut self,
        make: LentOrder,
        account: usize,
        units: Units,
        lists: &mut OrderLists,
    ) -> Result<Counts, Refusal> {
        let Day {
            day, book, prices, ..
        } = self;
        let (account, lists) = (account as u64, lists.lent());
        make(&day[..], book, prices, account, units.0, lists).counts()
    }

    /// The tests of a creation alone: how much it would make now with lists of
    /// such rooms, or why it would be refused. The answer is that of
    /// [`Day::create_into`], both counts and every refusal; the day is only read,
    /// and no list is needed.
    ///
    /// ```
    /// use roffelaine::{Component, Day, Fund, Holdings, Money, OrderLists, Refusal, Rooms, Units};
    ///
    /// # fn main() -> Result<(), Refusal> {
    /// # let fund = Fund {
    /// #     first_code: 510_300,
    /// #     basket_size: Units(1_000),
    /// #     switch: roffelaine::Switch::Both,
    /// #     ..Fund::default()
    /// # };
    /// # let stock = Component { code: 600_036, quantity: 30, ..Component::default() };
    /// # let accounts = [
    /// #     Holdings { cash: Money(0), lines: vec![500, 0] },
    /// #     Holdings { cash: Money::from_yuan(9_000), lines: vec![60, 0] },
    /// # ];
    /// # let mut day = Day::open(&fund, &[stock], &accounts)?;
    /// let counts = day.test_creation(1, Units(2_000), day.ample_rooms())?;
    /// assert_eq!((counts.records, counts.reports), (3, 2));
    /// let rooms = Rooms { fund: 1, ..Rooms::of(counts) };
    /// assert_eq!(day.test_creation(1, Units(2_000), rooms), Err(Refusal::ListTooShort));
    /// let mut lists = OrderLists::with_rooms(Rooms::of(counts));
    /// assert_eq!(day.create_into(1, Units(2_000), &mut lists), Ok(counts));
    /// # Ok(())
    /// # }
    /// ```
    pub fn test_creation(
        &self,
        account: usize,
        units: Units,
        rooms: Rooms,
    ) -> Result<Counts, Refusal> {
        self.test(lent::creation_test, account, units, rooms)
    }

    /// The tests of a redemption alone: the answer of [`Day::redeem_into`] with
    /// lists of such rooms, in the same way.
    pub fn test_redemption(
        &self,
        account: usize,
        units: Units,
        rooms: Rooms,
    ) -> Result<Counts, Refusal> {
        self.test(lent::redemption_test, account, units, rooms)
    }

    fn test(
        &self,
        make: LentTest,
        account: usize,
        units: Units,
        rooms: Rooms,
    ) -> Result<Counts, Refusal> {
        let (day, book, prices) = (&self.day[..], &self.book, &self.prices);
        let lengths = rooms.lengths();
        make(day, book, prices, account as u64, units.0, lengths).counts()
    }

    /// Makes all calls of a batch, in order, with one pass over the book for
    /// all of them.
    pub fn run(&mut self, batch: &Batch) -> Outcome {
        let mut outcome = Outcome::of(batch);
        let Day {
            day, book, prices, ..
        } = self;
        let (lists, answers) = outcome.lent();
        lent::run(&day[..], book, prices, batch.rows(), lists, answers);
        outcome
    }

    /// The book.
    pub fn book(&self) -> Book<'_> {
        Book::new(&self.book, self.prices.len())
    }

    /// The price of a component, 0 where it has none; none past the last.
    pub fn price(&self, line: usize) -> Option<Money> {
        self.prices.get(line).copied().map(Money)
    }

    /// How many components the day has.
    pub fn components(&self) -> usize {
        self.prices.len()
    }
}
