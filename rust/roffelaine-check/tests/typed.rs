//! The library's types on random days: the model makes the same calls, and
//! answers, records, reports, books and prices are compared.

use roffelaine::{
    Batch, Day, Execution, FlagTable, Holdings, Money, OrderLists, Refusal, Report, Rooms, Units,
};
use roffelaine_check::engine::{Engine, Lent, Model, Runs};
use roffelaine_check::flat::row_of;
use roffelaine_check::library_types::{self, order_reply, record, reply, report};
use roffelaine_check::model::{
    self, book_length, lengths_for, stretch_width, Call, Counts, Lengths, Opening, Order, PerList,
    Reply, COMPONENT_NUMBERS, LOTS, RECORD_NUMBERS, REPORT_NUMBERS, STRETCH_HEAD,
};
use roffelaine_check::random::{any_call, price_calls, OpeningCase, Rng, Scale, Size};
use std::collections::BTreeSet;

/// An opening as its fund, its components, and each account's cash and lines.
/// How many accounts and components there are is what these lists say.
struct Asked {
    fund: model::Fund,
    /// The run of the flag table; empty where none is given.
    table: Vec<u64>,
    components: Vec<model::Component>,
    accounts: Vec<Vec<u64>>,
}

impl Asked {
    /// A case's opening; a length that does not fit leaves an account short.
    fn of(case: &OpeningCase) -> Self {
        let components = case.components.chunks_exact(COMPONENT_NUMBERS);
        let components: Vec<_> = components.map(model::Component::from_numbers).collect();
        let accounts = case.holdings.chunks(components.len() + 2);
        Asked {
            fund: case.fund,
            table: case.table.clone(),
            accounts: accounts.map(<[u64]>::to_vec).collect(),
            components,
        }
    }

    /// Counts of accounts or components that are out of range, at times.
    fn change_a_count(&mut self, rng: &mut Rng) {
        match rng.below(16) {
            0 => self.accounts.clear(),
            1 => self.accounts.truncate(1),
            2 => {
                let held = vec![0; self.components.len() + 2];
                self.accounts.resize(65, held);
            }
            3 => self.resize_components(0),
            4 => self.resize_components(301),
            _ => {}
        }
    }

    fn resize_components(&mut self, count: usize) {
        self.components.resize(count, model::Component::default());
        for account in &mut self.accounts {
            account.resize(count + 2, 0);
        }
    }

    /// The day by the model, or why it does not open.
    fn by_model(&self) -> Result<Lent, Reply> {
        let (accounts, count) = (self.accounts.len(), self.components.len());
        let components = self.components.iter().flat_map(|each| each.numbers());
        let opening = Opening {
            accounts: accounts as u64,
            count: count as u64,
            fund: self.fund,
            table: &self.table,
            components: &components.collect::<Vec<_>>(),
            holdings: &self.accounts.concat(),
        };
        let mut lent = Lent {
            day: model::Day::blank(),
            book: vec![0; book_length(accounts, count)],
            prices: vec![0; count],
            runs: ample_runs(count),
        };
        match Model.open(&opening, &mut lent) {
            reply if reply.is_accepted() => Ok(lent),
            refused => Err(refused),
        }
    }

    /// The same by the library; none where its types cannot say the fund or the
    /// table.
    fn by_library(&self) -> Option<Result<Day, Refusal>> {
        let fund = library_types::fund(&self.fund)?;
        let components = self.components.iter().map(library_types::component);
        let accounts = self.accounts.iter().map(|account| Holdings {
            cash: Money(account[0]),
            lines: account[1..].to_vec(),
        });
        let (components, accounts): (Vec<_>, Vec<_>) = (components.collect(), accounts.collect());
        if self.table.is_empty() {
            return Some(Day::open(&fund, &components, &accounts));
        }
        let table = library_types::table_of_run(&self.table)?;
        Some(Day::open_with_table(&fund, &table, &components, &accounts))
    }
}

/// Lists with room for the most that the paper's orders make. Records: two of
/// units, one of each component, and two each of Shanghai and of other cash.
/// Reports: one of units, one of each component and one of all cash.
fn most_lengths(components: usize) -> Lengths {
    let components = components as u64;
    lengths_for(Counts {
        records: 2 + components + 2 + 2,
        reports: 1 + components + 1,
    })
}

fn ample_runs(components: usize) -> Runs {
    most_lengths(components).map(|length| vec![0; length])
}

/// The order of a call; one that asks for nothing where it has none.
fn order_of(call: &Call) -> Order {
    match *call {
        Call::Create(order) | Call::Redeem(order) => order,
        Call::TestCreation(order) | Call::TestRedemption(order) => order,
        _ => Order::with_places(0, 0, Counts::default()),
    }
}

/// An order as the library takes it: account, units and rooms.
fn asked(order: Order) -> (usize, Units, Rooms) {
    let rooms = library_types::rooms(order.lengths);
    (order.account as usize, Units(order.units), rooms)
}

/// What a call of the model with this reply left in its lists.
fn model_execution(call: &Call, reply: Reply, lent: &Lent) -> Execution {
    if !matches!(call, Call::Create(_) | Call::Redeem(_)) {
        return Execution::default();
    }
    let reports = |run: &[u64]| -> Vec<Report> {
        let reports = run.chunks_exact(REPORT_NUMBERS);
        let reports = reports.take(reply.reports as usize);
        reports
            .map(|each| report(each).expect("a report"))
            .collect()
    };
    let records = lent.runs.records.chunks_exact(RECORD_NUMBERS);
    let records = records.take(reply.value as usize);
    Execution {
        records: records.map(|each| record(each).expect("a side")).collect(),
        investor: reports(&lent.runs.investor),
        fund: reports(&lent.runs.fund),
    }
}

/// Makes a call on the library's day: the reply, and what an order made.
fn make(call: &Call, day: &mut Day) -> (Reply, Execution) {
    let (account, units, rooms) = asked(order_of(call));
    let mut lists = OrderLists::with_rooms(rooms);
    let mut made = Execution::default();
    let found = match call {
        Call::Price { line, price } => reply(day.set_price(*line as usize, Money(*price)), |()| 0),
        Call::Trade(trade) => reply(day.trade(&library_types::trade(trade)), |()| 0),
        Call::Value => reply(day.reference_value(), |value| value.0),
        Call::Create(_) | Call::Redeem(_) => {
            let counts = match call {
                Call::Create(_) => day.create_into(account, units, &mut lists),
                _ => day.redeem_into(account, units, &mut lists),
            };
            made = lists.execution(counts.unwrap_or_default());
            order_reply(counts)
        }
        Call::TestCreation(_) => order_reply(day.test_creation(account, units, rooms)),
        Call::TestRedemption(_) => order_reply(day.test_redemption(account, units, rooms)),
        Call::TestDay => unreachable!("the library has no such call"),
    };
    (found, made)
}

/// An order whose lists are the library's own, with room for any order, and the
/// same by the model; the day is left as it is.
fn check_own_lists(call: &Call, day: &Day, lent: &Lent) {
    let (mut day, mut lent) = (day.clone(), lent.clone());
    let order = Order {
        lengths: most_lengths(lent.prices.len()),
        ..order_of(call)
    };
    let (account, units, rooms) = asked(order);
    assert_eq!(day.ample_rooms(), rooms);
    let (call, found) = match call {
        Call::Create(_) => (Call::Create(order), day.create(account, units)),
        Call::Redeem(_) => (Call::Redeem(order), day.redeem(account, units)),
        _ => return,
    };
    let expected = Model.call(&call, &mut lent);
    let made = found.clone().unwrap_or_default();
    let counts = found.map(|made| roffelaine::Counts {
        records: made.records.len(),
        reports: made.investor.len(),
    });
    assert_eq!(order_reply(counts), expected);
    assert_eq!(made, model_execution(&call, expected, &lent));
    assert_same_numbers(&day, &lent);
}

fn assert_same_numbers(day: &Day, lent: &Lent) {
    assert!(day.book().numbers() == lent.book, "the books differ");
    let prices = (0..day.components()).map(|line| day.price(line));
    assert!(prices.eq(lent.prices.iter().map(|&price| Some(Money(price)))));
    assert_eq!(day.price(lent.prices.len()), None);
}

/// The book by account and line is the model's.
fn check_book(day: &Day, lent: &Lent) {
    let book = day.book();
    let stretches = lent.book.chunks_exact(stretch_width(lent.prices.len()));
    assert_eq!(book.accounts(), stretches.len());
    assert!(book.account(stretches.len()).is_none());
    for (account, stretch) in stretches.enumerate() {
        let account = book.account(account).expect("an account");
        let head = [account.cash().0, account.created().0, account.redeemed().0];
        assert_eq!(head, stretch[..STRETCH_HEAD]);
        assert_eq!(account.lines(), lent.prices.len() + 1);
        for (line, lots) in stretch[STRETCH_HEAD..].chunks_exact(LOTS).enumerate() {
            let found = account.lots(line);
            assert_eq!([found.old, found.bought, found.got], lots);
            assert_eq!(found.sellable(), lots[0] + lots[2]);
            assert_eq!(found.handable(), lots[0] + lots[1]);
            assert_eq!(found.total(), lots[0] + lots[1] + lots[2]);
        }
    }
}

/// The day's table is the model's; one that was opened without a table is the day
/// under our own.
fn check_table(asked: &Asked, day: &Day, lent: &Lent) {
    let table = library_types::flag_table(&lent.day.table);
    assert_eq!(day.flag_table(), table);
    assert_eq!(table.as_run(), lent.day.table.numbers());
    if asked.table.is_empty() {
        assert_eq!(table, FlagTable::OURS);
        let given = Asked {
            fund: asked.fund,
            table: table.as_run().to_vec(),
            components: asked.components.clone(),
            accounts: asked.accounts.clone(),
        };
        assert_eq!(given.by_library().as_ref(), Some(&Ok(day.clone())));
    }
}

/// Each component's code has its line, the first code that of the unit, and
/// another code has none.
fn check_codes(day: &Day, lent: &Lent) {
    let (count, first_code) = (lent.prices.len(), lent.day.fund.first_code);
    let codes = lent.day.components[..count].iter().map(|each| each.code);
    for (line, code) in codes.chain([first_code]).enumerate() {
        assert_eq!(day.line_of(code), Some(line));
        assert_eq!(day.code_of(line), Some(code));
    }
    assert_eq!(day.line_of(first_code + 1), None);
    assert_eq!(day.code_of(count + 1), None);
}

/// Any call that the library's types can say: its lists have whole places.
fn sayable_call(rng: &mut Rng, lent: &Lent, scale: Scale) -> Call {
    let call = any_call(rng, lent, scale);
    let order = order_of(&call);
    let widths = PerList::from([RECORD_NUMBERS, REPORT_NUMBERS, REPORT_NUMBERS]);
    let lengths = order.lengths.zip(widths);
    let whole = Order {
        lengths: lengths.map(|(length, width)| length - length % width),
        ..order
    };
    match call {
        Call::Create(_) => Call::Create(whole),
        Call::Redeem(_) => Call::Redeem(whole),
        Call::TestCreation(_) => Call::TestCreation(whole),
        Call::TestRedemption(_) => Call::TestRedemption(whole),
        Call::TestDay => Call::Value,
        call => call,
    }
}

/// A call with its reply and what it made, by the model.
struct Made {
    call: Call,
    reply: Reply,
    execution: Execution,
}

/// Makes a call on both, which must agree.
fn same_call(call: Call, day: &mut Day, lent: &mut Lent) -> Made {
    check_own_lists(&call, day, lent);
    let reply = Model.call(&call, lent);
    let execution = model_execution(&call, reply, lent);
    let (found, found_execution) = make(&call, day);
    assert_eq!(found, reply, "{call:?}");
    assert_eq!(found_execution, execution, "{call:?}");
    assert_same_numbers(day, lent);
    Made {
        call,
        reply,
        execution,
    }
}

/// The calls that have a row, in one batch on the day as it was opened.
fn check_batch(mut day: Day, made: &[Made], left: &Lent) {
    let has_row = |made: &&Made| row_of(&made.call, PerList::default()).is_some();
    let made: Vec<&Made> = made.iter().filter(has_row).collect();
    let mut batch = Batch::default();
    for made in &made {
        let (account, units, rooms) = asked(order_of(&made.call));
        match made.call {
            Call::Price { line, price } => batch.set_price(line as usize, Money(price)),
            Call::Trade(trade) => batch.trade(&library_types::trade(&trade)),
            Call::Create(_) => batch.create(account, units, rooms),
            Call::Redeem(_) => batch.redeem(account, units, rooms),
            _ => batch.reference_value(),
        }
    }
    let outcome = day.run(&batch);
    let answers = outcome.answers();
    assert_eq!((batch.len(), answers.len()), (made.len(), made.len()));
    for (at, made) in made.into_iter().enumerate() {
        assert_eq!(outcome.answer(at), answers[at]);
        assert_eq!(order_reply(outcome.counts(at)), made.reply);
        assert_eq!(outcome.execution(at), made.execution);
    }
    assert_same_numbers(&day, left);
}

#[test]
fn days_answer_as_the_model() {
    let mut rng = Rng::new(41);
    let mut reached = BTreeSet::new();
    for _ in 0..300 {
        let (size, scale) = (Size::any(&mut rng), Scale::any(&mut rng));
        let asked = Asked::of(&OpeningCase::sound(&mut rng, size, scale));
        let mut lent = asked.by_model().expect("it opens");
        let mut day = asked.by_library().expect("a switch").expect("it opens");
        let opened = day.clone();
        check_table(&asked, &day, &lent);
        let mut all = Vec::new();
        for call in price_calls(&mut rng, &lent, scale) {
            all.push(same_call(call, &mut day, &mut lent));
        }
        for _ in 0..rng.between(20, 60) {
            let call = sayable_call(&mut rng, &lent, scale);
            all.push(same_call(call, &mut day, &mut lent));
        }
        check_book(&day, &lent);
        check_codes(&day, &lent);
        assert_eq!(day.flag_table(), opened.flag_table());
        check_batch(opened, &all, &lent);
        let numbers = all.iter().map(|made| (kind(&made.call), made.reply.number));
        reached.extend(numbers);
    }
    let expected: [(&str, &[u64]); 5] = [
        ("price", &[0, 6, 7]),
        ("trade", &[0, 6, 7, 8, 9, 10]),
        ("creation", &[0, 8, 9, 10, 11, 12, 13, 14, 15, 16]),
        ("redemption", &[0, 8, 9, 11, 12, 13, 16, 17]),
        ("value", &[0, 14]),
    ];
    for (kind, numbers) in expected {
        for &number in numbers {
            let is_reached = reached.contains(&(kind, number));
            assert!(is_reached, "{kind} never gives {number}");
        }
    }
}

fn kind(call: &Call) -> &'static str {
    match call {
        Call::Price { .. } => "price",
        Call::Trade(_) => "trade",
        Call::Create(_) | Call::TestCreation(_) => "creation",
        Call::Redeem(_) | Call::TestRedemption(_) => "redemption",
        Call::Value | Call::TestDay => "value",
    }
}

#[test]
fn openings_are_refused_as_by_the_model() {
    let mut rng = Rng::new(42);
    let mut reached = BTreeSet::new();
    for _ in 0..2_000 {
        let (size, scale) = (Size::any(&mut rng), Scale::any(&mut rng));
        let mut asked = Asked::of(&OpeningCase::damaged(&mut rng, size, scale));
        asked.change_a_count(&mut rng);
        let Some(found) = asked.by_library() else {
            continue;
        };
        match (asked.by_model(), found) {
            (Ok(lent), Ok(day)) => {
                assert_same_numbers(&day, &lent);
                check_book(&day, &lent);
                check_codes(&day, &lent);
                check_table(&asked, &day, &lent);
                reached.insert(0);
            }
            (Err(expected), found) => {
                assert_eq!(reply(found, |_| 0), expected);
                reached.insert(expected.number);
            }
            (Ok(_), Err(refusal)) => panic!("the library alone: {refusal}"),
        }
    }
    assert_eq!(reached, BTreeSet::from([0, 1, 2, 3, 4, 21]));
}

#[test]
fn a_closed_day_answers_as_the_model() {
    let order = Order::with_places(1, 1, Counts::default());
    let trade = model::Trade {
        line: 0,
        quantity: 1,
        price: 1,
        seller: 1,
        buyer: 2,
    };
    let mut lent = Lent {
        day: model::Day::blank(),
        book: Vec::new(),
        prices: Vec::new(),
        runs: ample_runs(0),
    };
    let mut day = Day::closed();
    for call in [
        Call::Price { line: 0, price: 1 },
        Call::Trade(trade),
        Call::Create(order),
        Call::Redeem(order),
        Call::Value,
        Call::TestCreation(order),
        Call::TestRedemption(order),
    ] {
        let made = same_call(call, &mut day, &mut lent);
        assert_eq!(made.reply.number, 5);
    }
    assert_eq!((day.line_of(0), day.code_of(0)), (None, None));
    assert_eq!((day.components(), day.book().accounts()), (0, 0));
}
