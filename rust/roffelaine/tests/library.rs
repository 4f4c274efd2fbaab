//! The library as its users call it, on the paper's day to compare with.

#[path = "support/paper_list.rs"]
mod paper_list;

use paper_list::LIST;
use roffelaine::{
    Batch, CashGroup, CashKind, Cents, Component, Counts, Day, Execution, FlagTable, Fund,
    Holdings, List, Lots, Money, OrderLists, Rate, Record, ReferenceValue, Refusal, Report,
    ReportType, Rooms, Side, Trade, Units,
};
use Side::{Buy, Sell};

const AMPLE: Money = Money::from_yuan(1_000_000_000);
const BASKET: Units = Units(1_000_000);
const UNIT: usize = 5;
const PRICES: [(usize, Money); 3] = [
    (0, Money::from_yuan(12)),
    (2, Money::from_yuan(10)),
    (3, Money::from_yuan(40)),
];

fn the_list() -> List<'static> {
    List::read(LIST.as_bytes()).expect("the list is read")
}

/// The fund with ample means, and account 1 with this much of 600000 and
/// 600036, ample cash and a basket of units.
fn holdings(of_600000: u64, of_600036: u64) -> [Holdings; 2] {
    let mut fund = vec![1_000_000_000_000; UNIT];
    fund.push(0);
    [
        Holdings {
            cash: AMPLE,
            lines: fund,
        },
        Holdings {
            cash: AMPLE,
            lines: vec![0, 0, of_600000, of_600036, 0, BASKET.0],
        },
    ]
}

/// The day without prices.
fn opened(of_600000: u64, of_600036: u64) -> Day {
    opened_on(&the_list(), of_600000, of_600036)
}

fn opened_on(list: &List<'_>, of_600000: u64, of_600036: u64) -> Day {
    let accounts = holdings(of_600000, of_600036);
    Day::open(&list.head.fund, &list.components, &accounts).expect("it opens")
}

fn priced(of_600000: u64, of_600036: u64) -> Day {
    with_prices(opened(of_600000, of_600036))
}

fn with_prices(mut day: Day) -> Day {
    for (line, price) in PRICES {
        day.set_price(line, price).expect("a price is set");
    }
    day
}

/// A record of so many at a price in thousandths of a yuan.
fn record(code: u64, side: Side, quantity: u64, price: u64) -> Record {
    Record {
        code,
        side,
        quantity,
        price: Money(price),
        amount: Money(quantity * price),
    }
}

/// A report of the unit or of stock.
fn moved(report_type: ReportType, side: Side, code: u64, quantity: u64) -> Report {
    Report {
        report_type,
        side,
        code,
        quantity,
        groups: [None; 3],
    }
}

/// A report of Shanghai and of other cash, in yuan.
fn paid(side: Side, shanghai: u64, other: u64) -> Report {
    let group = |kind, yuan| {
        let amount = Money::from_yuan(yuan);
        Some(CashGroup { kind, amount })
    };
    Report {
        groups: [
            group(CashKind::Shanghai, shanghai),
            group(CashKind::Other, other),
            None,
        ],
        ..moved(ReportType::Cash, side, 0, 0)
    }
}

/// What each order of the day makes: records, and reports to each party.
const MADE: Counts = Counts {
    records: 8,
    reports: 4,
};

/// An execution whose fund gets the investor's reports on the opposite sides.
fn execution(records: &[Record], investor: &[Report]) -> Execution {
    let fund = investor.iter().map(|report| Report {
        side: match report.side {
            Buy => Sell,
            Sell => Buy,
        },
        ..*report
    });
    Execution {
        records: records.to_vec(),
        investor: investor.to_vec(),
        fund: fund.collect(),
    }
}

/// Case (e).
fn the_creation() -> Execution {
    let records = [
        record(510_300, Buy, 1_000_000, 0),
        record(600_000, Sell, 3_072, 0),
        record(600_036, Sell, 3_000, 0),
        record(510_305, Buy, 1_000_000, 113),
        record(510_305, Buy, 1, 600_000),
        record(510_302, Buy, 1_000_000, 173),
        record(510_302, Buy, 1, 408_000),
        record(510_301, Buy, 1_000_000, 0),
    ];
    let investor = [
        moved(ReportType::Unit, Buy, 510_300, 1_000_000),
        moved(ReportType::Stock, Sell, 600_000, 3_072),
        moved(ReportType::Stock, Sell, 600_036, 3_000),
        paid(Buy, 173_408, 113_600),
    ];
    execution(&records, &investor)
}

/// Case (f).
fn the_redemption() -> Execution {
    let records = [
        record(510_300, Sell, 1_000_000, 0),
        record(600_000, Buy, 5_200, 0),
        record(600_036, Buy, 3_000, 0),
        record(510_305, Sell, 1_000_000, 94),
        record(510_305, Sell, 1, 400_000),
        record(510_302, Sell, 1_000_000, 150),
        record(510_302, Sell, 1, 0),
        record(510_301, Sell, 1_000_000, 0),
    ];
    let investor = [
        moved(ReportType::Unit, Sell, 510_300, 1_000_000),
        moved(ReportType::Stock, Buy, 600_000, 5_200),
        moved(ReportType::Stock, Buy, 600_036, 3_000),
        paid(Sell, 150_000, 94_400),
    ];
    execution(&records, &investor)
}

/// Rooms with one place less in each of the three lists by turns.
fn short_rooms() -> [Rooms; 3] {
    let enough = Rooms::of(MADE);
    [
        Rooms {
            records: 7,
            ..enough
        },
        Rooms {
            investor: 3,
            ..enough
        },
        Rooms { fund: 3, ..enough },
    ]
}

#[test]
fn the_list_is_read_and_written_back() {
    let list = the_list();
    assert_eq!(list.letters, b"300");
    assert_eq!(list.names[4], b"GZMT    ");
    assert_eq!((list.head.fund.first_code, list.head.nav), (510_300, 4_257));
    assert_eq!(list.head.fund.estimated_cash, Cents(-33_122));
    assert_eq!(list.components[0].amount, Money::from_yuan(96_000));
    assert_eq!(list.write().as_deref(), Ok(LIST.as_bytes()));
}

/// A premium of 0, 0.05 and 1 with a discount of 1, 0.1 and 0, under a flag whose
/// redemption takes the discount and under one whose redemption does not.
#[test]
fn both_rates_are_read_and_written_apart() {
    for (line, row) in [(0, "|3|0.10000|0.10000|"), (2, "|1|0.10000|0.10000|")] {
        for rates in [[0, 100_000], [5_000, 10_000], [100_000, 0]] {
            let [premium, discount] = rates.map(Rate);
            let text = LIST.replacen(row, &format!("{}{premium}|{discount}|", &row[..3]), 1);
            let list = List::read(text.as_bytes()).expect("rates in range");
            let found = &list.components[line];
            assert_eq!((found.premium, found.discount), (premium, discount));
            assert_eq!(list.write().as_deref(), Ok(text.as_bytes()));
        }
    }
}

#[test]
fn a_broken_list_is_refused() {
    let place = LIST.find("Publish").expect("a field") as u64 + 8;
    let text = LIST.replace("Publish=1", "Publish=2");
    assert_eq!(
        List::read(text.as_bytes()),
        Err(Refusal::TextField { place })
    );
    let mut list = the_list();
    list.components[2].code = 1;
    assert_eq!(list.write(), Err(Refusal::Component { place: 2 }));
    // No rates under flag 4, and none above 1.
    list.components[1].discount = Rate(1);
    assert_eq!(list.write(), Err(Refusal::Component { place: 1 }));
    list.components[0].discount = Rate(100_001);
    assert_eq!(list.write(), Err(Refusal::Component { place: 0 }));
    list.names.pop();
    assert_eq!(list.write(), Err(Refusal::Sizes));
}

#[test]
fn codes_have_their_lines() {
    let (list, day) = (the_list(), opened(0, 0));
    let codes = [1, 2, 600_000, 600_036, 600_519, 510_300];
    for (line, code) in codes.into_iter().enumerate() {
        assert_eq!(list.line_of(code), Some(line));
        assert_eq!(day.line_of(code), Some(line));
        assert_eq!(day.code_of(line), Some(code));
    }
    for code in [0, 3, 510_301, 999_999] {
        assert_eq!((list.line_of(code), day.line_of(code)), (None, None));
    }
    assert_eq!(day.code_of(UNIT + 1), None);
}

#[test]
fn the_day_answers_as_the_paper_says() {
    let value = priced(3_072, 3_000).reference_value();
    assert_eq!(value, Ok(ReferenceValue(4_257)));
    assert!(priced(3_072, 3_000).create(1, BASKET).is_ok());
    let refusals = [
        (3_071, 3_000, Refusal::CashRatio),
        (3_072, 2_999, Refusal::ShortOfStock { place: 3 }),
    ];
    for (of_600000, of_600036, refusal) in refusals {
        let mut day = priced(of_600000, of_600036);
        let before = day.clone();
        assert_eq!(day.create(1, BASKET), Err(refusal));
        assert_eq!(day, before);
    }
}

#[test]
fn a_day_without_prices_has_no_reference_value() {
    let mut day = opened(3_072, 3_000);
    assert_eq!(day.reference_value(), Err(Refusal::NoReferenceValue));
    assert_eq!(day.create(1, BASKET), Err(Refusal::NoReferenceValue));
    assert_eq!(day.price(2), Some(Money(0)));
    day.set_price(2, Money(7)).expect("a price is set");
    assert_eq!((day.price(2), day.price(UNIT)), (Some(Money(7)), None));
    let unit_price = day.set_price(UNIT, Money(7));
    assert_eq!(unit_price, Err(Refusal::NoSuchLine));
    assert_eq!(day.set_price(0, Money(0)), Err(Refusal::QuantityOrPrice));
}

#[test]
fn orders_make_their_records_and_reports_and_move() {
    let mut day = priced(3_072, 3_000);
    let ample = day.ample_rooms();
    assert_eq!(day.test_redemption(1, BASKET, ample), Ok(MADE));
    for short in short_rooms() {
        let refused = Err(Refusal::ListTooShort);
        assert_eq!(day.test_redemption(1, BASKET, short), refused);
        assert_eq!(day.test_creation(1, BASKET, short), refused);
    }
    assert_eq!(day.redeem(1, BASKET), Ok(the_redemption()));
    assert_eq!(day.test_creation(1, BASKET, Rooms::of(MADE)), Ok(MADE));
    assert_eq!(day.create(1, BASKET), Ok(the_creation()));
    let again = day.redeem(1, BASKET);
    assert_eq!(again, Err(Refusal::ShortOfStock { place: 0 }));

    let account = day.book().account(1).expect("account 1");
    assert_eq!((account.created(), account.redeemed()), (BASKET, BASKET));
    let units = Lots {
        old: 0,
        bought: 0,
        got: 1_000_000,
    };
    assert_eq!((account.lines(), account.lots(UNIT)), (6, units));
    let fund = day.book().account(0).expect("the fund");
    assert_eq!(fund.cash().0 + account.cash().0, 2 * AMPLE.0);
    assert_eq!(day.book().accounts(), 2);
    assert!(day.book().account(2).is_none());
}

/// The records of other cash of a creation and of a redemption, with these rates
/// of 000001.
fn other_cash(premium: Rate, discount: Rate) -> [Vec<Record>; 2] {
    let mut list = the_list();
    (list.components[0].premium, list.components[0].discount) = (premium, discount);
    let day = || with_prices(opened_on(&list, 3_072, 3_000));
    let orders = [day().create(1, BASKET), day().redeem(1, BASKET)];
    orders.map(|made| {
        let records = made.expect("it is taken").records.into_iter();
        records.filter(|record| record.code == 510_305).collect()
    })
}

/// 96,000 yuan with the premium or less the discount, and 8,000 of 000002.
#[test]
fn creation_takes_the_premium_and_redemption_the_discount() {
    let cash = |side, thousands, rest| {
        vec![
            record(510_305, side, 1_000_000, thousands),
            record(510_305, side, 1, rest),
        ]
    };
    let rows = [
        (10_000, 10_000, (113, 600_000), (94, 400_000)),
        (10_000, 5_000, (113, 600_000), (99, 200_000)),
        (5_000, 10_000, (108, 800_000), (94, 400_000)),
    ];
    for (premium, discount, created, redeemed) in rows {
        let expected = [
            cash(Buy, created.0, created.1),
            cash(Sell, redeemed.0, redeemed.1),
        ];
        assert_eq!(other_cash(Rate(premium), Rate(discount)), expected);
    }
}

#[test]
fn lent_lists_take_the_records_and_reports() {
    let mut day = priced(3_072, 3_000);
    let before = day.clone();
    for rooms in short_rooms() {
        let mut short = OrderLists::with_rooms(rooms);
        let refused = day.redeem_into(1, BASKET, &mut short);
        assert_eq!(refused, Err(Refusal::ListTooShort));
        assert_eq!((&day, short), (&before, OrderLists::with_rooms(rooms)));
    }
    let mut lists = OrderLists::with_rooms(Rooms::of(MADE));
    let counts = day.redeem_into(1, BASKET, &mut lists);
    assert_eq!(counts, Ok(MADE));
    assert_eq!(lists.execution(MADE), the_redemption());
    let counts = day.create_into(1, BASKET, &mut lists);
    assert_eq!(counts, Ok(MADE));
    assert_eq!(lists.execution(MADE), the_creation());
    assert_eq!(lists.records.records(1), the_creation().records[..1]);
    assert_eq!(lists.fund.reports(2), the_creation().fund[..2]);
}

#[test]
fn a_trade_moves_lots_and_cash() {
    let mut accounts = holdings(3_072, 3_000).to_vec();
    accounts.push(Holdings {
        cash: Money::from_yuan(100),
        lines: vec![0; 6],
    });
    let list = the_list();
    let mut day = Day::open(&list.head.fund, &list.components, &accounts).expect("it opens");
    let trade = Trade {
        line: 3,
        quantity: 10,
        price: Money(9_990),
        seller: 1,
        buyer: 2,
    };
    assert_eq!(day.trade(&trade), Ok(()));
    assert_eq!(day.trade(&trade), Err(Refusal::ShortOfCash));
    let book = day.book();
    let [seller, buyer] = [1, 2].map(|account| book.account(account).expect("an account"));
    assert_eq!(seller.cash(), Money(AMPLE.0 + 99_900));
    assert_eq!(buyer.cash(), Money(100));
    assert_eq!(seller.lots(3).old, 2_990);
    let bought = buyer.lots(3);
    assert_eq!(bought.bought, 10);
    let sums = (bought.total(), bought.sellable(), bought.handable());
    assert_eq!(sums, (10, 0, 10));
}

#[test]
fn a_batch_does_what_its_calls_do() {
    let mut day = opened(3_072, 3_000);
    let mut batch = Batch::default();
    assert!(batch.is_empty());
    for (line, price) in PRICES {
        batch.set_price(line, price);
    }
    batch.reference_value();
    batch.redeem(1, BASKET, Rooms::of(MADE));
    for short in short_rooms() {
        batch.create(1, BASKET, short);
    }
    batch.create(1, BASKET, day.ample_rooms());
    let sale = Trade {
        line: UNIT,
        quantity: 1,
        price: Money(4_257),
        seller: 1,
        buyer: 2,
    };
    batch.trade(&sale);
    let outcome = day.run(&batch);
    let expected = [
        Ok(0),
        Ok(0),
        Ok(0),
        Ok(4_257),
        Ok(8),
        Err(Refusal::ListTooShort),
        Err(Refusal::ListTooShort),
        Err(Refusal::ListTooShort),
        Ok(8),
        Err(Refusal::Account),
    ];
    assert_eq!((outcome.answers(), batch.len()), (expected.to_vec(), 10));
    assert_eq!(outcome.counts(4), Ok(MADE));
    assert_eq!(outcome.execution(4), the_redemption());
    assert_eq!(outcome.execution(8), the_creation());
    assert_eq!(outcome.fund_reports(8), the_creation().fund);
    for other in [0, 3, 5, 6, 7, 9] {
        assert_eq!(outcome.execution(other), Execution::default());
    }
    let mut one_by_one = priced(3_072, 3_000);
    one_by_one.redeem(1, BASKET).expect("it redeems");
    one_by_one.create(1, BASKET).expect("it creates");
    assert_eq!(day, one_by_one);
}

/// Ours without flag 1, with flag 5 for what flag 1 was, and with flag 6: an amount
/// of Shanghai cash with rates, not priced.
fn a_table() -> FlagTable {
    let mut table = FlagTable::OURS;
    table.set_row(1, [1, 1, 1, 0, 1, 1, 0]);
    table.set_row(5, [1, 1, 1, 0, 1, 1, 1]);
    table.set_row(6, [0, 0, 1, 1, 1, 0, 1]);
    table
}

/// The list with flag 5 for 600000, and with flag 6 for 600519, at a premium of a
/// tenth and a discount of a fifth.
fn list_by_the_table() -> String {
    let list = LIST.replace("5200|1|", "5200|5|");
    list.replace("100|2|       |       |", "100|6|0.10000|0.20000|")
}

#[test]
fn a_list_is_read_and_written_by_its_table() {
    let (text, table) = (list_by_the_table(), a_table());
    let list = List::read_with_table(text.as_bytes(), &table).expect("it is read");
    let flags: Vec<u64> = list.components.iter().map(|each| each.flag).collect();
    assert_eq!(flags, [3, 4, 5, 0, 6]);
    let rates = (list.components[4].premium, list.components[4].discount);
    assert_eq!(rates, (Rate(10_000), Rate(20_000)));
    assert_eq!(
        list.write_with_table(&table).as_deref(),
        Ok(text.as_bytes())
    );
    // By ours flag 5 is not in use, and by the table flag 1 is not.
    let premium = text.find("|5|").expect("flag 5") as u64 + 3;
    let refused = Err(Refusal::TextField { place: premium });
    assert_eq!(List::read(text.as_bytes()), refused);
    assert_eq!(List::read_with_table(LIST.as_bytes(), &table), refused);
    assert_eq!(list.write(), Err(Refusal::Component { place: 2 }));
    let refused = Err(Refusal::Component { place: 2 });
    assert_eq!(the_list().write_with_table(&table), refused);
    assert_eq!(
        the_list().write_with_table(&FlagTable::OURS),
        the_list().write()
    );
}

/// Cases (e) and (f), with 165,000 and 120,000 yuan for 600519 in place of 150,000.
#[test]
fn orders_follow_the_table_of_their_day() {
    let (text, table) = (list_by_the_table(), a_table());
    let list = List::read_with_table(text.as_bytes(), &table).expect("it is read");
    let (fund, accounts) = (&list.head.fund, holdings(3_072, 3_000));
    let by_ours = Day::open(fund, &list.components, &accounts);
    assert_eq!(by_ours, Err(Refusal::Component { place: 2 }));
    let day = Day::open_with_table(fund, &table, &list.components, &accounts);
    let mut day = with_prices(day.expect("it opens"));
    assert_eq!(day.flag_table(), table);
    assert_eq!(day.reference_value(), Ok(ReferenceValue(4_257)));

    let mut redemption = the_redemption();
    redemption.records[5] = record(510_302, Sell, 1_000_000, 120);
    let paid_to_the_fund = paid(Buy, 120_000, 94_400);
    redemption.investor[3] = paid(Sell, 120_000, 94_400);
    redemption.fund[3] = paid_to_the_fund;
    assert_eq!(day.redeem(1, BASKET), Ok(redemption));

    let mut creation = the_creation();
    creation.records[5] = record(510_302, Buy, 1_000_000, 188);
    creation.investor[3] = paid(Buy, 188_408, 113_600);
    creation.fund[3] = paid(Sell, 188_408, 113_600);
    assert_eq!(day.create(1, BASKET), Ok(creation));
    assert_eq!(day.flag_table(), table);
}

#[test]
fn a_day_without_a_table_is_one_under_ours() {
    let list = the_list();
    let accounts = holdings(3_072, 3_000);
    let given = Day::open_with_table(
        &list.head.fund,
        &FlagTable::OURS,
        &list.components,
        &accounts,
    );
    assert_eq!(given, Ok(opened(3_072, 3_000)));
    assert_eq!(opened(0, 0).flag_table(), FlagTable::default());
    let read = List::read_with_table(LIST.as_bytes(), &FlagTable::OURS);
    assert_eq!(read, Ok(the_list()));
}

/// Rows that break a rule, each in the place of one that no component has; the same
/// row not in use is taken, but for one with another number than 0 and 1.
#[test]
fn a_table_that_breaks_a_rule_is_refused() {
    let rows = [
        [1, 0, 0, 1, 1, 1, 1],
        [1, 0, 0, 0, 0, 1, 1],
        [1, 0, 0, 0, 1, 0, 1],
        [0, 0, 0, 0, 1, 1, 1],
        [1, 1, 0, 0, 1, 1, 1],
        [0, 1, 1, 1, 0, 0, 1],
        [0, 0, 0, 2, 0, 0, 1],
        [0, 0, 0, 1, 0, 0, 2],
    ];
    let (list, accounts) = (the_list(), holdings(0, 0));
    for (flag, mut row) in (0..2).flat_map(|_| 5..=9).zip(rows) {
        let mut table = FlagTable::OURS;
        table.set_row(flag, row);
        let mut fund = list.head.fund;
        fund.basket_size = Units(0);
        let refused = Refusal::FlagTable { place: flag as u64 };
        let opened = Day::open_with_table(&fund, &table, &list.components, &accounts);
        assert_eq!(opened.err(), Some(refused), "{row:?}");
        assert_eq!(List::read_with_table(b"", &table), Err(refused));
        let mut other = list.clone();
        other.names.pop();
        assert_eq!(other.write_with_table(&table), Err(refused));
        // The lowest flag at fault.
        table.set_row(3, row);
        let refused = Refusal::FlagTable { place: 3 };
        assert_eq!(List::read_with_table(b"", &table), Err(refused));

        row[6] = 0;
        table = FlagTable::OURS;
        table.set_row(flag, row);
        let is_taken = row.iter().all(|&number| number < 2);
        let opened = Day::open_with_table(&list.head.fund, &table, &list.components, &accounts);
        assert_eq!(opened.is_ok(), is_taken, "{row:?}");
    }
}

#[test]
fn an_opening_of_other_sizes_is_refused() {
    let list = the_list();
    let open = |fund: &Fund, components: &[Component], accounts: &[Holdings]| {
        Day::open(fund, components, accounts).map(drop)
    };
    let (fund, refused) = (&list.head.fund, Err(Refusal::Sizes));
    let mut accounts = holdings(0, 0);
    assert_eq!(open(fund, &list.components, &accounts), Ok(()));
    assert_eq!(open(fund, &list.components, &accounts[..1]), refused);
    assert_eq!(open(fund, &[], &[]), refused);
    let many = vec![accounts[1].clone(); 65];
    assert_eq!(open(fund, &list.components, &many), refused);
    accounts[0].lines.push(0);
    accounts[1].lines.pop();
    assert_eq!(open(fund, &list.components, &accounts), refused);
}
