//! The paper's day to compare with: cases (a) to (i), and the same day with
//! unlike rates, by the model.

#[path = "../../roffelaine/tests/support/paper_list.rs"]
mod paper_list;

use paper_list::LIST;
use roffelaine_check::model::list::{self, List};
use roffelaine_check::model::{
    book_length, call, lengths_for, open, Call, Component, Counts, Day, Opening, Order, PerList,
    Reply, BUY, COMPONENT_NUMBERS, RECORD_NUMBERS, REPORT_NUMBERS, SELL,
};

const COUNT: usize = 5;
const AMPLE: u64 = 1_000_000_000_000;
const BASKET: u64 = 1_000_000;

/// The lines of the components whose rates or amounts are changed.
const PAYH: usize = 0;
const WKA: usize = 1;
const PFYH: usize = 2;
const GZMT: usize = 4;

/// A change to the list's components.
type Change = fn(&mut [Component]);

/// The day opened, with a change to the list's components and prices set.
struct Setup {
    day: Day,
    book: Vec<u64>,
    prices: Vec<u64>,
    lists: PerList<Vec<u64>>,
}

/// Records and reports that the lists have places for.
const PLACES: Counts = Counts {
    records: 20,
    reports: 20,
};

impl Setup {
    /// Account 1 has this much of 600000 and 600036, ample cash and units.
    fn new(of_600000: u64, of_600036: u64) -> Self {
        Self::with_components(of_600000, of_600036, |_| {})
    }

    fn with_components(of_600000: u64, of_600036: u64, change: Change) -> Self {
        let mut run = [0; COMPONENT_NUMBERS * COUNT];
        let list: List = list::read(LIST.as_bytes(), &[], &mut run).expect("the list is read");
        let components = run.chunks_exact(COMPONENT_NUMBERS);
        let mut components: Vec<_> = components.map(Component::from_numbers).collect();
        change(&mut components);
        let components: Vec<u64> = components.iter().flat_map(Component::numbers).collect();
        let mut holdings = vec![AMPLE; COUNT + 1];
        holdings.push(0);
        holdings.extend([AMPLE, 0, 0, of_600000, of_600036, 0, BASKET]);
        let opening = Opening {
            accounts: 2,
            count: list.count,
            fund: list.head.fund,
            table: &[],
            components: &components,
            holdings: &holdings,
        };
        let mut book = vec![0; book_length(2, COUNT)];
        let mut prices = vec![0; COUNT];
        let day = open(&opening, &mut book, &mut prices).expect("the day opens");
        let mut setup = Setup {
            day,
            book,
            prices,
            lists: lengths_for(PLACES).map(|length| vec![0; length]),
        };
        for (line, price) in [(0, 12_000), (2, 10_000), (3, 40_000)] {
            setup.price(line, price);
        }
        setup
    }

    fn call(&mut self, asked: Call) -> Reply {
        call(
            &self.day,
            &mut self.book,
            &mut self.prices,
            self.lists.as_mut().map(|list| &mut list[..]),
            &asked,
        )
    }

    fn price(&mut self, line: u64, price: u64) {
        assert!(self.call(Call::Price { line, price }).is_accepted());
    }

    fn create(&mut self) -> Reply {
        self.call(Call::Create(Order::with_places(1, BASKET, PLACES)))
    }

    fn redeem(&mut self) -> Reply {
        self.call(Call::Redeem(Order::with_places(1, BASKET, PLACES)))
    }

    fn written(&self, reply: Reply) -> Vec<[u64; RECORD_NUMBERS]> {
        first(&self.lists.records, reply.value)
    }

    /// The reports to the investor and to the fund's manager.
    fn reported(&self, reply: Reply) -> [Reports; 2] {
        let lists = [&self.lists.investor, &self.lists.fund];
        lists.map(|list| first(list, reply.reports))
    }
}

type Reports = Vec<[u64; REPORT_NUMBERS]>;

/// So many places at the front of a list.
fn first<const WIDTH: usize>(list: &[u64], count: u64) -> Vec<[u64; WIDTH]> {
    let places = list.chunks_exact(WIDTH).take(count as usize);
    places.map(|place| place.try_into().unwrap()).collect()
}

fn refused(number: u64, place: u64) -> Reply {
    Reply::refused(number, place)
}

#[test]
fn a_the_reference_value() {
    assert_eq!(
        Setup::new(3_072, 3_000).call(Call::Value),
        Reply::accepted(4_257)
    );
}

#[test]
fn b_and_c_the_ratio() {
    assert!(Setup::new(3_072, 3_000).create().is_accepted());
    assert_eq!(Setup::new(3_071, 3_000).create(), refused(15, 0));
}

#[test]
fn d_flag_0_is_short() {
    assert_eq!(Setup::new(3_072, 2_999).create(), refused(9, 3));
}

/// The records of a creation by account 1, after a change.
fn created(of_600000: u64, change: Change) -> Vec<[u64; RECORD_NUMBERS]> {
    let mut setup = Setup::with_components(of_600000, 3_000, change);
    let reply = setup.create();
    setup.written(reply)
}

/// The records of a redemption by account 1, after a change.
fn redeemed(change: Change) -> Vec<[u64; RECORD_NUMBERS]> {
    let mut setup = Setup::with_components(0, 0, change);
    let reply = setup.redeem();
    setup.written(reply)
}

/// Case (e), with other cash of so many thousandths of a yuan.
fn the_creation(other_cash: u64) -> Vec<[u64; RECORD_NUMBERS]> {
    let (price, rest) = (other_cash / 1_000_000, other_cash % 1_000_000);
    vec![
        [510_300, BUY, 1_000_000, 0, 0],
        [600_000, SELL, 3_072, 0, 0],
        [600_036, SELL, 3_000, 0, 0],
        [510_305, BUY, 1_000_000, price, 1_000_000 * price],
        [510_305, BUY, 1, rest, rest],
        [510_302, BUY, 1_000_000, 173, 173_000_000],
        [510_302, BUY, 1, 408_000, 408_000],
        [510_301, BUY, 1_000_000, 0, 0],
    ]
}

/// Case (f), in the same way.
fn the_redemption(other_cash: u64) -> Vec<[u64; RECORD_NUMBERS]> {
    let (price, rest) = (other_cash / 1_000_000, other_cash % 1_000_000);
    vec![
        [510_300, SELL, 1_000_000, 0, 0],
        [600_000, BUY, 5_200, 0, 0],
        [600_036, BUY, 3_000, 0, 0],
        [510_305, SELL, 1_000_000, price, 1_000_000 * price],
        [510_305, SELL, 1, rest, rest],
        [510_302, SELL, 1_000_000, 150, 150_000_000],
        [510_302, SELL, 1, 0, 0],
        [510_301, SELL, 1_000_000, 0, 0],
    ]
}

/// Both rates of the list are the paper's r.
#[test]
fn e_the_creation() {
    assert_eq!(created(3_072, |_| {}), the_creation(113_600_000));
}

#[test]
fn f_the_redemption() {
    assert_eq!(redeemed(|_| {}), the_redemption(94_400_000));
}

/// A report of the unit or of stock.
fn moved(report_type: u64, side: u64, code: u64, quantity: u64) -> [u64; REPORT_NUMBERS] {
    [report_type, side, code, quantity, 0, 0, 0, 0, 0, 0]
}

/// A report of cash, by kind and amount.
fn paid(side: u64, groups: [u64; 4]) -> [u64; REPORT_NUMBERS] {
    let [kind, amount, next_kind, next_amount] = groups;
    [3, side, 0, 0, kind, amount, next_kind, next_amount, 0, 0]
}

/// The same with each side turned.
fn turned(reports: &Reports) -> Reports {
    let turn = |report: &[u64; REPORT_NUMBERS]| {
        let mut report = *report;
        report[1] = 3 - report[1];
        report
    };
    reports.iter().map(turn).collect()
}

#[test]
fn e_the_reports_of_the_creation() {
    let mut setup = Setup::new(3_072, 3_000);
    let reply = setup.create();
    assert_eq!((reply.value, reply.reports), (8, 4));
    let investor = vec![
        moved(1, 1, 510_300, 1_000_000),
        moved(2, 2, 600_000, 3_072),
        moved(2, 2, 600_036, 3_000),
        paid(1, [1, 173_408_000, 2, 113_600_000]),
    ];
    let fund = turned(&investor);
    assert_eq!(setup.reported(reply), [investor, fund]);
}

#[test]
fn f_the_reports_of_the_redemption() {
    let mut setup = Setup::new(0, 0);
    let reply = setup.redeem();
    assert_eq!((reply.value, reply.reports), (8, 4));
    let investor = vec![
        moved(1, 2, 510_300, 1_000_000),
        moved(2, 1, 600_000, 5_200),
        moved(2, 1, 600_036, 3_000),
        paid(2, [1, 150_000_000, 2, 94_400_000]),
    ];
    let fund = turned(&investor);
    assert_eq!(setup.reported(reply), [investor, fund]);
}

/// The investor's last report of a redemption after a change, and the count of
/// all.
fn last_report(change: Change) -> ([u64; REPORT_NUMBERS], u64) {
    let mut setup = Setup::with_components(0, 0, change);
    let reply = setup.redeem();
    let [investor, _] = setup.reported(reply);
    (*investor.last().unwrap(), reply.reports)
}

#[test]
fn a_kind_without_cash_is_left_out_without_a_gap() {
    let other_alone = last_report(|components| components[GZMT].amount = 0);
    assert_eq!(other_alone, (paid(2, [2, 94_400_000, 0, 0]), 4));
    let shanghai_alone = last_report(|components| {
        (components[PAYH].amount, components[WKA].amount) = (0, 0);
    });
    assert_eq!(shanghai_alone, (paid(2, [1, 150_000_000, 0, 0]), 4));
    let none = last_report(|components| {
        (components[PAYH].amount, components[WKA].amount) = (0, 0);
        components[GZMT].amount = 0;
    });
    assert_eq!(none, (moved(2, 1, 600_036, 3_000), 3));
}

/// Nothing of 600000 is there, and nothing of it moves.
#[test]
fn a_component_of_which_nothing_moves_has_no_report() {
    let mut setup = Setup::with_components(0, 3_000, |_| {});
    setup.price(PFYH as u64, 1);
    let reply = setup.create();
    let [investor, _] = setup.reported(reply);
    let codes: Vec<u64> = investor.iter().map(|report| report[2]).collect();
    assert_eq!(codes, [510_300, 600_036, 0]);
}

/// 96,000 yuan less a discount of 0.05 are 91,200, and 8,000 of 000002.
#[test]
fn another_discount_is_taken_by_redemption_alone() {
    let change: Change = |components| components[PAYH].discount = 5_000;
    assert_eq!(created(3_072, change), the_creation(113_600_000));
    assert_eq!(redeemed(change), the_redemption(99_200_000));
}

/// 96,000 yuan with a premium of 0.05 are 100,800, and 8,000 of 000002.
#[test]
fn another_premium_is_taken_by_creation_alone() {
    let change: Change = |components| components[PAYH].premium = 5_000;
    assert_eq!(created(3_072, change), the_creation(108_800_000));
    assert_eq!(redeemed(change), the_redemption(94_400_000));
}

/// Redemption delivers the stock of flag 1 in full, whatever its discount.
#[test]
fn the_discount_of_flag_1_enters_no_sum() {
    for change in [
        (|components| components[PFYH].discount = 0) as Change,
        |components| components[PFYH].discount = 100_000,
    ] {
        assert_eq!(created(3_072, change), the_creation(113_600_000));
        assert_eq!(redeemed(change), the_redemption(94_400_000));
    }
}

/// The records under a code.
fn under(code: u64, records: Vec<[u64; RECORD_NUMBERS]>) -> Vec<[u64; RECORD_NUMBERS]> {
    let records = records.into_iter();
    records.filter(|record| record[0] == code).collect()
}

/// Records of other cash, of a redemption after a change.
fn other_cash(change: Change) -> Vec<[u64; RECORD_NUMBERS]> {
    under(510_305, redeemed(change))
}

#[test]
fn g_cash_is_split_from_a_thousand_yuan_on() {
    let below = other_cash(|components| {
        (components[PAYH].amount, components[WKA].amount) = (0, 999_999);
    });
    assert_eq!(below, [[510_305, SELL, 1, 999_999, 999_999]]);
    let at = other_cash(|components| {
        (components[PAYH].amount, components[WKA].amount) = (0, 1_000_000);
    });
    assert_eq!(
        at,
        [
            [510_305, SELL, 1_000_000, 1, 1_000_000],
            [510_305, SELL, 1, 0, 0]
        ]
    );
}

/// Shanghai cash where 5 shares of 600000 at 0.001 yuan are missing.
fn shanghai_cash(change: Change) -> Vec<[u64; RECORD_NUMBERS]> {
    let mut setup = Setup::with_components(5_195, 3_000, change);
    setup.price(PFYH as u64, 1);
    let reply = setup.create();
    under(510_302, setup.written(reply))
}

/// The discounts are such that each answer would be another by them.
#[test]
fn h_and_i_the_premium_is_rounded() {
    let half = shanghai_cash(|components| {
        components[GZMT].amount = 0;
        (components[PFYH].premium, components[PFYH].discount) = (10_000, 0);
    });
    assert_eq!(half, [[510_302, BUY, 1, 6, 6]]);
    let below = shanghai_cash(|components| {
        components[GZMT].amount = 0;
        (components[PFYH].premium, components[PFYH].discount) = (9_999, 10_000);
    });
    assert_eq!(below, [[510_302, BUY, 1, 5, 5]]);
}

/// 5 less a discount of 10,000 is 5, and of 10,001 is 4; the premiums are such
/// that each answer would be another by them.
#[test]
fn the_discount_is_rounded() {
    let half = other_cash(|components| {
        (components[PAYH].amount, components[WKA].amount) = (5, 0);
        (components[PAYH].premium, components[PAYH].discount) = (10_001, 10_000);
    });
    assert_eq!(half, [[510_305, SELL, 1, 5, 5]]);
    let below = other_cash(|components| {
        (components[PAYH].amount, components[WKA].amount) = (5, 0);
        (components[PAYH].premium, components[PAYH].discount) = (10_000, 10_001);
    });
    assert_eq!(below, [[510_305, SELL, 1, 4, 4]]);
}

/// 16 comes last, and for each of the three lists; a refused order writes in
/// none of them.
#[test]
fn any_list_may_be_too_short() {
    let needed = lengths_for(Counts {
        records: 8,
        reports: 4,
    });
    let orders = |lengths| {
        let mut order = Order::with_places(1, BASKET, PLACES);
        order.lengths = lengths;
        [Call::Create(order), Call::Redeem(order)]
    };
    let short: [fn(&mut PerList<usize>); 3] = [
        |lengths| lengths.records -= 1,
        |lengths| lengths.investor -= 1,
        |lengths| lengths.fund -= 1,
    ];
    for shorten in short {
        let mut lengths = needed;
        shorten(&mut lengths);
        for order in orders(lengths) {
            let mut setup = Setup::new(3_072, 3_000);
            setup.lists = lengths.map(|length| vec![7; length]);
            assert_eq!(setup.call(order), refused(16, 0));
            assert_eq!(setup.lists, lengths.map(|length| vec![7; length]));
            let mut poor = Setup::new(3_072, 2_999);
            poor.book[book_length(1, COUNT)..].fill(0);
            poor.lists = lengths.map(|length| vec![7; length]);
            assert_eq!(poor.call(order).number, 9);
        }
    }
    for order in orders(needed) {
        let mut setup = Setup::new(3_072, 3_000);
        setup.lists = needed.map(|length| vec![7; length]);
        assert!(setup.call(order).is_accepted());
    }
}

#[test]
fn created_units_are_not_redeemed_the_same_day() {
    let mut setup = Setup::new(3_072, 3_000);
    assert!(setup.redeem().is_accepted());
    assert!(setup.create().is_accepted());
    assert_eq!(setup.redeem(), refused(9, 0));
}
