//! Random days as files, under random flag tables: what the command answers is
//! what the independent model answers to the same calls, records, reports and
//! positions too.

mod support;

use roffelaine_check::engine::{Engine, Lent, Model};
use roffelaine_check::model::list::{write, Head, Writing, NAME_BYTES};
use roffelaine_check::model::{
    stretch_width, Call, FlagTable, Lengths, Order, Reply, COMPONENT_NUMBERS, FLAGS, FLAG_COLUMNS,
    LOTS, RECORD_NUMBERS, REPORT_NUMBERS, STRETCH_HEAD,
};
use roffelaine_check::random::{any_call, price_calls, sound_table, OpeningCase, Rng, Scale, Size};
use std::collections::BTreeSet;
use std::fmt::Write;
use support::{run, scratch};

/// A file of a day, and the lines that are expected of it; of a refusal the
/// part before its reason.
struct Rehearsed {
    file: Vec<u8>,
    lines: usize,
    expected: Vec<String>,
    refusals: BTreeSet<u64>,
    /// Whether reports are on, and how many were expected.
    reports_on: bool,
    reports: usize,
    /// How many orders pass their tests alone.
    tests: usize,
    /// How many rows of a flag table are given.
    rows: usize,
    /// What opening another day is answered: 0 where it is accepted.
    reopened: BTreeSet<u64>,
}

fn money(thousandths: u64) -> String {
    format!("{}.{:03}", thousandths / 1_000, thousandths % 1_000)
}

/// The list of an opening as text.
fn list_text(case: &OpeningCase) -> Vec<u8> {
    let head = Head {
        fund: case.fund,
        publish: 1,
        trading_day: 20_250_630,
        pre_trading_day: 20_250_627,
        ..Head::default()
    };
    let names = vec![b'x'; NAME_BYTES * case.count as usize];
    let list = Writing {
        head,
        count: case.count,
        table: &case.table,
        components: &case.components,
        names: &names,
        letters: b"300",
    };
    let mut text = vec![0; 20_000];
    let reply = write(&list, &mut text);
    assert!(reply.is_accepted(), "{reply:?}");
    text.truncate(reply.value as usize);
    text
}

impl Rehearsed {
    fn opened(rng: &mut Rng, case: &OpeningCase) -> Self {
        let list = list_text(case);
        let lines = list.iter().filter(|&&byte| byte == b'\n').count();
        let mut rehearsed = Rehearsed {
            file: list,
            lines,
            expected: Vec::new(),
            refusals: BTreeSet::new(),
            reports_on: false,
            reports: 0,
            tests: 0,
            rows: 0,
            reopened: BTreeSet::new(),
        };
        let rows_come_first = rng.one_in(2);
        if rows_come_first {
            rehearsed.give_rows(rng, &table_of(case));
        }
        rehearsed.say(&format!("accounts {}", case.accounts));
        let codes = codes(case);
        let accounts = case.holdings.chunks_exact(codes.len() + 1);
        for (account, held) in accounts.enumerate() {
            rehearsed.say(&format!("cash {account} {}", money(held[0])));
            for (code, quantity) in codes.iter().zip(&held[1..]) {
                if *quantity > 0 {
                    rehearsed.say(&format!("hold {account} {code:06} {quantity}"));
                }
            }
        }
        if !rows_come_first {
            rehearsed.give_rows(rng, &table_of(case));
        }
        rehearsed.say("open");
        rehearsed.expect("open ok");
        rehearsed
    }

    /// The rows of a table. One that is ours may be left out.
    fn give_rows(&mut self, rng: &mut Rng, table: &FlagTable) {
        for (flag, (row, ours)) in table.0.iter().zip(FlagTable::OURS.0).enumerate() {
            if *row == ours && rng.one_in(2) {
                continue;
            }
            let numbers = row.map(|number| number.to_string()).join(" ");
            self.say(&format!("flag {flag} {numbers}"));
            self.rows += 1;
        }
    }

    /// Another day on which nobody holds anything, under a table that may break
    /// the rules or not fit the list.
    fn reopen(&mut self, rng: &mut Rng, case: &OpeningCase, lent: &mut Lent) {
        let mut table = match rng.one_in(2) {
            true => table_of(case),
            false => sound_table(rng),
        };
        if rng.one_in(2) {
            let row = &mut table.0[rng.index(FLAGS)];
            row[rng.index(FLAG_COLUMNS)] = rng.pick(&[0, 1, 2, u64::MAX]);
        }
        let again = OpeningCase {
            table: table.numbers().to_vec(),
            holdings: vec![0; case.holdings.len()],
            ..case.clone()
        };
        self.say(&format!("accounts {}", case.accounts));
        self.give_rows(rng, &table);
        self.say("open");
        let Reply { number, place, .. } = Model.open(&again.opening(), lent);
        match number {
            0 => self.expect("open ok"),
            _ => self.expect(&format!("open refused {number} {place}: ")),
        }
        self.reopened.insert(number);
    }

    fn say(&mut self, line: &str) {
        self.file.extend_from_slice(line.as_bytes());
        self.file.push(b'\n');
        self.lines += 1;
    }

    /// Expects an answer to the line that was said last.
    fn expect(&mut self, answer: &str) {
        self.expected.push(format!("{} {answer}", self.lines));
    }

    fn call(&mut self, codes: &[u64], call: &Call, lent: &mut Lent) {
        self.say(&line_of(codes, call));
        let word = word_of(call);
        let reply = Model.call(call, lent);
        if !reply.is_accepted() {
            let (number, place) = (reply.number, reply.place);
            self.refusals.insert(number);
            self.expect(&format!("{word} refused {number} {place}: "));
            return;
        }
        match call {
            Call::Create(_) | Call::Redeem(_) => {
                self.expect(&format!("{word} ok {}", reply.value));
                self.records(reply, lent);
                if self.reports_on {
                    self.reports("investor", reply, &lent.runs.investor);
                    self.reports("fund", reply, &lent.runs.fund);
                }
            }
            Call::TestCreation(_) | Call::TestRedemption(_) => {
                let reports = match self.reports_on {
                    true => format!(" {}", reply.reports),
                    false => String::new(),
                };
                self.expect(&format!("{word} ok {}{reports}", reply.value));
                self.tests += 1;
            }
            Call::Value => {
                let (whole, part) = (reply.value / 10_000, reply.value % 10_000);
                self.expect(&format!("value ok {whole}.{part:04}"));
            }
            _ => self.expect(&format!("{word} ok")),
        }
    }

    fn records(&mut self, reply: Reply, lent: &Lent) {
        let records = lent.runs.records.chunks_exact(RECORD_NUMBERS);
        for record in records.take(reply.value as usize) {
            let side = if record[1] == 1 { 'B' } else { 'S' };
            let (price, amount) = (money(record[3]), money(record[4]));
            let (code, quantity) = (record[0], record[2]);
            let line = format!("{code:06} {side} {quantity} {price} {amount}");
            self.expected.push(line);
        }
    }

    fn turn_reports(&mut self) {
        self.reports_on = !self.reports_on;
        self.say(if self.reports_on {
            "reports on"
        } else {
            "reports off"
        });
    }

    fn reports(&mut self, party: &str, reply: Reply, run: &[u64]) {
        let reports = run.chunks_exact(REPORT_NUMBERS);
        for report in reports.take(reply.reports as usize) {
            let &[kind, side, code, quantity, ref groups @ ..] = report else {
                panic!("{report:?}");
            };
            let mut line = format!("{party} {kind} {side} {code:06} {quantity}");
            for group in groups.chunks_exact(2).filter(|group| group[0] > 0) {
                write!(line, " {} {}", group[0], money(group[1])).expect("a string");
            }
            self.expected.push(line);
            self.reports += 1;
        }
    }

    /// Shows every account; lines of which it has nothing are left out.
    fn show(&mut self, codes: &[u64], lent: &Lent) {
        let stretches = lent.book.chunks_exact(stretch_width(codes.len() - 1));
        for (account, stretch) in stretches.enumerate() {
            self.say(&format!("show {account}"));
            let (cash, created, redeemed) = (money(stretch[0]), stretch[1], stretch[2]);
            self.expect(&format!(
                "account {account} cash {cash} created {created} redeemed {redeemed}"
            ));
            let lots = stretch[STRETCH_HEAD..].chunks_exact(LOTS);
            for (code, lots) in codes.iter().zip(lots) {
                if lots.iter().any(|&lot| lot > 0) {
                    let (old, bought, got) = (lots[0], lots[1], lots[2]);
                    self.expected
                        .push(format!("{code:06} {old} {bought} {got}"));
                }
            }
        }
    }
}

/// The flag table of an opening.
fn table_of(case: &OpeningCase) -> FlagTable {
    FlagTable::given(&case.table).expect("a table or none")
}

/// The code of each line, the unit's last.
fn codes(case: &OpeningCase) -> Vec<u64> {
    let components = case.components.chunks_exact(COMPONENT_NUMBERS);
    let codes = components.map(|each| each[0]);
    codes.chain([case.fund.first_code]).collect()
}

/// The words that the line of a call starts with.
fn word_of(call: &Call) -> &'static str {
    match call {
        Call::Price { .. } => "price",
        Call::Trade(_) => "trade",
        Call::Create(_) => "create",
        Call::Redeem(_) => "redeem",
        Call::TestCreation(_) => "test create",
        Call::TestRedemption(_) => "test redeem",
        Call::Value | Call::TestDay => "value",
    }
}

/// A call as a line of a day. A line that the day has not is said by a code of
/// the fund's group that no component may have.
fn line_of(codes: &[u64], call: &Call) -> String {
    let code = |line: u64| {
        let unit = codes[codes.len() - 1];
        let code = usize::try_from(line).ok().and_then(|line| codes.get(line));
        *code.unwrap_or(&(unit + 3))
    };
    let word = word_of(call);
    match call {
        Call::Price { line, price } => format!("{word} {:06} {}", code(*line), money(*price)),
        Call::Trade(trade) => {
            let (code, price) = (code(trade.line), money(trade.price));
            let (quantity, seller, buyer) = (trade.quantity, trade.seller, trade.buyer);
            format!("{word} {code:06} {quantity} {price} {seller} {buyer}")
        }
        Call::Create(order)
        | Call::Redeem(order)
        | Call::TestCreation(order)
        | Call::TestRedemption(order) => {
            let room = order.lengths.records / RECORD_NUMBERS;
            format!("{word} {} {} {room}", order.account, order.units)
        }
        Call::Value | Call::TestDay => word.to_string(),
    }
}

/// Any call that a line can say: the day's test called alone has none, and an
/// order has room for all its reports.
fn sayable(rng: &mut Rng, lent: &Lent, scale: Scale) -> Call {
    let most = lent.runs.lengths();
    let with_room = |order: Order| Order {
        lengths: Lengths {
            records: order.lengths.records,
            ..most
        },
        ..order
    };
    match any_call(rng, lent, scale) {
        Call::Create(order) => Call::Create(with_room(order)),
        Call::Redeem(order) => Call::Redeem(with_room(order)),
        Call::TestCreation(order) => Call::TestCreation(with_room(order)),
        Call::TestRedemption(order) => Call::TestRedemption(with_room(order)),
        Call::TestDay => Call::Value,
        call => call,
    }
}

fn day(rng: &mut Rng) -> Rehearsed {
    let (size, scale) = (Size::any(rng), Scale::any(rng));
    let case = OpeningCase::sound(rng, size, scale);
    let mut lent = case.lent(rng);
    let opened = Model.open(&case.opening(), &mut lent);
    assert!(opened.is_accepted(), "{opened:?}");
    let codes = codes(&case);
    let mut rehearsed = Rehearsed::opened(rng, &case);
    for call in price_calls(rng, &lent, scale) {
        rehearsed.call(&codes, &call, &mut lent);
    }
    for _ in 0..60 {
        if rng.one_in(12) {
            rehearsed.turn_reports();
        }
        let call = sayable(rng, &lent, scale);
        rehearsed.call(&codes, &call, &mut lent);
    }
    rehearsed.show(&codes, &lent);
    rehearsed.reopen(rng, &case, &mut lent);
    rehearsed
}

#[test]
fn random_days_answer_as_the_model() {
    let mut rng = Rng::new(12);
    let (mut refusals, mut reopened) = (BTreeSet::new(), BTreeSet::new());
    let (mut reports, mut tests, mut rows) = (0, 0, 0);
    for _ in 0..300 {
        let rehearsed = day(&mut rng);
        let file = scratch("day.txt", &rehearsed.file);
        let ran = run(&["rehearse", file.to_str().expect("a path")]);
        let lines = ran.lines();
        let (counts, lines) = lines.split_last().expect("the counts");
        assert!(counts.ends_with(" 0 not understood"), "{counts}");
        assert_eq!(lines.len(), rehearsed.expected.len(), "{}", file.display());
        for (line, expected) in lines.iter().zip(&rehearsed.expected) {
            let fits = match expected.strip_suffix(": ") {
                Some(_) => line.starts_with(expected.as_str()) && line.len() > expected.len(),
                None => line == expected,
            };
            assert!(fits, "{}: {line:?}, expected {expected:?}", file.display());
        }
        refusals.extend(rehearsed.refusals);
        reports += rehearsed.reports;
        tests += rehearsed.tests;
        rows += rehearsed.rows;
        reopened.extend(rehearsed.reopened);
        std::fs::remove_file(&file).expect("removed");
    }
    let made: Vec<u64> = refusals.into_iter().collect();
    assert_eq!(made, Vec::from_iter(6..=17), "refusals that were made");
    assert!(reports > 10_000, "{reports} reports");
    assert!(tests > 50, "{tests} orders pass their tests alone");
    assert!(rows > 2_000, "{rows} rows of flag tables");
    let reopened: Vec<u64> = reopened.into_iter().collect();
    assert_eq!(reopened, [0, 3, 21], "answers to another opening");
}
