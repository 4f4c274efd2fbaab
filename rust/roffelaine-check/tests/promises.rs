//! What must hold on random days and lists, whatever the calls.

use roffelaine_check::archive::Archive;
use roffelaine_check::engine::{Engine, Lent, Model};
use roffelaine_check::model::list;
use roffelaine_check::model::{
    range, stretch_width, Call, Component, FlagColumn, FlagTable, Reply, Trade, COMPONENT_NUMBERS,
    LOTS, RECORD_NUMBERS, REPORT_NUMBERS, SELL, SHANGHAI_KIND, STRETCH_HEAD,
};
use roffelaine_check::random::{
    any_call, break_day, price_calls, OpeningCase, Rng, Scale, Size, TextCase, WritingCase,
};

/// An account's movements of one line, counted from the calls alone.
#[derive(Clone, Copy, Default)]
struct Moved {
    opened: u64,
    sold: u64,
    bought: u64,
    got: u64,
    handed_in: u64,
}

/// All that is counted from the accepted calls of a day.
struct Counted {
    lines: usize,
    moved: Vec<Moved>,
    created: Vec<u64>,
    redeemed: Vec<u64>,
}

impl Counted {
    fn new(case: &OpeningCase) -> Self {
        let lines = case.count as usize + 1;
        let accounts = case.holdings.chunks_exact(lines + 1);
        let held = accounts.flat_map(|account| &account[1..]);
        let moved = held
            .map(|&opened| Moved {
                opened,
                ..Moved::default()
            })
            .collect();
        let none = vec![0; case.accounts as usize];
        Counted {
            lines,
            moved,
            created: none.clone(),
            redeemed: none,
        }
    }

    fn of(&mut self, account: u64, line: usize) -> &mut Moved {
        &mut self.moved[account as usize * self.lines + line]
    }

    fn count(&mut self, call: &Call, reply: Reply, lent: &Lent) {
        match *call {
            Call::Trade(Trade {
                line,
                quantity,
                seller,
                buyer,
                ..
            }) => {
                self.of(seller, line as usize).sold += quantity;
                self.of(buyer, line as usize).bought += quantity;
            }
            Call::Create(order) => {
                self.created[order.account as usize] += order.units;
                self.of(order.account, self.lines - 1).got += order.units;
                let records = lent.runs.records.chunks_exact(RECORD_NUMBERS);
                let records = records.take(reply.value as usize);
                for record in records.filter(|record| record[1] == SELL) {
                    let line = line_of(lent, record[0]);
                    self.of(order.account, line).handed_in += record[2];
                }
            }
            Call::Redeem(order) => {
                self.redeemed[order.account as usize] += order.units;
                self.of(order.account, self.lines - 1).handed_in += order.units;
                let baskets = order.units / lent.day.fund.basket_size;
                for line in 0..self.lines - 1 {
                    let component = lent.day.components[line];
                    if lent.day.table.says(component.flag, FlagColumn::StockMoves) {
                        self.of(order.account, line).got += baskets * component.quantity;
                    }
                }
            }
            _ => {}
        }
    }

    /// Bought shares are not sold, got shares are not handed in, the counters
    /// are the counts and no limit is passed.
    fn check(&self, lent: &Lent) {
        for moved in &self.moved {
            assert!(moved.sold <= moved.opened + moved.got);
            assert!(moved.handed_in <= moved.opened + moved.bought);
        }
        let width = stretch_width(self.lines - 1);
        for (account, stretch) in lent.book.chunks_exact(width).enumerate() {
            assert_eq!(
                stretch[1..3],
                [self.created[account], self.redeemed[account]]
            );
        }
        self.check_limits(lent.day.fund.limits);
    }

    fn check_limits(&self, limits: [u64; 8]) {
        let (created, redeemed) = (self.created.iter().sum(), self.redeemed.iter().sum());
        assert!(created <= range::COUNTER_MAX && redeemed <= range::COUNTER_MAX);
        check_limits(
            [limits[0], limits[1], limits[4], limits[5]],
            created,
            redeemed,
        );
        for (&created, &redeemed) in self.created.iter().zip(&self.redeemed) {
            check_limits(
                [limits[2], limits[3], limits[6], limits[7]],
                created,
                redeemed,
            );
        }
    }
}

/// Limits on creation, redemption, net creation and net redemption.
fn check_limits(limits: [u64; 4], created: u64, redeemed: u64) {
    let net = created.saturating_sub(redeemed);
    let counts = [created, redeemed, net, redeemed.saturating_sub(created)];
    for (limit, count) in limits.into_iter().zip(counts) {
        assert!(limit == 0 || count <= limit);
    }
}

fn line_of(lent: &Lent, code: u64) -> usize {
    lent.day
        .components
        .iter()
        .position(|component| component.code == code)
        .unwrap()
}

/// Cash and each line's lots, summed over all accounts.
fn totals(lent: &Lent) -> Vec<u64> {
    let width = stretch_width(lent.prices.len());
    let mut totals = vec![0; lent.prices.len() + 2];
    for stretch in lent.book.chunks_exact(width) {
        totals[0] += stretch[0];
        for (line, lots) in stretch[STRETCH_HEAD..].chunks_exact(LOTS).enumerate() {
            totals[1 + line] += lots.iter().sum::<u64>();
        }
    }
    totals
}

#[test]
fn days_keep_what_was_opened() {
    let mut rng = Rng::new(11);
    for _ in 0..300 {
        let (size, scale) = (Size::any(&mut rng), Scale::any(&mut rng));
        let case = OpeningCase::sound(&mut rng, size, scale);
        let mut lent = case.lent(&mut rng);
        assert!(Model.open(&case.opening(), &mut lent).is_accepted());
        let opened = lent.day.clone();
        let table = FlagTable::given(&case.table).expect("a table or none");
        assert_eq!(opened.table, table);
        let mut expected = totals(&lent);
        let mut counted = Counted::new(&case);
        let mut calls = price_calls(&mut rng, &lent, scale);
        calls.reverse();
        for _ in 0..calls.len() + 60 {
            let call = calls
                .pop()
                .unwrap_or_else(|| any_call(&mut rng, &lent, scale));
            let before = lent.clone();
            let reply = Model.call(&call, &mut lent);
            if !reply.is_accepted() {
                assert_eq!(lent, before, "{call:?} is refused and changes something");
                continue;
            }
            counted.count(&call, reply, &lent);
            let units = expected.last_mut().unwrap();
            match call {
                Call::Create(order) => *units += order.units,
                Call::Redeem(order) => *units -= order.units,
                _ => {}
            }
            assert_eq!(totals(&lent), expected);
            counted.check(&lent);
            assert_eq!(lent.day, opened, "{call:?} changes the day");
        }
    }
}

/// The rate of a component that an order does not read.
fn unread_rate<'c>(call: &Call, component: &'c mut Component) -> &'c mut u64 {
    match call {
        Call::Create(_) => &mut component.discount,
        _ => &mut component.premium,
    }
}

/// The amounts of the groups of one kind, or of all others, of some reports.
fn reported(reports: &[&[u64]], is_kind: impl Fn(u64) -> bool) -> u64 {
    let groups = reports
        .iter()
        .flat_map(|report| report[4..].chunks_exact(2));
    let such = groups.filter(|group| is_kind(group[0]));
    such.map(|group| group[1]).sum()
}

/// Both parties' reports of an accepted order: the amounts of Shanghai groups
/// add up to the records of g+2, the others to those of g+5; the fund's are the
/// investor's with each side turned; there are as many as the records tell.
fn check_reports(lent: &Lent, reply: Reply) {
    let records = lent.runs.records.chunks_exact(RECORD_NUMBERS);
    let records: Vec<&[u64]> = records.take(reply.value as usize).collect();
    let first_code = lent.day.fund.first_code;
    let amounts = |code: u64| -> u64 {
        let such = records.iter().filter(|record| record[0] == code);
        such.map(|record| record[4]).sum()
    };
    let (shanghai, other) = (amounts(first_code + 2), amounts(first_code + 5));
    let [investor, fund] = [&lent.runs.investor, &lent.runs.fund].map(|run| {
        let reports = run.chunks_exact(REPORT_NUMBERS);
        reports.take(reply.reports as usize).collect::<Vec<_>>()
    });
    for reports in [&investor, &fund] {
        assert_eq!(reported(reports, |kind| kind == SHANGHAI_KIND), shanghai);
        assert_eq!(reported(reports, |kind| kind != SHANGHAI_KIND), other);
    }
    for (one, turned) in investor.iter().zip(&fund) {
        assert_eq!(one[1] + turned[1], 3);
        assert_eq!((one[0], &one[2..]), (turned[0], &turned[2..]));
    }
    let moved = records
        .iter()
        .filter(|record| !is_of_group(first_code + 1, record[0]));
    let moved: Vec<&[u64]> = moved.map(|record| &record[..3]).collect();
    let told = investor.iter().filter(|report| report[0] < 3);
    let told: Vec<[u64; 3]> = told
        .map(|report| [report[2], report[1], report[3]])
        .collect();
    assert_eq!(told, moved);
    let cash = u64::from(shanghai + other > 0);
    assert_eq!(reply.reports, told.len() as u64 + cash);
}

/// Whether a code is one of the fund's group from one of its codes on.
fn is_of_group(from: u64, code: u64) -> bool {
    (from..from + 5).contains(&code)
}

#[test]
fn reports_tell_what_the_records_tell() {
    let mut rng = Rng::new(16);
    let mut accepted = [0; 2];
    for _ in 0..300 {
        let (size, scale) = (Size::any(&mut rng), Scale::any(&mut rng));
        let case = OpeningCase::sound(&mut rng, size, scale);
        let mut lent = case.lent(&mut rng);
        assert!(Model.open(&case.opening(), &mut lent).is_accepted());
        for call in price_calls(&mut rng, &lent, scale) {
            Model.call(&call, &mut lent);
        }
        for _ in 0..40 {
            let call = any_call(&mut rng, &lent, scale);
            let mut left = lent.clone();
            let reply = Archive.call(&call, &mut left);
            assert_eq!(Model.call(&call, &mut lent), reply, "{call:?}");
            let is_order = matches!(call, Call::Create(_) | Call::Redeem(_));
            if is_order && reply.is_accepted() {
                check_reports(&left, reply);
                check_reports(&lent, reply);
                accepted[usize::from(matches!(call, Call::Redeem(_)))] += 1;
            }
        }
    }
    assert!(accepted.iter().all(|&count| count > 100), "{accepted:?}");
}

/// Days that differ in discounts alone give a creation the same answer, records,
/// reports and book; days that differ in premiums alone give a redemption the
/// same.
#[test]
fn an_order_reads_its_own_rate_alone() {
    let mut rng = Rng::new(15);
    let mut accepted = [0; 2];
    for _ in 0..200 {
        let (size, scale) = (Size::any(&mut rng), Scale::any(&mut rng));
        let case = OpeningCase::sound(&mut rng, size, scale);
        let mut lent = case.lent(&mut rng);
        assert!(Model.open(&case.opening(), &mut lent).is_accepted());
        for call in price_calls(&mut rng, &lent, scale) {
            Model.call(&call, &mut lent);
        }
        for _ in 0..40 {
            let call = any_call(&mut rng, &lent, scale);
            let before = lent.clone();
            let reply = Model.call(&call, &mut lent);
            let is_order = matches!(call, Call::Create(_) | Call::Redeem(_));
            if !is_order || !reply.is_accepted() {
                continue;
            }
            let mut other = before;
            for component in &mut other.day.components[..case.count as usize] {
                if other.day.table.says(component.flag, FlagColumn::RateUsed) {
                    *unread_rate(&call, component) = rng.between(0, range::RATE_MAX);
                }
            }
            for engine in [&Model as &dyn Engine, &Archive] {
                let mut left = other.clone();
                assert_eq!(engine.call(&call, &mut left), reply, "{call:?}");
                assert_eq!(left.runs, lent.runs, "{call:?}");
                assert_eq!(left.book, lent.book, "{call:?}");
            }
            accepted[usize::from(matches!(call, Call::Redeem(_)))] += 1;
        }
    }
    assert!(accepted.iter().all(|&count| count > 100), "{accepted:?}");
}

#[test]
fn broken_days_are_left_alone() {
    let mut rng = Rng::new(12);
    for _ in 0..500 {
        let scale = Scale::any(&mut rng);
        let case = OpeningCase::sound(&mut rng, Size::Small, scale);
        let mut lent = case.lent(&mut rng);
        Model.open(&case.opening(), &mut lent);
        break_day(&mut rng, &mut lent);
        let broken = !Model.call(&Call::TestDay, &mut lent).is_accepted();
        let call = any_call(&mut rng, &lent, scale);
        let before = lent.clone();
        let reply = Model.call(&call, &mut lent);
        assert_eq!(reply.number == 5, broken);
        if broken {
            assert_eq!(lent, before);
        }
    }
}

#[test]
fn sound_texts_are_read_and_written_back() {
    let mut rng = Rng::new(13);
    for _ in 0..400 {
        let case = TextCase::sound(&mut rng);
        let mut components = vec![0; case.room];
        let read = list::read(&case.text, &case.table, &mut components);
        let read = read.expect("a sound text is read");
        let names: Vec<u8> = (0..read.count as usize)
            .flat_map(|at| read.name(at))
            .copied()
            .collect();
        let again = list::Writing {
            letters: read.letters,
            head: read.head,
            count: read.count,
            table: &case.table,
            components: &components[..COMPONENT_NUMBERS * read.count as usize],
            names: &names,
        };
        let mut output = vec![0; case.text.len()];
        let reply = list::write(&again, &mut output);
        assert_eq!(reply, Reply::accepted(case.text.len() as u64));
        assert!(same_but_for_case_of_names(&output, &case.text));
    }
}

/// Equal texts, but for the case of the head's names.
fn same_but_for_case_of_names(one: &[u8], other: &[u8]) -> bool {
    let tag = one.windows(6).position(|word| word == b"TAGTAG").unwrap();
    one[tag..] == other[tag..] && one[..tag].eq_ignore_ascii_case(&other[..tag])
}

#[test]
fn sound_lists_are_written_and_read_back() {
    let mut rng = Rng::new(14);
    for _ in 0..400 {
        let case = WritingCase::sound(&mut rng);
        let mut output = case.output.clone();
        let reply = list::write(&case.list(), &mut output);
        assert!(reply.is_accepted());
        let length = reply.value as usize;
        assert_eq!(output[length..], case.output[length..]);
        let mut components = vec![0; case.components.len()];
        let read = list::read(&output[..length], &case.table, &mut components);
        let read = read.expect("a written list is read");
        assert_eq!(
            (read.letters, read.head, read.count),
            (&case.letters[..], case.head, case.count)
        );
        assert_eq!(components, case.components);
    }
}
