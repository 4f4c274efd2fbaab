//! What the archive does with runs that no safe type would lend it.

use roffelaine::lent;
use roffelaine_check::archive::{call, lists_of, Archive};
use roffelaine_check::engine::{Engine, Lent, LentList, Model};
use roffelaine_check::flat::{
    answers_length, day_numbers, field_numbers, fund_numbers, rows_of, DAY_NUMBERS, FIELD_NUMBERS,
    FUND_NUMBERS, PART_NUMBERS,
};
use roffelaine_check::model::{
    book_length, Call, Counts, Day, Fund, Lengths, Opening, Order, PerList, Refusal, Reply, Trade,
    ANSWER_NUMBERS, COMPONENT_NUMBERS, MAX_COMPONENTS, ROW_NUMBERS,
};
use roffelaine_check::random::{OpeningCase, Rng, Scale, Size, TextCase, WritingCase};

fn refused(number: u64) -> Reply {
    Reply::refused(number, 0)
}

/// One call of each kind, orders with lists of such lengths.
fn calls(lengths: Lengths) -> [Call; 8] {
    let order = Order {
        account: 1,
        units: 1,
        lengths,
    };
    let trade = Trade {
        line: 0,
        quantity: 1,
        price: 1,
        seller: 1,
        buyer: 2,
    };
    [
        Call::Price { line: 0, price: 1 },
        Call::Trade(trade),
        Call::Create(order),
        Call::Redeem(order),
        Call::Value,
        Call::TestDay,
        Call::TestCreation(order),
        Call::TestRedemption(order),
    ]
}

/// Opens with the fund's numbers as they are lent; what is filled beforehand
/// must stay where the opening is refused.
fn open(case: &OpeningCase, fund: &[u64], day: &mut [u64]) -> Reply {
    let (mut book, mut prices) = (case.book.clone(), case.prices.clone());
    let before = day.to_vec();
    let reply = Reply::from(lent::open(
        case.accounts,
        case.count,
        fund,
        &case.table,
        &case.components,
        &case.holdings,
        &mut book,
        &mut prices,
        day,
    ));
    if !reply.is_accepted() {
        assert_eq!((book, prices), (case.book.clone(), case.prices.clone()));
        assert_eq!(day, before);
    }
    reply
}

fn sound_opening(rng: &mut Rng) -> OpeningCase {
    OpeningCase::sound(rng, Size::Small, Scale::Usual)
}

#[test]
fn a_fund_or_day_of_another_length_does_not_open() {
    let mut rng = Rng::new(31);
    let case = sound_opening(&mut rng);
    let fund = fund_numbers(&case.fund);
    let mut day = rng.numbers(DAY_NUMBERS);
    for length in [0, 1, FUND_NUMBERS - 1] {
        assert_eq!(open(&case, &fund[..length], &mut day), refused(1));
    }
    let longer: Vec<u64> = fund.iter().copied().chain([0]).collect();
    assert_eq!(open(&case, &longer, &mut day), refused(1));
    for length in [0, 1, DAY_NUMBERS - 1, DAY_NUMBERS + 1] {
        let mut other = rng.numbers(length);
        assert_eq!(open(&case, &fund, &mut other), refused(1));
    }
    assert!(open(&case, &fund, &mut day).is_accepted());
    assert_eq!(day[2..2 + FUND_NUMBERS], fund);
}

#[test]
fn estimated_cash_is_a_sign_and_a_size() {
    let mut rng = Rng::new(32);
    let case = sound_opening(&mut rng);
    let mut fund = fund_numbers(&case.fund);
    let mut stored = |below_zero, size| {
        (fund[4], fund[5]) = (below_zero, size);
        let mut day = vec![7; DAY_NUMBERS];
        let reply = open(&case, &fund, &mut day);
        reply.outcome().map(|_| [day[6], day[7]])
    };
    assert_eq!(stored(1, 999_999_999), Ok([1, 999_999_999]));
    assert_eq!(stored(0, 9_999_999_999), Ok([0, 9_999_999_999]));
    assert_eq!(stored(1, 0), Ok([0, 0]));
    assert_eq!(stored(2, 5), Ok([0, 5]));
    for (below_zero, size) in [
        (1, 1_000_000_000),
        (0, 10_000_000_000),
        (0, 1 << 63),
        (1, 1 << 63),
        (0, u64::MAX),
        (1, u64::MAX),
    ] {
        assert_eq!(stored(below_zero, size), Err(Refusal::new(2)));
    }
}

fn opened(rng: &mut Rng) -> Lent {
    let case = sound_opening(rng);
    let mut lent = case.lent(rng);
    assert!(Model.open(&case.opening(), &mut lent).is_accepted());
    lent
}

#[test]
fn a_day_of_another_length_is_not_sound() {
    let mut rng = Rng::new(33);
    for _ in 0..20 {
        let before = opened(&mut rng);
        let mut day = day_numbers(&before.day).to_vec();
        let length = rng.pick(&[0, 2, DAY_NUMBERS - 1, DAY_NUMBERS + 1, 2 * DAY_NUMBERS]);
        day.resize(length, 0);
        let mut lent = before.clone();
        for asked in calls(lent.runs.lengths()) {
            let (book, prices) = (&mut lent.book, &mut lent.prices);
            let reply = call(&day, book, prices, lent.runs.lend(), &asked);
            assert_eq!((reply, &lent), (refused(5), &before));
        }
        check_rows_refused(&day, &before);
    }
}

/// Both ways of running rows answer 5 to each and change nothing else.
fn check_rows_refused(day: &[u64], before: &Lent) {
    let (rows, _) = rows_of(&calls(Lengths::default()));
    for run in [lent::run, lent::run_one_by_one] {
        let mut lent = before.clone();
        let mut answers = vec![7; answers_length(&rows)];
        let (book, prices) = (&mut lent.book, &mut lent.prices);
        let lists = lists_of(lent.runs.lend());
        let reply = run(day, book, prices, &rows, lists, &mut answers);
        assert_eq!((reply.into(), &lent), (Reply::accepted(0), before));
        let mut answers = answers.chunks_exact(ANSWER_NUMBERS);
        assert!(answers.all(|answer| answer == refused(5).numbers()));
    }
}

#[test]
fn empty_runs_are_refused() {
    let reply = lent::open(2, 1, &[], &[], &[], &[], &mut [], &mut [], &mut []);
    assert_eq!(Reply::from(reply), refused(1));
    for asked in calls(Lengths::default()) {
        let reply = call(&[], &mut [], &mut [], PerList::default(), &asked);
        assert_eq!(reply, refused(5));
    }
    for run in [lent::run, lent::run_one_by_one] {
        let lists = lent::Lists::default();
        let reply = run(&[], &mut [], &mut [], &[], lists, &mut []);
        assert_eq!(Reply::from(reply), Reply::accepted(0));
    }
    let mut first_row = 7;
    let reply = lent::read(&[], &[], &mut [], &mut [0; FIELD_NUMBERS], &mut first_row);
    assert_eq!((reply.into(), first_row), (refused(18), 7));
    assert_eq!(lent::name(&[], 0, 0, &mut []), 0);
    assert_eq!(lent::letters(&[], &mut []), 0);
    let reply = lent::write(&[], &[], &[], &[], &[], &mut []);
    assert_eq!(Reply::from(reply), refused(1));
}

#[test]
fn fields_of_another_length_are_refused() {
    let mut rng = Rng::new(34);
    for length in [0, FUND_NUMBERS, FIELD_NUMBERS - 1, FIELD_NUMBERS + 1] {
        let text = TextCase::sound(&mut rng);
        let (run, fields) = (rng.numbers(text.room), rng.numbers(length));
        assert_eq!(read_into(&text, &text.table, &run, &fields), refused(1));
        let list = WritingCase::sound(&mut rng);
        let mut fields = field_numbers(&list.head, list.count).to_vec();
        fields.resize(length, 0);
        assert_eq!(write_from(&list, &list.table, &fields), refused(1));
    }
}

/// Reads a text that is refused into what these runs hold, which stays.
fn read_into(case: &TextCase, table: &[u64], run: &[u64], fields: &[u64]) -> Reply {
    let (mut run_left, mut fields_left, mut first_row) = (run.to_vec(), fields.to_vec(), 7);
    let reply = lent::read(
        &case.text,
        table,
        &mut run_left,
        &mut fields_left,
        &mut first_row,
    );
    assert_eq!((&run_left[..], &fields_left[..]), (run, fields));
    assert_eq!(first_row, 7);
    reply.into()
}

/// Writes a list that is refused; what the output holds stays.
fn write_from(case: &WritingCase, table: &[u64], fields: &[u64]) -> Reply {
    let mut output = case.output.clone();
    let reply = lent::write(
        fields,
        table,
        &case.components,
        &case.names,
        &case.letters,
        &mut output,
    );
    assert_eq!(output, case.output);
    reply.into()
}

/// Lengths that no table has, and that stand for none.
const OTHER_LENGTHS: [usize; 8] = [1, 7, 10, 63, 69, 71, 77, 140];

/// A run of no numbers is no table, and ours is taken; it is the day under ours.
#[test]
fn a_table_of_another_length_does_not_open() {
    let mut rng = Rng::new(38);
    let case = OpeningCase {
        table: Vec::new(),
        components: vec![0, 1, 0, 0, 0, 0],
        ..one_component(&mut rng)
    };
    let fund = fund_numbers(&case.fund);
    let with_table = |table: &[u64], fund: &[u64], day: &mut [u64]| {
        let case = OpeningCase {
            table: table.to_vec(),
            ..case.clone()
        };
        open(&case, fund, day)
    };
    let mut day = rng.numbers(DAY_NUMBERS);
    for length in OTHER_LENGTHS {
        let other: Vec<u64> = our_numbers().cycle().take(length).collect();
        assert_eq!(with_table(&other, &fund, &mut day), refused(1));
        // The length comes before the table's rules and the fund's fields.
        let broken = vec![2; length];
        assert_eq!(
            with_table(&broken, &[9; FUND_NUMBERS], &mut day),
            refused(1)
        );
    }
    let ours: Vec<u64> = our_numbers().collect();
    let mut other = rng.numbers(DAY_NUMBERS);
    assert!(with_table(&ours, &fund, &mut day).is_accepted());
    assert!(with_table(&[], &fund, &mut other).is_accepted());
    assert_eq!(day, other);
    assert_eq!(day[16..86], ours);
    // The rules come before the fund's fields, and behind all lengths.
    let mut broken = ours;
    broken[69] = 2;
    let out_of_range = [u64::MAX; FUND_NUMBERS];
    let refusal = with_table(&broken, &out_of_range, &mut day);
    assert_eq!(refusal, Reply::refused(21, 9));
    assert_eq!(with_table(&broken, &fund[1..], &mut day), refused(1));
}

/// Document 01's rows of the flags 0 to 4, all of them in use, and no others.
fn our_numbers() -> impl Iterator<Item = u64> + Clone {
    let rows = [
        [1, 0, 0, 0, 1, 1, 1],
        [1, 1, 1, 0, 1, 1, 1],
        [0, 0, 0, 1, 1, 0, 1],
        [0, 0, 1, 1, 0, 1, 1],
        [0, 0, 0, 1, 0, 0, 1],
    ];
    rows.into_iter().chain([[0; 7]; 5]).flatten()
}

/// An opening on one component.
fn one_component(rng: &mut Rng) -> OpeningCase {
    loop {
        let case = sound_opening(rng);
        if case.count == 1 && case.fund.first_code > 0 {
            return case;
        }
    }
}

/// A table of another length is refused with 21 before all else, and so is one
/// that breaks a rule: also where the fields have another width, the sizes are
/// wrong or the text is no list.
#[test]
fn a_table_comes_first_in_text_calls() {
    let mut rng = Rng::new(39);
    for length in OTHER_LENGTHS {
        let other = rng.numbers(length);
        check_table_first(&mut rng, &other, 0);
    }
    let ours: Vec<u64> = our_numbers().collect();
    for at in 0..ours.len() {
        for number in [2, 257, 1 << 32, u64::MAX] {
            let mut broken = ours.clone();
            broken[at] = number;
            check_table_first(&mut rng, &broken, at as u64 / 7);
        }
    }
}

fn check_table_first(rng: &mut Rng, table: &[u64], place: u64) {
    let refused = Reply::refused(21, place);
    let damaged = rng.one_in(2);
    let text = match damaged {
        true => TextCase::damaged(rng),
        false => TextCase::sound(rng),
    };
    let mut list = WritingCase::sound(rng);
    if damaged {
        list.components.pop();
        list.head.publish = 2;
    }
    for width in [FIELD_NUMBERS, FIELD_NUMBERS - 1, 0] {
        let (run, fields) = (rng.numbers(text.room), rng.numbers(width));
        assert_eq!(read_into(&text, table, &run, &fields), refused);
        let fields = &field_numbers(&list.head, list.count)[..width];
        assert_eq!(write_from(&list, table, fields), refused);
    }
}

#[test]
fn a_part_is_stored_where_there_is_room() {
    let mut rng = Rng::new(36);
    let TextCase { text, table, .. } = TextCase::sound(&mut rng);
    let mut lent = LentList {
        components: vec![0; COMPONENT_NUMBERS * MAX_COMPONENTS],
        fields: [0; FIELD_NUMBERS],
        first_row: 0,
    };
    assert!(Archive.read(&text, &table, &mut lent).is_accepted());
    for length in 0..5 {
        let before = rng.numbers(length);
        let (mut name, mut letters) = (before.clone(), before.clone());
        assert_eq!(lent::name(&text, lent.first_row, 0, &mut name), 8);
        let count = lent::letters(&text, &mut letters);
        assert!((1..=8).contains(&count));
        let expected = |place, count| match length {
            0 | 1 => before.clone(),
            _ => [&[place, count], &before[PART_NUMBERS..]].concat(),
        };
        assert_eq!(name, expected(lent.first_row + 7, 8));
        assert_eq!(letters, expected(4, count));
    }
}

#[test]
fn a_part_that_is_not_there_is_empty() {
    // Three lines of 58 bytes with their ends, but for the last byte.
    let text = vec![b'x'; 173];
    let parts = [(0, 0), (0, 1), (57, 1), (58, 1), (0, 2), (173, 0), (174, 0)];
    let places = [7, 65, 122, 0, 0, 0, 0];
    for ((first_row, component), place) in parts.into_iter().zip(places) {
        let mut part = [5; PART_NUMBERS];
        let length = lent::name(&text, first_row, component, &mut part);
        let expected = if place == 0 { 0 } else { 8 };
        assert_eq!((length, part), (expected, [place, expected]));
    }
    for far in [(u64::MAX, 0), (0, u64::MAX), (u64::MAX, u64::MAX)] {
        let mut part = [5; PART_NUMBERS];
        assert_eq!(lent::name(&text, far.0, far.1, &mut part), 0);
        assert_eq!(part, [0, 0]);
    }
    let first_lines: [(&[u8], u64); 6] = [
        (b"[ETF50]\r\n", 2),
        (b"[ETF50]\r\nno list", 2),
        (b"[ETF50]", 0),
        (b"[ETF]\r\n", 0),
        (b"[ETF123456789]\r\n", 0),
        (b"[etf50]\r\n", 0),
    ];
    for (text, length) in first_lines {
        let mut part = [5; PART_NUMBERS];
        assert_eq!(lent::letters(text, &mut part), length);
        assert_eq!(part, if length == 0 { [0, 0] } else { [4, length] });
    }
}

#[test]
fn noise_is_refused_and_left_alone() {
    let mut rng = Rng::new(35);
    let mut noise = |longest| {
        let length = rng.pick(&[0, 1, 5, 14, 22, 300, DAY_NUMBERS, longest]);
        rng.numbers(length)
    };
    for _ in 0..2_000 {
        let (day, book, prices) = (noise(DAY_NUMBERS), noise(4_000), noise(300));
        let runs = PerList::from([60, 80, 80]).map(&mut noise);
        for asked in calls(runs.lengths()) {
            let (mut lent, mut left) = ((book.clone(), prices.clone()), runs.clone());
            let reply = call(&day, &mut lent.0, &mut lent.1, left.lend(), &asked);
            assert_eq!(reply, refused(5));
            assert_eq!((&lent.0, &lent.1, &left), (&book, &prices, &runs));
        }
    }
}

/// What stands in a row behind the arguments of its call makes no difference.
#[test]
fn the_rest_of_a_row_is_ignored() {
    let mut rng = Rng::new(37);
    let lent = opened(&mut rng);
    let calls = [
        Call::Price { line: 0, price: 1 },
        calls(Lengths::default())[1],
        Call::Value,
    ];
    let arguments = [3, 6, 1];
    let (rows, _) = rows_of(&calls);
    let mut other = rows.clone();
    for (row, used) in other.chunks_exact_mut(ROW_NUMBERS).zip(arguments) {
        row[used..].fill_with(|| rng.number());
    }
    for engine in [&Model as &dyn Engine, &Archive] {
        let outcome = |rows: &[u64]| {
            let (mut lent, mut answers) = (lent.clone(), vec![7; answers_length(rows)]);
            let reply = engine.run(rows, &mut lent, &mut answers);
            assert!(reply.is_accepted());
            (lent, answers)
        };
        assert_eq!(outcome(&rows), outcome(&other));
    }
}

/// Units that total just 2 x 10^18 let a creation pass, and the day is then no
/// longer sound: the driver must not take one test for all.
#[test]
fn a_creation_may_break_a_day_at_its_bound() {
    let opening = Opening {
        accounts: 2,
        count: 1,
        fund: Fund {
            first_code: 510_300,
            basket_size: 1,
            switch: 1,
            ..Fund::default()
        },
        table: &[],
        components: &[600_000, 3, 0, 0, 0, 0],
        holdings: &[0, 0, 0, 0, 9, 1_000_000_000_000_000_000],
    };
    let places = Counts {
        records: 3,
        reports: 2,
    };
    let creation = Call::Create(Order::with_places(1, 1, places));
    let sale = calls(Lengths::default())[1];
    let (rows, lengths) = rows_of(&[creation, Call::Value, sale]);
    for engine in [&Model as &dyn Engine, &Archive] {
        let mut lent = Lent {
            day: Day::blank(),
            book: vec![0; book_length(2, 1)],
            prices: vec![0],
            runs: lengths.map(|length| vec![0; length]),
        };
        assert!(engine.open(&opening, &mut lent).is_accepted());
        let units = &mut lent.book[15];
        assert_eq!(*units, 1_000_000_000_000_000_000);
        *units *= 2;
        let expected = [0, 0, 3, 2, 5, 0, 0, 0, 5, 0, 0, 0];
        let (mut other, mut answers) = (lent.clone(), [7; 12]);
        engine.run(&rows, &mut lent, &mut answers);
        assert_eq!(answers, expected);
        engine.run_one_by_one(&rows, &mut other, &mut answers);
        assert_eq!((answers, lent), (expected, other));
    }
}
