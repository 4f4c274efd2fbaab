//! The differential test at a smaller count: the archive and the model agree
//! and every refusal is reached. It finds engines that are wrong.

#[macro_use]
#[path = "differential/rest.rs"]
mod rest;
#[path = "differential/misreporting.rs"]
mod misreporting;
#[path = "differential/misruling.rs"]
mod misruling;
#[path = "differential/mistesting.rs"]
mod mistesting;

use misreporting::Misreporting;
use misruling::Misruling;
use mistesting::Mistesting;
use roffelaine_check::archive::Archive;
use roffelaine_check::compare::Comparison;
use roffelaine_check::differential::Plan;
use roffelaine_check::engine::{Engine, Lent, LentList, Model};
use roffelaine_check::model::list::{self, Writing};
use roffelaine_check::model::{
    range, Call, Component, Day, FlagColumn, FlagTable, Opening, Order, Reply, ANSWER_NUMBERS,
    COMPONENT_NUMBERS, RECORD_NUMBERS,
};
use roffelaine_check::random::{OpeningCase, Rng, Scale, Size};
use std::cell::Cell;
use std::ops::Range;

/// Enough cases to reach every refusal.
const FULL: Plan = Plan {
    seed: 5,
    days: 250,
    texts: 4_000,
};
/// Enough cases to find most faults below.
const SHORT: Plan = Plan {
    seed: 6,
    days: 30,
    texts: 300,
};
/// Enough days, or texts, to find faults that few cases show.
const MANY_DAYS: Plan = Plan {
    seed: 7,
    days: 1_500,
    texts: 0,
};
const MANY_TEXTS: Plan = Plan {
    seed: 8,
    days: 0,
    texts: 30_000,
};

/// Enough of both to find faults in tables.
const RULED: Plan = Plan {
    seed: 10,
    days: 300,
    texts: 5_000,
};

/// What each kind of call must have been answered.
const REACHED: &[(&str, &[u64])] = &[
    ("opening", &[0, 1, 2, 3, 4, 21]),
    ("price", &[0, 5, 6, 7]),
    ("trade", &[0, 5, 6, 7, 8, 9, 10]),
    ("creation", &[0, 5, 8, 9, 10, 11, 12, 13, 14, 15, 16]),
    ("creation test", &[0, 5, 8, 9, 10, 11, 12, 13, 14, 15, 16]),
    ("redemption", &[0, 5, 8, 9, 11, 12, 13, 16, 17]),
    ("redemption test", &[0, 5, 8, 9, 11, 12, 13, 16, 17]),
    (
        "tests before creation",
        &[0, 5, 8, 9, 10, 11, 12, 13, 14, 15, 16],
    ),
    ("tests before redemption", &[0, 5, 8, 9, 11, 12, 13, 16, 17]),
    ("lists just enough", &[0]),
    ("records a number short", &[16]),
    ("investor's a number short", &[16]),
    ("fund's a number short", &[16]),
    ("value", &[0, 5, 14]),
    ("test of day", &[0, 5]),
    ("rows", &[0, 1]),
    ("row: price", &[0, 5, 6, 7]),
    ("row: trade", &[0, 5, 6, 7, 8, 9, 10]),
    ("row: creation", &[0, 5, 8, 9, 10, 11, 12, 13, 14, 15, 16]),
    ("row: redemption", &[0, 5, 8, 9, 11, 12, 13, 16, 17]),
    ("row: value", &[0, 5, 14]),
    ("row: no call", &[1]),
    ("reading", &[0, 2, 3, 16, 18, 19, 20, 21]),
    ("writing", &[0, 1, 2, 3, 16, 21]),
];

#[test]
fn archive_and_model_agree_and_reach_every_refusal() {
    let mut comparison = Comparison::new(&Model, &Archive);
    if let Err(difference) = FULL.run(&mut comparison) {
        panic!("{FULL:?}, model and archive:\n{}", difference.0);
    }
    for &(kind, numbers) in REACHED {
        for &number in numbers {
            assert!(
                comparison.tally.count(kind, number) > 0,
                "{kind} never gives {number}"
            );
        }
    }
}

/// A way to be wrong.
#[derive(Clone, Copy, Debug, PartialEq, Eq)]
enum Fault {
    None,
    AnswersShort,
    RefusesAll,
    MovesNothing,
    MovesTheFirstOrderOnly,
    ConstantValue,
    CountOff,
    WritesPastTheLast,
    OpensWithOldPrices,
    ListForgetsAnAnswer,
    ListLeavesTheRecords,
    OneByOneMovesNothing,
    PlaceOff,
    FirstRowOff,
    RefusedReadingClears,
    TouchesUnusedComponents,
    NameOff,
    NamePastTheLast,
    NameInAShortPart,
    LettersOfRefusedText,
    LettersTouchPastThePart,
    TouchesUnusedOutput,
    CreationTakesTheDiscount,
    RedemptionTakesThePremium,
    OpensWithAnyDiscount,
    ReadsTheRatesSwapped,
    WritesTheRatesSwapped,
    SoundWithAnyDiscount,
    ReadsLinesWithoutDiscount,
    ReadsUnusedDiscounts,
    ReadsDiscountsAboveOne,
}

/// The model with one fault.
struct Faulty {
    fault: Fault,
    orders: Cell<u64>,
}

impl Faulty {
    fn new(fault: Fault) -> Self {
        Faulty {
            fault,
            orders: Cell::new(0),
        }
    }

    fn spoil_call(&self, call: &Call, before: Lent, lent: &mut Lent, reply: &mut Reply) {
        let order = matches!(call, Call::Create(_) | Call::Redeem(_));
        if !reply.is_accepted() {
            return;
        }
        self.orders.set(self.orders.get() + u64::from(order));
        match self.fault {
            Fault::AnswersShort if order => {
                *lent = before;
                *reply = Reply::refused(9, 0);
            }
            Fault::RefusesAll => {
                *lent = before;
                *reply = Reply::refused(5, 0);
            }
            Fault::MovesNothing => lent.book = before.book,
            Fault::MovesTheFirstOrderOnly if order && self.orders.get() > 1 => {
                lent.book = before.book
            }
            Fault::ConstantValue if *call == Call::Value => reply.value = 4_257,
            Fault::CountOff if order => reply.value += 1,
            Fault::WritesPastTheLast if order => {
                let end = RECORD_NUMBERS * reply.value as usize;
                if let Some(past) = lent.runs.front(call.lengths()).records.get_mut(end) {
                    *past = 0;
                }
            }
            _ => {}
        }
    }
}

/// Swaps premium and discount of each component of a run.
fn swap_rates(run: &mut [u64]) {
    for numbers in run.chunks_exact_mut(COMPONENT_NUMBERS) {
        numbers.swap(3, 4);
    }
}

/// Brings a discount down to where it passes every test under a table.
fn pass_discount(component: &mut Component, table: &FlagTable) {
    let uses_rates = table.says(component.flag, FlagColumn::RateUsed);
    let most = if uses_rates { range::RATE_MAX } else { 0 };
    component.discount = component.discount.min(most);
}

/// The same in each component of a run, under the table of another.
fn pass_discounts(run: &mut [u64], table: &[u64]) {
    let table = FlagTable::given(table).unwrap_or(FlagTable::OURS);
    for numbers in run.chunks_exact_mut(COMPONENT_NUMBERS) {
        let mut component = Component::from_numbers(numbers);
        pass_discount(&mut component, &table);
        numbers.copy_from_slice(&component.numbers());
    }
}

/// The text with each line that ends in CR LF changed.
fn with_lines(text: &[u8], change: impl Fn(&mut Vec<u8>)) -> Vec<u8> {
    let lines = text.split_inclusive(|&byte| byte == b'\n');
    let lines = lines.map(|line| match line.strip_suffix(b"\r\n") {
        Some(bytes) => {
            let mut bytes = bytes.to_vec();
            change(&mut bytes);
            [&bytes[..], b"\r\n"].concat()
        }
        None => line.to_vec(),
    });
    lines.collect::<Vec<_>>().concat()
}

/// The flag and the discount of a component line.
const FLAG: usize = 25;
const DISCOUNT: Range<usize> = 35..42;

/// A blank discount in a line of 48 bytes.
fn put_discount(line: &mut Vec<u8>) {
    if line.len() == 48 {
        line.splice(DISCOUNT.start..DISCOUNT.start, *b"       |");
    }
}

/// A blank in place of a discount that the flag does not use.
fn blank_unused_discount(line: &mut [u8], table: &FlagTable) {
    let uses_rates = |flag: u8| table.says(flag.wrapping_sub(b'0').into(), FlagColumn::RateUsed);
    if line.len() == 56 && !uses_rates(line[FLAG]) {
        line[DISCOUNT].fill(b' ');
    }
}

/// A discount of 1 in place of one above it.
fn lower_discount(line: &mut [u8]) {
    if line.len() == 56 && matches!(line[DISCOUNT], [b'1'..=b'9', b'.', ..]) {
        line[DISCOUNT].copy_from_slice(b"1.00000");
    }
}

impl Engine for Faulty {
    fn open(&self, opening: &Opening<'_>, lent: &mut Lent) -> Reply {
        let before = lent.prices.clone();
        let mut components = opening.components.to_vec();
        if self.fault == Fault::OpensWithAnyDiscount {
            pass_discounts(&mut components, opening.table);
        }
        let opening = &Opening {
            components: &components,
            ..*opening
        };
        let reply = Model.open(opening, lent);
        if self.fault == Fault::OpensWithOldPrices {
            lent.prices = before;
        }
        reply
    }

    fn call(&self, call: &Call, lent: &mut Lent) -> Reply {
        let before = lent.clone();
        let spoil: fn(&mut Component, &FlagTable) = match (self.fault, call) {
            (Fault::CreationTakesTheDiscount, Call::Create(_)) => {
                |each, _| each.premium = each.discount
            }
            (Fault::SoundWithAnyDiscount, _) => pass_discount,
            (Fault::RedemptionTakesThePremium, Call::Redeem(_)) => {
                |each, _| each.discount = each.premium
            }
            _ => |_, _| {},
        };
        let Day {
            table, components, ..
        } = &mut lent.day;
        let components = components.iter_mut();
        components.for_each(|component| spoil(component, table));
        let mut reply = Model.call(call, lent);
        lent.day = before.day.clone();
        self.spoil_call(call, before, lent, &mut reply);
        reply
    }

    fn run(&self, rows: &[u64], lent: &mut Lent, answers: &mut [u64]) -> Reply {
        let before = lent.clone();
        let last = answers.last_chunk::<ANSWER_NUMBERS>().copied();
        let reply = Model.run(rows, lent, answers);
        match self.fault {
            Fault::ListForgetsAnAnswer => {
                if let (Some(answer), Some(last)) = (answers.last_chunk_mut(), last) {
                    *answer = last;
                }
            }
            Fault::ListLeavesTheRecords => lent.runs.records = before.runs.records,
            _ => {}
        }
        reply
    }

    fn run_one_by_one(&self, rows: &[u64], lent: &mut Lent, answers: &mut [u64]) -> Reply {
        let before = lent.clone();
        let reply = Model.run_one_by_one(rows, lent, answers);
        if self.fault == Fault::OneByOneMovesNothing {
            *lent = before;
        }
        reply
    }

    fn read(&self, text: &[u8], table: &[u64], lent: &mut LentList) -> Reply {
        let rules = FlagTable::given(table).unwrap_or(FlagTable::OURS);
        let changed = with_lines(text, |line| match self.fault {
            Fault::ReadsLinesWithoutDiscount => put_discount(line),
            Fault::ReadsUnusedDiscounts => blank_unused_discount(line, &rules),
            Fault::ReadsDiscountsAboveOne => lower_discount(line),
            _ => {}
        });
        let mut reply = Model.read(&changed, table, lent);
        match self.fault {
            Fault::PlaceOff if reply.number == 19 => reply.place += 1,
            Fault::TouchesUnusedComponents if reply.is_accepted() => {
                let end = COMPONENT_NUMBERS * reply.value as usize;
                if let Some(past) = lent.components.get_mut(end) {
                    *past = 0;
                }
            }
            Fault::ReadsTheRatesSwapped if reply.is_accepted() => {
                let end = COMPONENT_NUMBERS * reply.value as usize;
                swap_rates(&mut lent.components[..end]);
            }
            Fault::FirstRowOff if reply.is_accepted() => lent.first_row += 1,
            Fault::RefusedReadingClears if !reply.is_accepted() => lent.fields = [0; 22],
            _ => {}
        }
        reply
    }

    fn name(&self, text: &[u8], first_row: u64, component: u64, part: &mut [u64]) -> u64 {
        let length = Model.name(text, first_row, component, part);
        match self.fault {
            Fault::NameOff if length > 0 && part.len() >= 2 => part[0] += 1,
            Fault::NamePastTheLast if length == 0 => return 8,
            Fault::NameInAShortPart if part.len() == 1 => part[0] = 0,
            _ => {}
        }
        length
    }

    fn letters(&self, text: &[u8], part: &mut [u64]) -> u64 {
        let length = Model.letters(text, part);
        match self.fault {
            Fault::LettersOfRefusedText if list::name(text, 0).is_empty() => return 0,
            Fault::LettersTouchPastThePart if part.len() > 2 => part[2] = 0,
            _ => {}
        }
        length
    }

    fn write(&self, list: &Writing<'_>, output: &mut [u8]) -> Reply {
        let mut components = list.components.to_vec();
        if self.fault == Fault::WritesTheRatesSwapped {
            swap_rates(&mut components);
        }
        let list = &Writing {
            components: &components,
            ..*list
        };
        let reply = Model.write(list, output);
        if self.fault == Fault::TouchesUnusedOutput {
            if let Some(past) = output.get_mut(reply.value as usize) {
                *past = past.wrapping_add(1);
            }
        }
        reply
    }
}

/// Whether the test tells an engine from the model.
fn differs(engine: &dyn Engine, plan: Plan) -> bool {
    plan.run(&mut Comparison::new(&Model, engine)).is_err()
}

fn is_found(fault: Fault, plan: Plan) -> bool {
    differs(&Faulty::new(fault), plan)
}

#[test]
fn faulty_engines_are_found() {
    assert!(!is_found(Fault::None, SHORT));
    let faults = [
        Fault::AnswersShort,
        Fault::RefusesAll,
        Fault::MovesNothing,
        Fault::MovesTheFirstOrderOnly,
        Fault::ConstantValue,
        Fault::CountOff,
        Fault::WritesPastTheLast,
        Fault::OpensWithOldPrices,
        Fault::ListForgetsAnAnswer,
        Fault::ListLeavesTheRecords,
        Fault::OneByOneMovesNothing,
        Fault::PlaceOff,
        Fault::FirstRowOff,
        Fault::RefusedReadingClears,
        Fault::TouchesUnusedComponents,
        Fault::NameOff,
        Fault::NamePastTheLast,
        Fault::NameInAShortPart,
        Fault::LettersOfRefusedText,
        Fault::LettersTouchPastThePart,
        Fault::TouchesUnusedOutput,
        Fault::CreationTakesTheDiscount,
        Fault::RedemptionTakesThePremium,
        Fault::ReadsTheRatesSwapped,
        Fault::WritesTheRatesSwapped,
    ];
    for fault in faults {
        assert!(is_found(fault, SHORT), "{fault:?} is not found");
    }
}

/// The lists of orders: reports that are wrong, and lists of another length
/// than the engine takes them for, each one number short.
#[test]
fn engines_that_report_wrongly_are_found() {
    let without_texts = Plan { texts: 0, ..SHORT };
    assert!(!differs(
        &Misreporting(misreporting::Fault::None),
        without_texts
    ));
    for fault in misreporting::Fault::ALL {
        let is_found = differs(&Misreporting(fault), without_texts);
        assert!(is_found, "{fault:?} is not found");
    }
}

/// Tests alone that answer another thing than their order, or write: found even
/// where both engines have the same fault.
#[test]
fn engines_that_test_wrongly_are_found() {
    let without_texts = Plan { texts: 0, ..SHORT };
    let agrees = |fault| {
        let engine = Mistesting(fault);
        without_texts.run(&mut Comparison::new(&engine, &engine))
    };
    assert!(agrees(mistesting::Fault::None).is_ok());
    for fault in mistesting::Fault::ALL {
        assert!(agrees(fault).is_err(), "{fault:?} is not found");
    }
}

/// The flag table: rules that are not kept, refusals in another order, and columns
/// read elsewhere.
#[test]
fn engines_that_rule_wrongly_are_found() {
    assert!(!differs(&Misruling(misruling::Fault::None), RULED));
    for fault in misruling::Fault::ALL {
        let is_found = differs(&Misruling(fault), RULED);
        assert!(is_found, "{fault:?} is not found");
    }
}

/// Tests that write are found where they are made, before their order.
#[test]
fn tests_that_write_are_found_at_once() {
    let mut rng = Rng::new(9);
    let case = OpeningCase::sound(&mut rng, Size::Small, Scale::Usual);
    let mut lent = case.lent(&mut rng);
    assert!(Model.open(&case.opening(), &mut lent).is_accepted());
    let order = Call::Create(Order {
        account: 1,
        units: case.fund.basket_size,
        lengths: lent.runs.lengths(),
    });
    let is_found = |fault| {
        let engine = Mistesting(fault);
        let mut comparison = Comparison::new(&engine, &engine);
        comparison.call(&order, &mut lent.clone()).is_err()
    };
    assert!(!is_found(mistesting::Fault::None));
    for fault in [
        mistesting::Fault::WritesTheBook,
        mistesting::Fault::WritesThePrices,
    ] {
        assert!(is_found(fault), "{fault:?} is not found");
    }
}

#[test]
fn engines_that_let_a_discount_pass_are_found() {
    let faults = [
        (Fault::OpensWithAnyDiscount, MANY_DAYS),
        (Fault::SoundWithAnyDiscount, MANY_DAYS),
        (Fault::ReadsLinesWithoutDiscount, MANY_TEXTS),
        (Fault::ReadsUnusedDiscounts, MANY_TEXTS),
        (Fault::ReadsDiscountsAboveOne, MANY_TEXTS),
    ];
    for (fault, plan) in faults {
        assert!(is_found(fault, plan), "{fault:?} is not found");
    }
}
