//! The declarations of `roffelaine/src/lent.rs`, the widths, the refusals and
//! the numbers of rows, sides, reports and cash are those of the C header
//! `include/roffelaine.h`, of the Rattle crates and of the model.

#[path = "support/longest_list.rs"]
mod longest_list;
#[path = "support/rattle.rs"]
mod rattle;

use longest_list::{longest_list, LONGEST};
use rattle::{block, constant_name, constants, numbered, variants};
use roffelaine::{CashKind, Day, Holdings, Refusal, ReportType, Side, REFUSALS};
use roffelaine_check::flat::{row_of, DAY_NUMBERS, FIELD_NUMBERS, FUND_NUMBERS, PART_NUMBERS};
use roffelaine_check::library_types;
use roffelaine_check::model::list::NAME_BYTES;
use roffelaine_check::model::{
    book_length, holdings_length, range, stretch_width, Call, Component, Counts, FlagTable, Fund,
    Order, PerList, Trade, ANSWER_NUMBERS, BUY, CASH_REPORT, COMPONENT_NUMBERS, FLAGS,
    FLAG_COLUMNS, LOTS, MAX_COMPONENTS, OTHER_KIND, RECORD_NUMBERS, REPORT_NUMBERS, ROW_NUMBERS,
    SELL, SHANGHAI_KIND, STOCK_REPORT, STRETCH_HEAD, TABLE_NUMBERS, UNIT_REPORT,
};
use std::collections::{BTreeMap, BTreeSet};
use std::path::Path;

fn file(path: &str) -> String {
    let path = Path::new(env!("CARGO_MANIFEST_DIR")).join(path);
    std::fs::read_to_string(&path).unwrap_or_else(|error| panic!("{path:?}: {error}"))
}

fn header() -> String {
    file("../../include/roffelaine.h")
}

/// A file of the library.
fn library(name: &str) -> String {
    file(&format!("../roffelaine/src/{name}"))
}

/// The source of a Rattle crate.
fn crate_source(name: &str) -> String {
    file(&format!("../../crates/{name}/src/lib.rt"))
}

/// What stands between the parentheses after each `roffelaine_` function that
/// a line declares, its parameters cut at their commas.
fn functions<'t>(text: &'t str, declares: &str) -> BTreeMap<&'t str, Vec<&'t str>> {
    let mut functions = BTreeMap::new();
    for declaration in text.split(declares).skip(1) {
        let (name, rest) = declaration.split_once('(').expect("parameters");
        let (parameters, _) = rest.split_once(')').expect("an end of the parameters");
        let parameters = parameters.split(',').map(str::trim);
        let parameters = parameters.filter(|parameter| !parameter.is_empty());
        functions.insert(name, parameters.collect());
    }
    functions
}

/// The Rust type of a parameter in C, which ends with its name.
fn type_in_c(parameter: &str) -> &'static str {
    let (kind, _) = parameter
        .rsplit_once([' ', '*'])
        .expect("a type and a name");
    match (kind.trim(), parameter.contains('*')) {
        ("size_t", false) => "usize",
        ("uint64_t", false) => "u64",
        ("uint64_t", true) => "*mut u64",
        ("const uint64_t", true) => "*const u64",
        ("uint8_t", true) => "*mut u8",
        ("const uint8_t", true) => "*const u8",
        other => panic!("no type for {other:?}"),
    }
}

/// The type of a parameter in Rust; a `&mut` crosses as a pointer.
fn type_in_rust(parameter: &str) -> String {
    let (_, kind) = parameter.split_once(':').expect("a name and a type");
    kind.trim().replace("&mut ", "*mut ")
}

#[test]
fn functions_are_declared_as_in_the_header() {
    let (header, module) = (header(), library("lent.rs"));
    let in_c = functions(&header, "\nuint64_t ");
    let in_rust = functions(&module, "pub fn roffelaine_");
    assert_eq!(in_c.len(), 14);
    assert_eq!(in_c.len(), in_rust.len());
    for (name, parameters) in in_c {
        let expected: Vec<&str> = parameters.into_iter().map(type_in_c).collect();
        let declared = &in_rust[name.trim_start_matches("roffelaine_")];
        let declared: Vec<String> = declared.iter().map(|each| type_in_rust(each)).collect();
        assert_eq!(declared, expected, "{name}");
    }
}

/// The widths by the model: the name in the header, the crate that has it too,
/// the library's name, and the width.
const WIDTHS: [(&str, &str, &str, usize); 14] = [
    ("FUND_WIDTH", "layout", "FUND_NUMBERS", FUND_NUMBERS),
    ("TABLE_WIDTH", "flags", "TABLE_NUMBERS", TABLE_NUMBERS),
    ("FLAGS", "flags", "FLAGS", FLAGS),
    ("FLAG_COLUMNS", "flags", "FLAG_COLUMNS", FLAG_COLUMNS),
    ("DAY_WIDTH", "layout", "DAY_NUMBERS", DAY_NUMBERS),
    (
        "FIELDS_WIDTH",
        "list_layout",
        "FIELD_NUMBERS",
        FIELD_NUMBERS,
    ),
    (
        "COMPONENT_WIDTH",
        "layout",
        "COMPONENT_NUMBERS",
        COMPONENT_NUMBERS,
    ),
    ("RECORD_WIDTH", "layout", "RECORD_NUMBERS", RECORD_NUMBERS),
    ("REPORT_WIDTH", "layout", "REPORT_NUMBERS", REPORT_NUMBERS),
    ("ROW_WIDTH", "layout", "ROW_NUMBERS", ROW_NUMBERS),
    ("ANSWER_WIDTH", "layout", "ANSWER_NUMBERS", ANSWER_NUMBERS),
    ("PART_WIDTH", "flat_calls", "PART_NUMBERS", PART_NUMBERS),
    (
        "MOST_COMPONENTS",
        "layout",
        "MOST_COMPONENTS",
        MAX_COMPONENTS,
    ),
    ("NAME_WIDTH", "list_rules", "NAME_BYTES", NAME_BYTES),
];

/// The name of a width in its crate.
fn name_in_crate(name: &str) -> &str {
    match name {
        "FLAG_COLUMNS" => "COLUMNS",
        _ => name,
    }
}

/// The most accounts that a day has; the Rattle crates have it in their
/// definitions alone.
const MOST_ACCOUNTS: usize = *range::ACCOUNTS.end() as usize;

/// The header's macros that are a number or a text: each name, and its word.
fn defined(header: &str) -> BTreeMap<&str, &str> {
    let lines = header.lines();
    let lines = lines.filter_map(|line| line.strip_prefix("#define ROFFELAINE_"));
    let macros = lines.filter_map(|line| {
        let mut words = line.split_whitespace();
        Some((words.next()?, words.next()?))
    });
    let is_value =
        |word: &str| word.starts_with(|first: char| first.is_ascii_digit() || first == '"');
    macros.filter(|(_, word)| is_value(word)).collect()
}

/// What the header may define besides the widths, and the word of each.
fn further() -> BTreeMap<&'static str, String> {
    let version = env!("CARGO_PKG_VERSION");
    BTreeMap::from([
        ("LONGEST_TEXT", LONGEST.to_string()),
        ("VERSION", format!("\"{version}\"")),
        ("VERSION_MAJOR", env!("CARGO_PKG_VERSION_MAJOR").to_string()),
        ("VERSION_MINOR", env!("CARGO_PKG_VERSION_MINOR").to_string()),
        ("VERSION_PATCH", env!("CARGO_PKG_VERSION_PATCH").to_string()),
    ])
}

#[test]
fn widths_are_those_of_the_header() {
    let header = header();
    let mut defined = defined(&header);
    for (name, expected) in further() {
        let found = defined.remove(name);
        assert!(found.is_none_or(|found| found == expected), "{name}");
    }
    let widths = WIDTHS.iter().map(|&(name, _, _, width)| (name, width));
    let widths = widths.chain([("MOST_ACCOUNTS", MOST_ACCOUNTS)]);
    let expected: BTreeMap<&str, String> = widths
        .map(|(name, width)| (name, width.to_string()))
        .collect();
    let found: BTreeMap<&str, String> = defined
        .into_iter()
        .map(|(name, word)| (name, word.to_string()))
        .collect();
    assert_eq!(found, expected);
}

#[test]
fn the_longest_text_is_that_of_the_model() {
    assert_eq!(longest_list().len(), LONGEST);
    assert_eq!(roffelaine::LONGEST_TEXT, LONGEST);
}

#[test]
fn widths_are_those_of_the_library() {
    let below = BTreeMap::from([("MOST_COMPONENTS".to_string(), roffelaine::MOST_COMPONENTS)]);
    let mut found = constants(&library("layout.rs"), &below);
    found.extend(below);
    let widths = WIDTHS.iter().map(|&(_, _, name, width)| (name, width));
    let book = [("STRETCH_HEAD", STRETCH_HEAD), ("LOTS", LOTS)];
    // The place of the limits among a fund's numbers, eight before its end.
    let limits = [("LIMITS_FROM", FUND_NUMBERS - 8)];
    // The places of the flag table and of the components among a day's.
    let table = 2 + FUND_NUMBERS;
    let places = [
        ("TABLE_FROM", table),
        ("COMPONENTS_FROM", table + TABLE_NUMBERS),
    ];
    let expected = widths.chain(book).chain(limits).chain(places);
    let expected: BTreeMap<String, usize> = expected
        .map(|(name, width)| (name.to_string(), width))
        .collect();
    assert_eq!(found, expected);
    assert_eq!(roffelaine::NAME_BYTES, NAME_BYTES);
    assert_eq!(roffelaine::MOST_ACCOUNTS, MOST_ACCOUNTS);
}

/// The constants of a crate, which may use those of `flags`, `layout` and
/// `text_rules`.
fn constants_of(name: &str) -> BTreeMap<String, usize> {
    let read = |name: &str, below: &BTreeMap<String, usize>| constants(&crate_source(name), below);
    let mut below = read("flags", &BTreeMap::new());
    for each in ["flags", "layout", "text_rules"] {
        let own = read(each, &below);
        if each == name {
            return own;
        }
        below.extend(own);
    }
    read(name, &below)
}

#[test]
fn widths_are_those_of_the_crates() {
    for (name, place, _, width) in WIDTHS {
        let found = constants_of(place)[name_in_crate(name)];
        assert_eq!(found, width, "{name} of {place}");
    }
    let widest = stretch_width(MAX_COMPONENTS);
    assert_eq!(constants_of("layout")["MOST_WIDTH"], widest);
}

/// What a macro of the header with parameters says for a day of this size.
fn length_in_c(header: &str, name: &str, accounts: usize, components: usize) -> usize {
    let body = |name: &str| {
        let start = format!("#define ROFFELAINE_{name}(");
        let line = header.lines().find_map(|line| line.strip_prefix(&start));
        let (_, body) = line
            .and_then(|line| line.split_once(") "))
            .expect("a macro");
        body.replace("(size_t)", "")
    };
    let stretch = body("STRETCH_WIDTH");
    let value = body(name).replace("ROFFELAINE_STRETCH_WIDTH(components)", &stretch);
    let sizes = [("accounts", accounts), ("components", components)];
    let sizes = sizes.map(|(name, size)| (name.to_string(), size));
    let line = format!("const LENGTH: usize = {value};");
    constants(&line, &BTreeMap::from(sizes))["LENGTH"]
}

/// A day of the library with so many components and two accounts.
fn day_of_size(components: usize) -> Day {
    let fund = Fund {
        first_code: 510_300,
        basket_size: 1,
        ..Fund::default()
    };
    let components = (0..components as u64).map(|at| Component {
        code: 600_000 + at,
        ..Component::default()
    });
    let components: Vec<_> = components
        .map(|each| library_types::component(&each))
        .collect();
    let empty = Holdings {
        lines: vec![0; components.len() + 1],
        ..Holdings::default()
    };
    let fund = library_types::fund(&fund).expect("a switch");
    Day::open(&fund, &components, &[empty.clone(), empty]).expect("it opens")
}

#[test]
fn lengths_are_those_of_the_header() {
    let header = header();
    for (accounts, count) in [(2, 1), (7, 40), (MOST_ACCOUNTS, MAX_COMPONENTS)] {
        let length = |name| length_in_c(&header, name, accounts, count);
        assert_eq!(length("STRETCH_WIDTH"), stretch_width(count));
        assert_eq!(length("BOOK_LENGTH"), book_length(accounts, count));
        assert_eq!(length("HOLDINGS_LENGTH"), holdings_length(accounts, count));
        let day = day_of_size(count);
        let all = roffelaine::Counts {
            records: usize::MAX,
            reports: usize::MAX,
        };
        let most = day.ample_lists().execution(all);
        assert_eq!(length("MOST_RECORDS"), most.records.len());
        assert_eq!(most.records.len(), 1 + count + 4 + 1);
        assert_eq!(length("MOST_REPORTS"), most.investor.len());
        assert_eq!(most.investor.len(), 1 + count + 1);
        assert_eq!(most.fund.len(), most.investor.len());
        assert_eq!(day.book().numbers().len(), book_length(2, count));
    }
}

/// The names and numbers of lines that have a `start`, a name, `equals` and a
/// number.
fn named_numbers(lines: &[&str], start: &str, equals: &str) -> BTreeMap<String, u64> {
    let lines = lines.iter().map(|line| line.trim());
    let pairs = lines.filter_map(|line| line.strip_prefix(start)?.split_once(equals));
    pairs
        .map(|(name, rest)| {
            let end = rest.find(|each: char| !each.is_ascii_digit());
            let number = &rest[..end.unwrap_or(rest.len())];
            (name.to_string(), number.parse().expect("a number"))
        })
        .collect()
}

/// The library's refusals: the name, the number, and whether there is a place.
fn library_refusals() -> BTreeMap<String, (u64, bool)> {
    let refusals = REFUSALS.iter().map(|meaning| {
        let refusal = Refusal::from_numbers(meaning.number, 7).expect("a refusal");
        assert_eq!(refusal.number(), meaning.number);
        let placed = !meaning.place.is_empty();
        assert_eq!(refusal.place(), if placed { 7 } else { 0 }, "{refusal:?}");
        let variant = format!("{refusal:?}");
        let name = variant.split(' ').next().expect("a name");
        (constant_name(name), (meaning.number, placed))
    });
    refusals.collect()
}

#[test]
fn refusals_are_the_same_everywhere() {
    let rules = file("../../crates/rules/specs/Replies.antt");
    let rules = numbered(&rules, "refusal_reply ", " = reply ");
    let numbers = crate_source("answers");
    let numbers = numbered(&numbers, "Refusal::", " => refused_at(");
    assert_eq!(numbers, rules, "crate numbers");
    let places: BTreeMap<_, _> = rules
        .iter()
        .map(|(name, of)| (name.clone(), of.1))
        .collect();
    assert_eq!(variants(&crate_source("rules")), places, "crate rules");
    assert_eq!(library_refusals(), rules, "library");
    let mut expected: BTreeMap<_, _> = rules
        .iter()
        .map(|(name, of)| (name.clone(), of.0))
        .collect();
    let distinct: BTreeSet<u64> = expected.values().copied().collect();
    assert_eq!(distinct.len(), expected.len());
    let model = file("src/model/refusal.rs");
    let model: Vec<&str> = model.lines().collect();
    let model = named_numbers(&model, "pub const ", ": u64 = ");
    assert_eq!(model, expected, "model");
    let header = header();
    let header = block(&header, "enum roffelaine_refusal {", "};");
    expected.insert("ACCEPTED".to_string(), 0);
    let header = named_numbers(&header, "ROFFELAINE_", " = ");
    assert_eq!(header, expected, "header");
}

#[test]
fn rows_have_the_same_kinds_everywhere() {
    let order = Order::with_places(0, 0, Counts::default());
    let trade = Trade {
        line: 0,
        quantity: 0,
        price: 0,
        seller: 0,
        buyer: 0,
    };
    let calls = [
        ("PRICE", Call::Price { line: 0, price: 0 }),
        ("TRADE", Call::Trade(trade)),
        ("CREATE", Call::Create(order)),
        ("REDEEM", Call::Redeem(order)),
        ("VALUE", Call::Value),
    ];
    let kind = |call: &Call| row_of(call, PerList::default()).expect("a row")[0];
    let expected = calls.map(|(name, call)| (name.to_string(), kind(&call)));
    let expected = BTreeMap::from(expected);
    let batch = library("batch.rs");
    let batch: Vec<&str> = batch.lines().collect();
    assert_eq!(
        named_numbers(&batch, "const ", ": u64 = "),
        expected,
        "library"
    );
    let header = header();
    let header = block(&header, "enum roffelaine_call {", "};");
    let header = named_numbers(&header, "ROFFELAINE_CALL_", " = ");
    assert_eq!(header, expected, "header");
}

/// The variants of an enum of the crate `rules`, each with its number.
fn in_rules(name: &str) -> BTreeMap<String, u64> {
    let rules = crate_source("rules");
    let variants = block(&rules, &format!("pub enum {name} {{"), "}");
    let numbers = named_numbers(&variants, "", " = ");
    let named = numbers.into_iter();
    named
        .map(|(variant, number)| (constant_name(&variant), number))
        .collect()
}

/// The numbers of a block of the header, and those of an enum of the crate
/// `rules`.
fn in_header_and_rules(
    (block_start, prefix): (&str, &str),
    name: &str,
) -> [BTreeMap<String, u64>; 2] {
    let header = header();
    let block = block(&header, block_start, "};");
    [named_numbers(&block, prefix, " = "), in_rules(name)]
}

/// The columns of the flag table, by the names in the util header and in the crate
/// `flags`, and our table in that crate, are those of the library and the model.
#[test]
fn the_flag_table_is_the_same_everywhere() {
    let named = roffelaine::FlagColumn::ALL.map(|column| constant_name(&format!("{column:?}")));
    let expected: BTreeMap<String, u64> = named.into_iter().zip(0..).collect();
    let util = file("../../include/roffelaine_util.h");
    let util = block(&util, "enum roffelaine_flag_column {", "};");
    assert_eq!(named_numbers(&util, "ROFFELAINE_COLUMN_", " = "), expected);
    let flags = crate_source("flags");
    let columns = block(&flags, "pub enum Column {", "}").into_iter();
    let columns = columns.map(|line| constant_name(line.trim_end_matches(',')));
    assert_eq!(columns.zip(0..).collect::<BTreeMap<_, u64>>(), expected);
    let rows = block(&flags, "pub const TABLE: Table = [", "];");
    let rows: Vec<[u64; FLAG_COLUMNS]> = rows.into_iter().map(row_in_rattle).collect();
    assert_eq!(rows, roffelaine::FlagTable::OURS.rows());
    assert_eq!(rows, FlagTable::OURS.0);
}

/// A line of the crate's table: `[1, 0, 0, 0, 1, 1, 1],` or `[0; COLUMNS],`.
fn row_in_rattle(line: &str) -> [u64; FLAG_COLUMNS] {
    let numbers = line.trim_matches(['[', ']', ',']);
    if numbers == "0; COLUMNS" {
        return [0; FLAG_COLUMNS];
    }
    let numbers = numbers.split(", ").map(|number| number.parse());
    let numbers: Result<Vec<u64>, _> = numbers.collect();
    let row = numbers.ok().and_then(|numbers| numbers.try_into().ok());
    row.unwrap_or_else(|| panic!("{line:?} is no row"))
}

#[test]
fn types_of_reports_have_the_same_numbers_everywhere() {
    let model = [UNIT_REPORT, STOCK_REPORT, CASH_REPORT];
    let named = ReportType::ALL.map(|each| (constant_name(&format!("{each:?}")), each.number()));
    assert_eq!(named.clone().map(|(_, number)| number), model);
    let block = ("enum roffelaine_report_type {", "ROFFELAINE_REPORT_");
    let expected = BTreeMap::from(named);
    assert_eq!(
        in_header_and_rules(block, "ReportType"),
        [expected.clone(), expected]
    );
}

#[test]
fn kinds_of_cash_have_the_same_numbers_everywhere() {
    let model = [SHANGHAI_KIND, OTHER_KIND];
    let named = CashKind::ALL.map(|each| (constant_name(&format!("{each:?}")), each.number()));
    assert_eq!(named.clone().map(|(_, number)| number), model);
    let block = ("enum roffelaine_cash_kind {", "ROFFELAINE_CASH_");
    let expected = BTreeMap::from(named);
    assert_eq!(
        in_header_and_rules(block, "CashKind"),
        [expected.clone(), expected]
    );
}

#[test]
fn sides_have_the_same_numbers_everywhere() {
    let sides = [(Side::Buy, BUY), (Side::Sell, SELL)];
    let expected = sides.map(|(side, number)| {
        assert_eq!(side.number(), number);
        (side.letter().to_string(), number)
    });
    let expected = BTreeMap::from(expected);
    let header = header();
    let (_, header) = header.split_once("enum roffelaine_side {").expect("sides");
    let (header, _) = header.split_once('}').expect("an end of the sides");
    let header: Vec<&str> = header.split(',').collect();
    let header = named_numbers(&header, "ROFFELAINE_SIDE_", " = ");
    assert_eq!(header, expected, "header");
    assert_eq!(in_rules("Side"), expected, "crate rules");
}
