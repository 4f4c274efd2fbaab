//! Damaged lists, each with the words for its fault.

#[path = "support/paper_list.rs"]
mod paper_list;

use paper_list::LIST;
use roffelaine::{lines_in_lf, list_end, with_crlf, FlagTable, List, ListFault, Refusal};

/// The fault of a text that is refused with a number.
fn fault(text: &[u8], number: u64) -> String {
    let refusal = List::read(text).expect_err("a damaged list");
    assert_eq!(refusal.number(), number, "{}", text.escape_ascii());
    let fault = ListFault::of(text, refusal).expect("reading gave it");
    fault.to_string()
}

/// Bytes in which \r, \n, \t and \xNN stand for one byte each.
fn unescaped(text: &str) -> Vec<u8> {
    let mut parts = text.split('\\');
    let mut out = parts.next().unwrap_or_default().as_bytes().to_vec();
    for part in parts {
        let length = if part.starts_with('x') { 3 } else { 1 };
        out.push(match &part[..length] {
            "r" => b'\r',
            "n" => b'\n',
            "t" => b'\t',
            code => u8::from_str_radix(&code[1..], 16).expect("two digits"),
        });
        out.extend_from_slice(&part.as_bytes()[length..]);
    }
    out
}

/// The list with other bytes in place of some.
fn replaced(from: &[u8], to: &[u8]) -> Vec<u8> {
    let list = LIST.as_bytes();
    let start = list.windows(from.len()).position(|part| part == from);
    let start = start.expect("a part of the list");
    [&list[..start], to, &list[start + from.len()..]].concat()
}

#[test]
fn every_row_of_the_table() {
    let table = include_str!("list_faults.txt").lines();
    let mut rows = table.filter(|line| !line.is_empty() && !line.starts_with('#'));
    let mut count = 0;
    while let Some(damage) = rows.next() {
        let (from, to) = damage.split_once(" =>").expect("a damage");
        let to = to.strip_prefix(' ').unwrap_or_default();
        let (number, words) = rows
            .next()
            .and_then(|line| line.split_once(' '))
            .expect("a fault");
        let text = replaced(&unescaped(from), &unescaped(to));
        assert_eq!(
            fault(&text, number.parse().expect("a number")),
            words,
            "{damage}"
        );
        count += 1;
    }
    assert!(count > 100, "{count} rows");
}

/// Ours with rates for flag 0, without flag 4, whose row has yes for rates and amount
/// all the same, and with flag 7: an amount with rates.
fn a_table() -> FlagTable {
    let mut table = FlagTable::OURS;
    table.set_row(0, [1, 0, 1, 0, 1, 1, 1]);
    table.set_row(4, [0, 0, 1, 1, 0, 0, 0]);
    table.set_row(7, [0, 0, 1, 1, 0, 0, 1]);
    table
}

/// The list as the table has it: flag 7 for 000002 and rates for 600036.
fn list_by_the_table() -> String {
    let list = LIST.replace("1000|4|       |       |", "1000|7|0.10000|0.20000|");
    list.replace("3000|0|       |       |", "3000|0|0.00000|1.00000|")
}

/// What stands in the list, what is put in its place, the refusal and its words.
const UNDER_A_TABLE: [(&str, &str, u64, &str); 7] = [
    (
        "7|0.10000|0.20000|",
        "4|       |       |",
        19,
        "24:44 amount \"    8000.000\": flag 4 uses no amount: blank; \
         flags in use: 0 to 3, 7",
    ),
    (
        "7|0.10000|0.20000|    8000.000|",
        "4|0.10000|       |            |",
        19,
        "24:28 premium \"0.10000\": flag 4 uses no premium: blank; \
         flags in use: 0 to 3, 7",
    ),
    (
        "7|0.10000|0.20000|    8000.000|",
        "4|       |       |            |",
        3,
        "24:26 flag \"4\": flags in use: 0 to 3, 7",
    ),
    (
        "7|0.10000|",
        "x|0.10000|",
        19,
        "24:26 flag \"x\": a digit; flags in use: 0 to 3, 7",
    ),
    (
        "0|0.00000|1.00000|",
        "0|0.00000|       |",
        19,
        "26:36 discount \"       \": flag 0 uses a discount: \
         five decimals right in blanks, as \"0.12345\"",
    ),
    (
        "0|0.00000|1.00000|            |",
        "0|0.00000|1.00000|       1.000|",
        19,
        "26:44 amount \"       1.000\": flag 0 uses no amount: blank",
    ),
    (
        "0|0.00000|1.00000|",
        "0|0.00000|1.00001|",
        3,
        "26:36 discount \"1.00001\": at most 1.00000",
    ),
];

/// Blanks and flags are judged by the table that the list was read under.
#[test]
fn faults_under_a_table() {
    let (table, list) = (a_table(), list_by_the_table());
    assert!(List::read_with_table(list.as_bytes(), &table).is_ok());
    for (from, to, number, words) in UNDER_A_TABLE {
        let text = list.replacen(from, to, 1);
        assert_ne!(text, list, "{from}");
        let refusal = List::read_with_table(text.as_bytes(), &table).expect_err("a fault");
        assert_eq!(refusal.number(), number, "{to}");
        let fault = ListFault::of_with_table(text.as_bytes(), refusal, &table);
        assert_eq!(fault.expect("its words").to_string(), words);
    }
}

/// A table that breaks its rules is no fault of the text.
#[test]
fn a_broken_table_has_no_words_of_a_text() {
    let mut table = a_table();
    table.set_row(9, [0, 0, 0, 0, 0, 0, 1]);
    let text = LIST.as_bytes();
    let refusal = List::read_with_table(text, &table).expect_err("a broken table");
    assert_eq!(refusal, Refusal::FlagTable { place: 9 });
    assert_eq!(ListFault::of_with_table(text, refusal, &table), None);
    assert_eq!(
        refusal.to_string(),
        "refused 21 9: the flag table breaks its rules"
    );
}

#[test]
fn the_list_itself_is_read() {
    assert!(List::read(LIST.as_bytes()).is_ok());
}

#[test]
fn lists_saved_with_lf() {
    let text = LIST.replace("\r\n", "\n");
    let expected = "1:9 line end \"LF\": lines end in CRLF; \
                    28 lines end in LF alone, --crlf mends them";
    assert_eq!(fault(text.as_bytes(), 18), expected);
    assert_eq!(*with_crlf(text.as_bytes()), *LIST.as_bytes());
}

/// The lines from each on end in LF: the first of them is named.
#[test]
fn lists_that_go_on_with_lf() {
    let lines: Vec<&str> = LIST.split_inclusive("\r\n").collect();
    for (at, line) in lines.iter().enumerate() {
        let text = lines[..at].concat() + &lines[at..].concat().replace("\r\n", "\n");
        let found = fault(text.as_bytes(), 18);
        let column = line.len() - 1;
        let start = format!("{}:{column} line end \"LF\": lines end in CRLF; ", at + 1);
        assert!(found.starts_with(&start), "{found}");
        assert_eq!(lines_in_lf(text.as_bytes()), lines.len() - at);
    }
}

/// A name with a CR does not hide that its line ends in LF.
#[test]
fn a_cr_in_a_name_and_an_lf() {
    let text = LIST
        .replace("|PAYH    |", "|PA\rH    |")
        .replace("96000.000|\r", "96000.000|");
    let expected = "23:57 line end \"LF\": lines end in CRLF; \
                    1 line ends in LF alone, --crlf mends it";
    assert_eq!(fault(text.as_bytes(), 18), expected);
}

#[test]
fn lists_saved_with_cr() {
    let text = LIST.replace("\r\n", "\r");
    let expected = "1:9 line end \"CR\": lines end in CRLF";
    assert_eq!(fault(text.as_bytes(), 18), expected);
}

/// Where a text ends behind a line, the line that should follow is named.
#[test]
fn texts_that_end_early() {
    let lines: Vec<&str> = LIST.split_inclusive("\r\n").collect();
    for (at, line) in lines.iter().enumerate() {
        let (field, words) = match (at, line.split_once('=')) {
            (0, _) => ("first line", "the line [ETF..]".to_owned()),
            (21, _) => ("TAGTAG", "the line TAGTAG".to_owned()),
            (_, Some((name, _))) => (name, format!("the line {name}=..")),
            _ => ("component line", "a component line or ENDENDEND".to_owned()),
        };
        let text = lines[..at].concat();
        let line = at + 1;
        let expected = format!("{line}:1 {field} \"\": the file ends here; {words} is expected");
        assert_eq!(fault(text.as_bytes(), 18), expected);
    }
}

#[test]
fn lists_with_other_lines_behind() {
    for end in ["\r\n", "\n"] {
        let list = LIST.replace("\r\n", end);
        let text = list.clone() + "account 1\nprice 600036 40\n";
        assert_eq!(list_end(text.as_bytes()), list.len());
    }
    let without_end = LIST.replace("ENDENDEND\r\n", "price 600036 40\n");
    assert_eq!(list_end(without_end.as_bytes()), without_end.len());
}

/// A list with so many components, and this as Recordnum.
fn list_of(count: usize, said: usize) -> String {
    let start = LIST.find("000001|").expect("the first component line");
    let head = LIST[..start].replace("Recordnum=5", &format!("Recordnum={said}"));
    let row = |code| format!("{code:06}|A       |       1|0|       |       |            |\r\n");
    let rows: String = (1..=count).map(row).collect();
    head + &rows + "ENDENDEND\r\n"
}

#[test]
fn counts_of_components() {
    let words = |count, said| fault(list_of(count, said).as_bytes(), 20);
    assert!(List::read(list_of(300, 300).as_bytes()).is_ok());
    let rows = [
        (301, 301, "1 to 300; 301 component lines follow"),
        (301, 5, "301 component lines follow; a list has at most 300"),
        (1, 2, "1 component line follows"),
        (0, 1, "no component line follows"),
        (0, 0, "1 to 300; no component line follows"),
    ];
    for (count, said, expected) in rows {
        let expected = format!("7:11 Recordnum \"{said}\": {expected}");
        assert_eq!(words(count, said), expected);
    }
}

/// A field, the value it has, its lowest and highest value, and values just past
/// them.
type Bounds = (
    &'static str,
    &'static str,
    &'static [&'static str],
    &'static [&'static str],
);

#[rustfmt::skip]
const BOUNDS: [Bounds; 9] = [
    ("Fundid1", "510301", &["000001", "999995"], &["000000", "999996"]),
    ("CreationRedemptionUnit", "1000000", &["1", "99999999"], &["0", "100000000"]),
    ("MaxCashRatio", "0.05000", &["0.00000", "1.00000"], &["1.00001"]),
    ("CreationRedemption", "1", &["0", "3"], &["4"]),
    ("EstimateCashComponent", "-331.22", &["-9999999.99", "99999999.99"], &["-10000000.00", "100000000.00"]),
    ("CashComponent", "-120.50", &["-9999999.99", "99999999.99"], &["-10000000.00", "100000000.00"]),
    ("NAVperCU", "425700.00", &["0.00", "999999999.99"], &["1000000000.00"]),
    ("NAV", "0.4257", &["0.0000", "999.9999"], &["1000.0000"]),
    ("NetCreationLimit", "0", &["1000000", "999999000000"], &["999999999999", "1000000000000", "1", "999999"]),
];

#[test]
fn ranges_are_those_of_the_archive() {
    let codes_moved = LIST
        .replace("000001|", "000007|")
        .replace("000002|", "000008|");
    for (name, value, within, past) in BOUNDS {
        let line = |value| format!("\n{name}={value}\r");
        let text = |other| {
            codes_moved
                .replacen(&line(value), &line(other), 1)
                .into_bytes()
        };
        for other in within {
            assert!(List::read(&text(other)).is_ok(), "{name} {other}");
        }
        for other in past {
            let found = fault(&text(other), 2);
            assert!(found.contains(&format!(" {name} \"{other}\": ")), "{found}");
        }
    }
}

#[test]
fn other_refusals_are_no_faults_of_a_text() {
    let text = LIST.as_bytes();
    for number in 1..=21 {
        for place in [0, 3, 10, text.len() as u64, u64::MAX] {
            let refusal = Refusal::from_numbers(number, place).expect("a refusal");
            let fault = ListFault::of(text, refusal);
            assert_eq!(fault, None, "{refusal}");
        }
    }
}
