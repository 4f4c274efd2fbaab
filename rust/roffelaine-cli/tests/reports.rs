//! Execution reports in a rehearsal, in each of its forms. What is expected is
//! written by hand from the paper's cases (e) and (f).

mod support;

#[path = "page/markup.rs"]
#[allow(dead_code)]
mod markup;

use markup::{assert_well_made, rows, text};
use roffelaine::Money;
use support::{rehearse, BOTH_ORDERS, LIST, LIST_LINES};

/// The line of an order behind a line `reports on`.
const ORDER: usize = LIST_LINES + 15;

const CREATION: &str = "\
510300 B 1000000 0.000 0.000
600000 S 3072 0.000 0.000
600036 S 3000 0.000 0.000
510305 B 1000000 0.113 113000.000
510305 B 1 600.000 600.000
510302 B 1000000 0.173 173000.000
510302 B 1 408.000 408.000
510301 B 1000000 0.000 0.000
";
const REPORTS_OF_CREATION: &str = "\
investor 1 1 510300 1000000
investor 2 2 600000 3072
investor 2 2 600036 3000
investor 3 1 000000 0 1 173408.000 2 113600.000
fund 1 2 510300 1000000
fund 2 1 600000 3072
fund 2 1 600036 3000
fund 3 2 000000 0 1 173408.000 2 113600.000
";
const REPORTS_OF_REDEMPTION: &str = "\
investor 1 2 510300 1000000
investor 2 1 600000 5200
investor 2 1 600036 3000
investor 3 2 000000 0 1 150000.000 2 94400.000
fund 1 1 510300 1000000
fund 2 2 600000 5200
fund 2 2 600036 3000
fund 3 1 000000 0 1 150000.000 2 94400.000
";

/// What lines behind the opening print, without the counts.
fn printed(lines: &str) -> String {
    let ran = rehearse(LIST, &format!("{BOTH_ORDERS}{lines}"), &[]);
    let opened = ran.out.split_once("41 price ok\n").expect("the prices").1;
    let (answers, _) = opened.trim_end().rsplit_once('\n').unwrap_or_default();
    format!("{answers}\n")
}

#[test]
fn an_order_says_its_reports_behind_its_records() {
    let said = printed("reports on\ncreate 1 1000000\nredeem 2 1000000\n");
    let start = format!("{ORDER} create ok 8\n{CREATION}{REPORTS_OF_CREATION}44 redeem ok 8\n");
    assert!(said.starts_with(&start), "{said}");
    assert!(said.ends_with(REPORTS_OF_REDEMPTION), "{said}");
}

#[test]
fn reports_are_off_at_the_start_and_where_they_are_turned_off() {
    let off = format!("42 create ok 8\n{CREATION}");
    assert_eq!(printed("create 1 1000000\n"), off);
    let on_and_off = printed("reports on\nreports off\ncreate 1 1000000\n");
    assert_eq!(on_and_off, off.replace("42 create", "44 create"));
    let on_late = printed("create 1 1000000\nreports on\nredeem 2 1000000\n");
    assert!(on_late.starts_with(&format!("{off}44 redeem ok 8\n")));
    assert!(on_late.ends_with(REPORTS_OF_REDEMPTION));
    assert!(!on_late.contains(REPORTS_OF_CREATION));
}

/// A second opening starts another day; what is printed is said once.
#[test]
fn reports_stay_on_over_an_opening() {
    let lines = format!("reports on\n{BOTH_ORDERS}create 1 1000000\n");
    let ran = rehearse(LIST, &lines, &[]);
    assert!(ran.out.contains(REPORTS_OF_CREATION), "{}", ran.out);
    let twice = format!("{lines}{BOTH_ORDERS}create 1 1000000\n");
    let ran = rehearse(LIST, &twice, &[]);
    assert_eq!(ran.out.matches(REPORTS_OF_CREATION).count(), 2);
}

#[test]
fn a_refused_order_has_no_reports() {
    let said = printed("reports on\ncreate 1 1000000 7\n");
    assert_eq!(
        said,
        format!("{ORDER} create refused 16 0: room for 7 records, 8 needed\n")
    );
}

#[test]
fn any_other_word_is_not_understood() {
    let faults = [
        ("reports", "column 8: on or off is missing"),
        (
            "reports yes",
            "column 9: \"yes\": on or off is expected here",
        ),
        ("reports On", "column 9: \"On\": on or off is expected here"),
        ("reports on 1", "column 12: \"1\" is one word too many"),
        (
            "report on",
            "column 1: \"report\" is no word that a line of a day starts with",
        ),
    ];
    for (line, why) in faults {
        let said = printed(&format!("{line}\ncreate 1 1000000\n"));
        let expected = format!("42 not understood: {why}\n43 create ok 8\n{CREATION}");
        assert_eq!(said, expected);
    }
}

/// Cash of one kind alone, and none at all.
#[test]
fn a_kind_without_cash_is_left_out() {
    let without = |list: String| {
        let ran = rehearse(
            &list,
            &format!("{BOTH_ORDERS}reports on\nredeem 2 1000000\n"),
            &[],
        );
        let lines = ran.out.lines().filter(|line| line.starts_with("investor "));
        lines.map(str::to_string).collect::<Vec<_>>()
    };
    let no_shanghai = LIST.replace("|  150000.000|", "|       0.000|");
    let no_other = LIST.replace("|   96000.000|", "|       0.000|");
    let no_other = no_other.replace("|    8000.000|", "|       0.000|");
    let neither = no_other.replace("|  150000.000|", "|       0.000|");
    assert_eq!(without(no_shanghai)[3], "investor 3 2 000000 0 2 94400.000");
    assert_eq!(without(no_other)[3], "investor 3 2 000000 0 1 150000.000");
    assert_eq!(without(neither).len(), 3);
}

/// The numbers of a report's line: type, side, code, quantity, and kinds with
/// amounts in thousandths of a yuan.
fn read_back(line: &str) -> (Vec<u64>, Vec<(u64, Money)>) {
    let words: Vec<&str> = line.split(' ').skip(1).collect();
    let (numbers, groups) = words.split_at(4);
    assert_eq!(numbers[2].len(), 6);
    let numbers = numbers.iter().map(|word| word.parse().expect("a number"));
    let groups = groups.chunks_exact(2).map(|group| {
        let amount = group[1].parse().expect("an amount");
        (group[0].parse().expect("a kind"), amount)
    });
    (numbers.collect(), groups.collect())
}

#[test]
fn a_line_can_be_read_back() {
    let lines: Vec<&str> = REPORTS_OF_CREATION.lines().collect();
    let (numbers, groups) = read_back(lines[1]);
    assert_eq!((numbers, groups), (vec![2, 2, 600_000, 3_072], vec![]));
    let (numbers, groups) = read_back(lines[7]);
    assert_eq!(numbers, [3, 2, 0, 0]);
    let expected = [(1, Money(173_408_000)), (2, Money(113_600_000))];
    assert_eq!(groups, expected);
}

const DAY: &str = "create 1 1000000\nreports on\nredeem 2 1000000\n";

#[test]
fn reports_are_rows_of_the_table() {
    let ran = rehearse(LIST, &format!("{BOTH_ORDERS}{DAY}"), &["--csv"]);
    let expected = "\
line,call,account,seq,of,code,name,side,quantity,price,amount,list,type,kind1,amount1,kind2,amount2,kind3,amount3
42,create,1,1,8,510300,units,B,1000000,0.000,0.000,records,,,,,,,
42,create,1,2,8,600000,SPDB,S,3072,0.000,0.000,records,,,,,,,
42,create,1,3,8,600036,CMB,S,3000,0.000,0.000,records,,,,,,,
42,create,1,4,8,510305,other cash,B,1000000,0.113,113000.000,records,,,,,,,
42,create,1,5,8,510305,other cash,B,1,600.000,600.000,records,,,,,,,
42,create,1,6,8,510302,Shanghai cash,B,1000000,0.173,173000.000,records,,,,,,,
42,create,1,7,8,510302,Shanghai cash,B,1,408.000,408.000,records,,,,,,,
42,create,1,8,8,510301,units by order,B,1000000,0.000,0.000,records,,,,,,,
44,redeem,2,1,8,510300,units,S,1000000,0.000,0.000,records,,,,,,,
44,redeem,2,2,8,600000,SPDB,B,5200,0.000,0.000,records,,,,,,,
44,redeem,2,3,8,600036,CMB,B,3000,0.000,0.000,records,,,,,,,
44,redeem,2,4,8,510305,other cash,S,1000000,0.094,94000.000,records,,,,,,,
44,redeem,2,5,8,510305,other cash,S,1,400.000,400.000,records,,,,,,,
44,redeem,2,6,8,510302,Shanghai cash,S,1000000,0.150,150000.000,records,,,,,,,
44,redeem,2,7,8,510302,Shanghai cash,S,1,0.000,0.000,records,,,,,,,
44,redeem,2,8,8,510301,units by order,S,1000000,0.000,0.000,records,,,,,,,
44,redeem,2,1,4,510300,units,2,1000000,,,investor,1,,,,,,
44,redeem,2,2,4,600000,SPDB,1,5200,,,investor,2,,,,,,
44,redeem,2,3,4,600036,CMB,1,3000,,,investor,2,,,,,,
44,redeem,2,4,4,000000,cash,2,0,,,investor,3,1,150000.000,2,94400.000,,
44,redeem,2,1,4,510300,units,1,1000000,,,fund,1,,,,,,
44,redeem,2,2,4,600000,SPDB,2,5200,,,fund,2,,,,,,
44,redeem,2,3,4,600036,CMB,2,3000,,,fund,2,,,,,,
44,redeem,2,4,4,000000,cash,1,0,,,fund,3,1,150000.000,2,94400.000,,
";
    assert_eq!(
        (ran.status, ran.out.as_str(), ran.err.as_str()),
        (0, expected, "")
    );
    let columns: Vec<usize> = ran.out.lines().map(|row| row.split(',').count()).collect();
    assert!(columns.iter().all(|&count| count == 19), "{columns:?}");
}

#[test]
fn a_table_without_reports_is_as_it_was() {
    let off = rehearse(
        LIST,
        &format!("{BOTH_ORDERS}create 1 1000000\n"),
        &["--csv"],
    );
    let turned = format!("{BOTH_ORDERS}reports off\ncreate 1 1000000 # reports on\n");
    let turned = rehearse(LIST, &turned, &["--csv"]);
    let header = "line,call,account,seq,of,code,name,side,quantity,price,amount";
    assert_eq!(off.lines()[0], header);
    assert_eq!(turned.out, off.out.replace("\n42,", "\n43,"));
    assert_eq!(off.lines().len(), 9);
}

#[test]
fn reports_are_members_of_an_order_in_json() {
    let ran = rehearse(LIST, &format!("{BOTH_ORDERS}{DAY}"), &["--json"]);
    assert_eq!(ran.status, 0);
    let entry = |line: &str| {
        let start = format!("{{\"line\":{line},");
        let found = ran.out.lines().find(|entry| entry.starts_with(&start));
        found.expect("an entry")
    };
    assert!(!entry("42").contains("reports"), "{}", ran.out);
    let reports = concat!(
        r#","investor_reports":["#,
        r#"{"seq":1,"of":4,"type":1,"side":2,"code":"510300","name":"units","quantity":1000000,"groups":[]},"#,
        r#"{"seq":2,"of":4,"type":2,"side":1,"code":"600000","name":"SPDB","quantity":5200,"groups":[]},"#,
        r#"{"seq":3,"of":4,"type":2,"side":1,"code":"600036","name":"CMB","quantity":3000,"groups":[]},"#,
        r#"{"seq":4,"of":4,"type":3,"side":2,"code":"000000","name":"cash","quantity":0,"groups":["#,
        r#"{"kind":1,"amount":"150000.000"},{"kind":2,"amount":"94400.000"}]}],"#,
        r#""fund_reports":["#,
        r#"{"seq":1,"of":4,"type":1,"side":1,"code":"510300","name":"units","quantity":1000000,"groups":[]},"#,
        r#"{"seq":2,"of":4,"type":2,"side":2,"code":"600000","name":"SPDB","quantity":5200,"groups":[]},"#,
        r#"{"seq":3,"of":4,"type":2,"side":2,"code":"600036","name":"CMB","quantity":3000,"groups":[]},"#,
        r#"{"seq":4,"of":4,"type":3,"side":1,"code":"000000","name":"cash","quantity":0,"groups":["#,
        r#"{"kind":1,"amount":"150000.000"},{"kind":2,"amount":"94400.000"}]}]}"#,
    );
    let redeemed = entry("44").trim_end_matches(',');
    assert!(redeemed.ends_with(reports), "{redeemed}");
}

/// A row of cells, parted by bars.
fn row(cells: &str) -> Vec<String> {
    let cells = cells.split('|').map(|cell| cell.trim().to_string());
    cells.collect()
}

#[test]
fn a_page_has_a_table_for_each_party() {
    let list = LIST.replace("CMB     ", "<b>&\"'x ");
    let page = rehearse(&list, &format!("{BOTH_ORDERS}{DAY}"), &["--html"]).out;
    assert_well_made(&page);
    let shown = text(&page);
    for words in [
        "4 reports to account 2, the investor",
        "4 reports to the fund's manager",
    ] {
        assert_eq!(shown.matches(words).count(), 1, "{words}");
    }
    let investor = [
        "Report | Type    | Code   | Name     | Side  | Quantity  | 1 Shanghai cash, yuan | 2 other cash, yuan",
        "1 of 4 | 1 unit  | 510300 | units    | 2 (S) | 1,000,000 |                       |",
        "2 of 4 | 2 stock | 600000 | SPDB     | 1 (B) |     5,200 |                       |",
        "3 of 4 | 2 stock | 600036 | <b>&\"'x | 1 (B) |     3,000 |                       |",
        "4 of 4 | 3 cash  |        | cash     | 2 (S) |           |           150,000.000 | 94,400.000",
    ];
    let fund = [
        investor[0],
        "1 of 4 | 1 unit  | 510300 | units    | 1 (B) | 1,000,000 |                       |",
        "2 of 4 | 2 stock | 600000 | SPDB     | 2 (S) |     5,200 |                       |",
        "3 of 4 | 2 stock | 600036 | <b>&\"'x | 2 (S) |     3,000 |                       |",
        "4 of 4 | 3 cash  |        | cash     | 1 (B) |           |           150,000.000 | 94,400.000",
    ];
    let rows = rows(&page);
    let start = rows.iter().position(|cells| cells[0] == "Report");
    let rows = &rows[start.expect("a table of reports")..];
    for (shown, expected) in rows.iter().zip(investor.iter().chain(&fund)) {
        assert_eq!(*shown, row(expected));
    }
}
