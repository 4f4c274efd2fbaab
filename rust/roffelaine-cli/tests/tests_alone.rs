//! The tests of orders alone in a rehearsal, in each of its forms. What is
//! expected is written by hand from the paper's cases (e) and (f).

mod support;

#[path = "page/markup.rs"]
#[allow(dead_code)]
mod markup;

use markup::{assert_well_made, text};
use support::{rehearse, run, scratch, Ran, BOTH_ORDERS, LIST};

/// Both orders would be accepted, and one not.
const TESTS: &str = "test create 1 1000000\ntest redeem 2 1000000\ntest create 1 1000000 7\n";

fn rehearsed(lines: &str, options: &[&str]) -> Ran {
    rehearse(LIST, &format!("{BOTH_ORDERS}{lines}"), options)
}

/// What lines behind the opening print.
fn printed(lines: &str) -> String {
    let ran = rehearsed(lines, &[]);
    let (_, said) = ran.out.split_once("41 price ok\n").expect("the prices");
    said.to_string()
}

#[test]
fn they_answer_what_the_order_would_and_count_as_calls() {
    let expected = "\
42 test create ok 8
43 test redeem ok 8
44 test create refused 16 0: room for 7 records, 8 needed
7 calls, 6 accepted, 1 refused, 0 not understood
";
    assert_eq!(printed(TESTS), expected);
    assert_eq!(rehearsed(TESTS, &["--strict"]).status, 1);
    let accepted = TESTS.replace(" 7\n", "\n");
    assert_eq!(rehearsed(&accepted, &["--strict"]).status, 0);
}

/// Where reports are on, no report says how many there are.
#[test]
fn they_count_reports_where_these_are_on() {
    let said = printed(&format!(
        "reports on\n{TESTS}reports off\ntest create 1 1000000\n"
    ));
    let expected = "\
43 test create ok 8 4
44 test redeem ok 8 4
45 test create refused 16 0: room for 7 records, 8 needed
47 test create ok 8
8 calls, 7 accepted, 1 refused, 0 not understood
";
    assert_eq!(said, expected);
}

#[test]
fn expectations_behind_them_are_as_behind_orders() {
    let said = printed(
        "test create 1 1000000\nexpect ok\nexpect ok 8\nexpect ok 7\nexpect refused 13\n\
         test redeem 1 1000000\nexpect refused 9\nexpect refused 9 0\nexpect refused 9 1\nexpect ok 8\n",
    );
    let expected = "\
42 test create ok 8
45 not expected: test create answered ok 8
46 not expected: test create answered ok 8
47 test redeem refused 9 0: account 1 has 0 units to redeem, needs 1000000
50 not expected: test redeem answered refused 9 0
51 not expected: test redeem answered refused 9 0
6 calls, 5 accepted, 1 refused, 0 not understood, 4 of 8 expectations met
";
    assert_eq!(said, expected);
}

/// The book is as it was, however often they are made; the same lines without
/// them end alike.
#[test]
fn they_change_nothing() {
    let looks = "show 0\nshow 1\nshow 2\ntotals\n";
    let orders = "create 1 1000000\nredeem 2 1000000\n";
    // Without the numbers of the lines, the tests and the counts.
    let rest = |said: String| {
        let (answers, _) = said.trim_end().rsplit_once('\n').expect("the counts");
        let lines = answers.lines().map(|line| match line.split_once(' ') {
            Some((number, rest)) if number.len() == 2 => rest.to_string(),
            _ => line.to_string(),
        });
        let lines = lines.filter(|line| !line.starts_with("test "));
        lines.collect::<Vec<_>>()
    };
    let plain = printed(&format!("{looks}{orders}{looks}"));
    let tested = printed(&format!("{TESTS}{TESTS}{looks}{orders}{looks}"));
    let plain = rest(plain);
    assert_eq!(rest(tested), plain);
    assert_eq!(
        plain.iter().filter(|line| line.contains(" ok 8")).count(),
        2
    );
}

/// Between other calls they see what the calls before them leave.
#[test]
fn they_see_the_day_as_it_is() {
    let said = printed(
        "trade 600036 1 40 1 2\ntest create 1 1000000\ntrade 510300 400000 0.001 2 1\n\
         test redeem 2 1000000\n",
    );
    let expected = "\
42 trade ok
43 test create refused 9 3: account 1 has 2999 of 600036, needs 3000
44 trade ok
45 test redeem refused 9 0: account 2 has 600000 units to redeem, needs 1000000
8 calls, 6 accepted, 2 refused, 0 not understood
";
    assert_eq!(said, expected);
}

#[test]
fn a_table_has_no_rows_for_them() {
    let ran = rehearsed(&format!("{TESTS}create 1 1000000\n"), &["--csv"]);
    let calls: Vec<&str> = ran.out.lines().skip(1).collect();
    assert_eq!(calls.len(), 8, "{}", ran.out);
    assert!(calls.iter().all(|row| row.starts_with("45,create,1,")));
}

#[test]
fn json_has_their_counts() {
    let ran = rehearsed(
        &format!("{TESTS}reports on\ntest redeem 2 1000000\n"),
        &["--json"],
    );
    let lines = [
        r#"{"line":42,"call":"test create","account":1,"units":1000000,"answer":"ok","record_count":8}"#,
        r#"{"line":43,"call":"test redeem","account":2,"units":1000000,"answer":"ok","record_count":8}"#,
        r#"{"line":44,"call":"test create","account":1,"units":1000000,"answer":"refused","number":16,"place":0,"reason":"room for 7 records, 8 needed"}"#,
        r#"{"line":46,"call":"test redeem","account":2,"units":1000000,"answer":"ok","record_count":8,"report_count":4}"#,
        r#""counts":{"calls":8,"accepted":7,"refused":1,"not_understood":0,"expected":0,"not_expected":0}}"#,
    ];
    for line in lines {
        assert!(ran.out.contains(line), "{line}\n{}", ran.out);
    }
    assert!(!ran.out.contains("\"records\""), "{}", ran.out);
}

#[test]
fn a_page_says_what_they_would_make() {
    let lines = format!("{TESTS}reports on\ntest redeem 2 1000000\n");
    let page = rehearsed(&lines, &["--html"]).out;
    assert_well_made(&page);
    let text = text(&page);
    for words in [
        "42 test create account 1, 1,000,000 units (1 basket) would be accepted, 8 records",
        "43 test redeem account 2, 1,000,000 units (1 basket) would be accepted, 8 records",
        "44 test create account 1, 1,000,000 units (1 basket), room for 7 records refused 16, place 0",
        "46 test redeem account 2, 1,000,000 units (1 basket) would be accepted, 8 records, 4 reports to each party",
    ] {
        assert!(text.contains(words), "{words}\n{text}");
    }
    assert!(!text.contains("1 of 8"), "a record is shown");
}

/// They are no orders: nothing is posted, and none is counted.
#[test]
fn reconcile_leaves_them_out() {
    let reconciled = |lines: &str| {
        let day = scratch("day.txt", format!("{LIST}{BOTH_ORDERS}{lines}").as_bytes());
        let positions = day.with_file_name("positions.csv");
        std::fs::write(&positions, "2,510300,1000000\n2,cash,1000\n").expect("written");
        let paths = [&day, &positions].map(|path| path.to_str().expect("a path"));
        run(&["reconcile", paths[0], paths[1]])
    };
    let expected = "2 positions given, 2 agree, 0 differ; no orders and trades\n";
    let ran = reconciled(TESTS);
    assert_eq!((ran.status, ran.out.as_str()), (0, expected));
    let ran = reconciled(&format!("{TESTS}create 1 1000000\n{TESTS}"));
    let expected =
        "2 positions given, 2 agree, 0 differ; posted and book agree after 1 order or trade\n";
    assert_eq!((ran.status, ran.out.as_str()), (0, expected));
}
