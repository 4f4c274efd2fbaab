//! `roffelaine reconcile` on days made by hand. What it has to print is worked
//! out by hand from the paper: its creation costs 287,008.000 yuan, its
//! redemption pays 244,400.000.

mod support;

use std::io::Write;
use std::process::Stdio;
use support::{command, repository, scratch, Ran, LIST};

/// The lines 29 to 47 of the day; line 46 is refused, as account 3 has too
/// little cash.
const LINES: &str = "\
accounts 4
cash 0 1000000
hold 0 600000 20000
hold 0 600036 10000
cash 1 500000
hold 1 600000 3072
hold 1 600036 3000
cash 2 100000
hold 2 510300 2000000
cash 3 50000.5
open
price 000001 12
price 600000 10
price 600036 40
create 1 1000000
redeem 2 1000000
trade 600036 1000 40.5 2 1
trade 510300 400000 0.426 1 3
trade 510300 100000 0.426 1 3
";

/// All that the accounts then hold.
const FUND: &str = "0,600000,17872\n0,600036,10000\n0,cash,1042608\n";
const FIRST: &str = "1,600036,1000\n1,510300,900000\n1,cash,215092.000\n";
const SECOND: &str = "2,600000,5200\n2,600036,2000\n2,510300,1000000\n2,cash,384900\n";
const THIRD: &str = "3,510300,100000\n3,cash,7400.5\n";

const CALLS: &str = "posted and book agree after each of 4 orders and trades";

/// What the command does with files, day.txt and positions.csv in a folder of
/// their own, or standard input for `-`.
fn run(files: [&str; 2], day: &str, positions: &str) -> Ran {
    let texts = [(files[0], day), (files[1], positions)];
    let folder = scratch("day.txt", b"");
    let folder = folder.parent().expect("a folder");
    let mut input = "";
    for (file, text) in texts {
        match file {
            "-" => input = text,
            _ => std::fs::write(folder.join(file), text).expect("a file"),
        }
    }
    let mut child = command()
        .arg("reconcile")
        .args(files)
        .current_dir(folder)
        .stdin(Stdio::piped())
        .stdout(Stdio::piped())
        .stderr(Stdio::piped())
        .spawn()
        .expect("the command runs");
    let mut stdin = child.stdin.take().expect("standard input");
    // A command that does not read it may be gone already.
    let _ = stdin.write_all(input.as_bytes());
    drop(stdin);
    Ran::of(&child.wait_with_output().expect("the command ends"))
}

/// Exit status and standard output for lines behind the list and positions.
fn reconcile(lines: &str, positions: &str) -> (i32, String) {
    let day = format!("{LIST}{lines}");
    let ran = run(["day.txt", "positions.csv"], &day, positions);
    assert_eq!(ran.err, "");
    (ran.status, ran.out)
}

/// What is printed for positions on the day above, with an exit status of 1.
fn differing(positions: &str) -> String {
    let (status, out) = reconcile(LINES, positions);
    assert_eq!(status, 1, "{out}");
    out
}

#[test]
fn positions_agree_with_all_accounts() {
    let all = [FUND, FIRST, SECOND, THIRD].concat();
    assert_eq!(
        reconcile(LINES, &all),
        (
            0,
            format!("12 positions given, 12 agree, 0 differ; {CALLS}\n")
        )
    );
}

#[test]
fn a_keeper_may_give_his_own_account_alone() {
    assert_eq!(
        reconcile(LINES, THIRD),
        (
            0,
            format!("2 positions given, 2 agree, 0 differ; {CALLS}\n")
        )
    );
    assert_eq!(
        reconcile(LINES, FUND),
        (
            0,
            format!("3 positions given, 3 agree, 0 differ; {CALLS}\n")
        )
    );
}

#[test]
fn headers_line_ends_blanks_quotes_and_marks_are_passed_over() {
    let files = [
        "account,code,quantity\n3,510300,100000\n3,cash,7400.5\n",
        "Account,Code,Quantity\r\n3,510300,100000\r\n3,cash,7400.500\r\n",
        "\u{feff}ACCOUNT,CODE,QUANTITY\r\n3,510300,100000\r\n3,CASH,7400.5",
        "# account 3\n\n\"account\",code,\"quantity\"\n\"3\",\"510300\",100000\n 3 , cash ,\t7400.5 \n",
    ];
    for positions in files {
        assert_eq!(
            reconcile(LINES, positions),
            (
                0,
                format!("2 positions given, 2 agree, 0 differ; {CALLS}\n")
            ),
            "{positions:?}"
        );
    }
}

#[test]
fn a_position_of_nothing_may_be_given() {
    let positions = format!("{THIRD}3,600000,0\n0,510300,0\n{FUND}");
    assert_eq!(
        reconcile(LINES, &positions),
        (
            0,
            format!("7 positions given, 7 agree, 0 differ; {CALLS}\n")
        )
    );
}

#[test]
fn a_record_that_was_dropped_is_found() {
    let positions = format!("1,600000,3072\n{FIRST}");
    assert_eq!(
        differing(&positions),
        format!(
            "account 1 600000: posted 0, book 0, given 3072: they part after line 43 create\n\
             4 positions given, 3 agree, 1 differs; {CALLS}\n"
        )
    );
}

#[test]
fn a_given_account_must_be_given_whole() {
    let positions = "1,600036,1000\n1,cash,215092\n2,510300,1000000\n2,600036,2000\n";
    assert_eq!(
        differing(positions),
        format!(
            "account 1 510300: posted 900000, book 900000, not given: they part after line 43 create\n\
             account 2 600000: posted 5200, book 5200, not given: they part after line 44 redeem\n\
             account 2 cash: posted 384900.000, book 384900.000, not given\n\
             4 positions given, 4 agree, 0 differ, 3 not given; {CALLS}\n"
        )
    );
}

/// 600000 without the creation's 3072 shares, 600036 without the redemption's
/// 3000, cash without both.
#[test]
fn the_funds_account_is_compared_too() {
    let positions = "0,600000,14800\n0,600036,13000\n0,cash,1000000\n";
    assert_eq!(
        differing(positions),
        format!(
            "account 0 600000: posted 17872, book 17872, given 14800: \
             the difference is that of line 43 create\n\
             account 0 600036: posted 10000, book 10000, given 13000: \
             they part after line 44 redeem\n\
             account 0 cash: posted 1042608.000, book 1042608.000, given 1000000.000: \
             they part after line 43 create\n\
             3 positions given, 0 agree, 3 differ; {CALLS}\n"
        )
    );
}

/// Account 1 without the 287,008.000 of its creation, without the remainder
/// 408.000 alone, a thousandth off.
#[test]
fn cash_is_compared_in_thousandths() {
    let given = [
        ("502100", "the difference is that of line 43 create"),
        (
            "215500",
            "the difference is that of cash records of line 43 create",
        ),
        ("215092.001", "no call explains it"),
        ("500000", "they part after line 43 create"),
        ("172492", "they part after line 47 trade"),
    ];
    for (yuan, why) in given {
        let positions = FIRST.replace("215092.000", yuan);
        let decimals = if yuan.contains('.') { "" } else { ".000" };
        assert_eq!(
            differing(&positions),
            format!(
                "account 1 cash: posted 215092.000, book 215092.000, given {yuan}{decimals}: {why}\n\
                 3 positions given, 2 agree, 1 differs; {CALLS}\n"
            )
        );
    }
}

/// The records have units under 510300 and 510301; they are the same units.
#[test]
fn units_stand_under_the_first_code_once() {
    let twice = FIRST.replace("900000", "1900000");
    assert_eq!(
        differing(&twice),
        format!(
            "account 1 510300: posted 900000, book 900000, given 1900000: \
             the difference is that of line 43 create, posted twice\n\
             3 positions given, 2 agree, 1 differs; {CALLS}\n"
        )
    );
    assert_eq!(
        differing(&FIRST.replace("510300", "510301")),
        "positions.csv:2:3 \"510301\": units stand under the first code, 510300\n\
         nothing is compared: 1 row of positions.csv is not understood\n"
    );
}

#[test]
fn a_position_that_never_moved_is_said() {
    let positions = format!("{THIRD}3,600519,100\n");
    assert_eq!(
        differing(&positions),
        format!(
            "account 3 600519: posted 0, book 0, given 100: it never moved\n\
             3 positions given, 2 agree, 1 differs; {CALLS}\n"
        )
    );
}

/// Four trades of 1000 units and one of 7, at 0.5 yuan.
#[test]
fn several_calls_with_the_same_move_are_named() {
    let trades = "trade 510300 1000 0.5 1 3\n".repeat(4) + "trade 510300 7 0.5 1 3\n";
    let (status, out) = reconcile(
        &(LINES.to_string() + &trades),
        "3,510300,103007\n3,cash,5397\n",
    );
    assert_eq!(status, 1);
    assert_eq!(
        out,
        "account 3 510300: posted 104007, book 104007, given 103007: the difference is that of \
         line 48 trade or line 49 trade or line 50 trade or 1 more\n\
         2 positions given, 1 agrees, 1 differs; \
         posted and book agree after each of 9 orders and trades\n"
    );
}

#[test]
fn all_rows_that_are_not_understood_are_said() {
    let positions = "account,code,quantity\r\n\
        1,600036,1000\r\n\
        1,600036,1000\r\n\
        1,999999,5\r\n\
        1,510300,\"900,000\"\r\n\
        1,cash,215,092\r\n\
        4,cash,1\r\n\
        2,1,5\r\n\
        2,cash,384900.0001\r\n\
        3,510300\r\n\
        3,cash,-7\r\n";
    assert_eq!(
        differing(positions),
        "positions.csv:3:3 \"600036\": given for account 1 in line 2\n\
         positions.csv:4:3 \"999999\": neither a component of the list nor the unit\n\
         positions.csv:5:14 \"900,000\": a number is written without commas\n\
         positions.csv:6:12 \"092\": one field too many (a number is written without commas)\n\
         positions.csv:7:1 \"4\": the day has the accounts 0 to 3\n\
         positions.csv:8:3 \"1\": a code has six digits, or is cash\n\
         positions.csv:9:8 \"384900.0001\": at most 3 decimals\n\
         positions.csv:10:9 \"\": the quantity is missing\n\
         positions.csv:11:8 \"-7\": a number has digits alone\n\
         nothing is compared: 9 rows of positions.csv are not understood\n"
    );
}

#[test]
fn a_file_without_rows_agrees_with_nothing() {
    assert_eq!(
        differing("account,code,quantity\n"),
        "nothing is compared: positions.csv has no rows\n"
    );
}

#[test]
fn numbers_go_to_the_last_of_64_bits() {
    let positions = "3,510300,18446744073709551615\n3,cash,18446744073709551.615\n";
    assert_eq!(
        differing(positions),
        format!(
            "account 3 510300: posted 100000, book 100000, given 18446744073709551615: \
             no call explains it\n\
             account 3 cash: posted 7400.500, book 7400.500, given 18446744073709551.615: \
             no call explains it\n\
             2 positions given, 0 agree, 2 differ; {CALLS}\n"
        )
    );
}

#[test]
fn lines_of_the_day_that_are_not_as_they_should_be_are_said() {
    let lines = format!("{LINES}sell 600000 100\nexpect refused 9\n");
    let (status, out) = reconcile(&lines, THIRD);
    assert_eq!(status, 1);
    let lines: Vec<&str> = out.lines().collect();
    assert_eq!(lines.len(), 3, "{out}");
    assert!(lines[0].starts_with("48 not understood: column 1: "));
    assert!(lines[1].starts_with("49 not expected: "));
    assert_eq!(
        lines[2],
        format!(
            "2 positions given, 2 agree, 0 differ; {CALLS}; \
             1 line of the day not understood; 1 expectation not met"
        )
    );
}

#[test]
fn without_a_day_nothing_is_compared() {
    let none = "nothing is compared: no day is open";
    let faulty = LINES.replace("cash 3 50000.5", "cash 3 50,000.5");
    let (status, out) = reconcile(&faulty, THIRD);
    let lines: Vec<&str> = out.lines().collect();
    assert!(lines[0].starts_with("38 not understood: column 8: "));
    let rest = &["39 open not made: 1 line above is faulty", none];
    assert_eq!((status, &lines[1..]), (1, &rest[..]));
    let refused = LINES.replace("accounts 4", "accounts 1000");
    let (status, out) = reconcile(&refused, THIRD);
    let lines: Vec<&str> = out.lines().collect();
    assert!(lines[0].starts_with("39 open refused 1 0: "), "{out}");
    assert_eq!((status, &lines[1..]), (1, &[none][..]));
}

#[test]
fn a_list_that_is_refused_is_said() {
    let list = LIST.replace("TAGTAG", "TAG");
    let files = ["day.txt", "positions.csv"];
    let ran = run(files, &format!("{list}{LINES}"), THIRD);
    assert_eq!(ran.status, 1);
    assert!(ran.out.starts_with("list refused 18 "), "{}", ran.out);
    assert!(ran.out.contains("day.txt:22:"), "{}", ran.out);
    assert_eq!(ran.lines().len(), 1);
}

#[test]
fn a_day_without_orders_and_trades_is_its_opening() {
    let lines: String = LINES
        .lines()
        .take(11)
        .map(|line| format!("{line}\n"))
        .collect();
    assert_eq!(
        reconcile(&lines, "3,cash,50000.5\n"),
        (
            0,
            "1 position given, 1 agrees, 0 differ; no orders and trades\n".to_string()
        )
    );
    assert_eq!(
        reconcile(&(lines + "trade 510300 1 1 2 3\n"), "3,cash,50000.5\n3,510300,1\n"),
        (
            1,
            "account 3 cash: posted 49999.500, book 49999.500, given 50000.500: \
             they part after line 40 trade\n\
             2 positions given, 1 agrees, 1 differs; posted and book agree after 1 order or trade\n"
                .to_string()
        )
    );
}

#[test]
fn the_day_that_was_opened_last_is_compared() {
    let lines = format!("{LINES}accounts 2\ncash 1 5\nopen\n");
    assert_eq!(
        reconcile(&lines, "1,cash,6\n"),
        (
            1,
            format!(
                "account 1 cash: posted 5.000, book 5.000, given 6.000: it never moved\n\
                 1 position given, 0 agree, 1 differs; {CALLS}\n"
            )
        )
    );
    let (status, out) = reconcile(&lines, "2,cash,384900\n");
    assert_eq!(status, 1);
    assert!(out.starts_with("positions.csv:1:1 \"2\": the day has the accounts 0 to 1\n"));
}

/// What the model of the example shows for its end, lots added up; the file of
/// the repository leaves the fund out.
#[test]
fn the_example_agrees_with_what_it_shows() {
    let day = std::fs::read_to_string(repository("examples/day.txt")).expect("the example");
    let positions = "0,cash,303008.000\n0,600000,12672\n0,600036,7000\n\
        1,cash,1567740.000\n1,510300,1600000\n\
        2,cash,1801252.500\n2,600000,10000\n2,600036,3000\n2,510300,500000\n\
        3,cash,1228000.000\n3,600000,10400\n3,600036,9000\n3,510300,400000\n";
    // The example has its reports on for one order.
    let all = "; posted and book agree after each of 6 orders and trades; \
        reports agree with the records of 1 order\n";
    let ran = run(["day.txt", "positions.csv"], &day, positions);
    let expected = format!("13 positions given, 13 agree, 0 differ{all}");
    assert_eq!((ran.status, ran.out), (0, expected));
    let files = ["examples/day.txt", "examples/positions.csv"].map(repository);
    let output = command().arg("reconcile").args(files).output();
    let ran = Ran::of(&output.expect("the command runs"));
    let expected = format!("10 positions given, 10 agree, 0 differ{all}");
    assert_eq!((ran.status, ran.out), (0, expected));
}

/// The creation and the redemption, with reports on for one of them, for both,
/// and for neither.
#[test]
fn reports_are_compared_with_records_where_they_are_on() {
    let agree = format!("2 positions given, 2 agree, 0 differ; {CALLS}");
    let on = |line: &str| LINES.replace(line, &format!("reports on\n{line}reports off\n"));
    let (create, redeem) = ("create 1 1000000\n", "redeem 2 1000000\n");
    let both = [create, redeem].concat();
    for (lines, said) in [
        (on(create), "; reports agree with the records of 1 order"),
        (on(redeem), "; reports agree with the records of 1 order"),
        (on(&both), "; reports agree with the records of 2 orders"),
        (on("open\n"), ""),
    ] {
        assert_eq!(reconcile(&lines, THIRD), (0, format!("{agree}{said}\n")));
    }
}

#[test]
fn one_of_the_files_may_be_standard_input() {
    let day = format!("{LIST}{LINES}");
    let expected = format!("2 positions given, 2 agree, 0 differ; {CALLS}\n");
    for files in [["-", "positions.csv"], ["day.txt", "-"]] {
        let ran = run(files, &day, THIRD);
        assert_eq!((ran.status, &ran.out), (0, &expected), "{files:?}");
    }
    let ran = run(["day.txt", "-"], &day, "x,cash,1\n");
    assert_eq!(ran.status, 1);
    assert_eq!(ran.lines()[0], "-:1:1 \"x\": a number has digits alone");
    let ran = run(["-", "-"], &day, "");
    assert_eq!((ran.status, &ran.out[..]), (2, ""));
    assert!(ran.err.contains("not both"), "{}", ran.err);
}

#[test]
fn a_list_in_lf_is_read_with_crlf() {
    let day = format!("{LIST}{LINES}").replace('\r', "");
    let (day, positions) = (
        scratch("day.txt", day.as_bytes()),
        scratch("own.csv", THIRD.as_bytes()),
    );
    let mut without = command();
    without.arg("reconcile").args([&day, &positions]);
    let ran = Ran::of(&without.output().expect("the command runs"));
    assert_eq!(ran.status, 1);
    let with = without.arg("--crlf").output();
    let ran = Ran::of(&with.expect("the command runs"));
    assert_eq!(
        (ran.status, ran.out),
        (
            0,
            format!("2 positions given, 2 agree, 0 differ; {CALLS}\n")
        )
    );
}

#[test]
fn a_file_that_is_not_there_is_said() {
    let day = scratch("day.txt", format!("{LIST}{LINES}").as_bytes());
    let day = day.to_str().expect("a path");
    for files in [[day, "none.csv"], ["none.day", day]] {
        let ran = support::run(&["reconcile", files[0], files[1]]);
        assert_eq!((ran.status, &ran.out[..]), (2, ""));
        assert!(ran.err.starts_with("roffelaine: none."), "{}", ran.err);
    }
}
