//! Whole days, rehearsed. What is expected of `tests/days` comes from
//! `scripts/rehearse_text.py`, a model of the paper; the rest is by hand.

mod support;

use std::io::Write;
use std::process::Stdio;
use support::{command, rehearse, repository, run, scratch, Ran, LIST};

/// Account 1 of the paper's cases, one basket.
const DAY: &str = "accounts 2\ncash 0 1000000\nhold 0 600000 10000\ncash 1 1000000\n\
    hold 1 600000 3072\nhold 1 600036 3000\nopen\n\
    price 000001 12\nprice 600000 10\nprice 600036 40\ncreate 1 1000000\n";

/// Whether a line is the one expected; one that ends in ` ..` is expected to
/// start so.
fn fits(line: &str, expected: &str) -> bool {
    match expected.strip_suffix("..") {
        Some(start) => line.starts_with(start),
        None => line == expected,
    }
}

fn compare(day: &str, expected: &str) -> Ran {
    let read = |path: &str| std::fs::read_to_string(repository(path)).expect("a file");
    let day = repository(day);
    let ran = run(&["rehearse", day.to_str().expect("a path")]);
    let expected = read(expected);
    assert_eq!(ran.lines().len(), expected.lines().count());
    for (line, expected) in ran.lines().into_iter().zip(expected.lines()) {
        assert!(fits(line, expected), "{line:?}, expected {expected:?}");
    }
    ran
}

#[test]
fn the_example_answers_as_the_model() {
    let ran = compare(
        "examples/day.txt",
        "rust/roffelaine-cli/tests/days/example.out",
    );
    assert_eq!((ran.status, ran.err.as_str()), (0, ""));
}

#[test]
fn edges_answer_as_the_model() {
    let days = "rust/roffelaine-cli/tests/days";
    let ran = compare(&format!("{days}/edges.day"), &format!("{days}/edges.out"));
    assert_eq!(ran.status, 1);
}

#[test]
fn records_are_rows_of_a_table() {
    let ran = rehearse(LIST, DAY, &["--csv"]);
    let expected = "\
line,call,account,seq,of,code,name,side,quantity,price,amount
39,create,1,1,8,510300,units,B,1000000,0.000,0.000
39,create,1,2,8,600000,SPDB,S,3072,0.000,0.000
39,create,1,3,8,600036,CMB,S,3000,0.000,0.000
39,create,1,4,8,510305,other cash,B,1000000,0.113,113000.000
39,create,1,5,8,510305,other cash,B,1,600.000,600.000
39,create,1,6,8,510302,Shanghai cash,B,1000000,0.173,173000.000
39,create,1,7,8,510302,Shanghai cash,B,1,408.000,408.000
39,create,1,8,8,510301,units by order,B,1000000,0.000,0.000
";
    assert_eq!(
        (ran.status, ran.out.as_str(), ran.err.as_str()),
        (0, expected, "")
    );
}

#[test]
fn names_are_quoted_where_they_must_be() {
    let list = LIST.replace("SPDB    ", "S,P\"D  B");
    let ran = rehearse(&list, DAY, &["--csv"]);
    assert!(
        ran.out.contains(",600000,\"S,P\"\"D  B\",S,3072,"),
        "{}",
        ran.out
    );
}

#[test]
fn tables_complain_beside_themselves() {
    let ran = rehearse(LIST, "sell 1\nexpect ok\n", &["--csv"]);
    assert_eq!((ran.status, ran.out.lines().count()), (1, 1));
    assert!(
        ran.err
            .contains("day.txt: 29 not understood: column 1: \"sell\""),
        "{}",
        ran.err
    );
    assert!(
        ran.err
            .contains("30 not expected: there is no call before it"),
        "{}",
        ran.err
    );
}

#[test]
fn all_answers_are_in_json() {
    let ran = rehearse(
        LIST,
        &format!("{DAY}value\nredeem 1 1\nsell\nshow 1\n"),
        &["--json"],
    );
    assert_eq!(ran.status, 1);
    let lines = [
        r#"{"line":35,"call":"open","answer":"ok"}"#,
        r#"{"line":37,"call":"price","code":"600000","price":"10.000","answer":"ok"}"#,
        r#"{"seq":2,"of":8,"code":"600000","name":"SPDB","side":"S","quantity":3072,"price":"0.000","amount":"0.000"}"#,
        r#"{"line":40,"call":"value","answer":"ok","value":"0.4257"}"#,
        r#"{"line":41,"call":"redeem","account":1,"units":1,"answer":"refused","number":11,"place":0,"reason":"units 1: 1 to 20 whole baskets of 1000000"}"#,
        r#"{"line":42,"answer":"not understood","column":1,"reason":"\"sell\" is no word that a line of a day starts with"}"#,
        r#"{"account":1,"cash":"712992.000","created":1000000,"redeemed":0,"lots":[{"code":"510300","old":0,"bought":0,"got":1000000}]}"#,
        r#"{"code":"cash","opened":"2000000.000","in":"287008.000","out":"287008.000","holds":"2000000.000"}"#,
        r#""counts":{"calls":7,"accepted":6,"refused":1,"not_understood":1,"expected":0,"not_expected":0}}"#,
    ];
    for line in lines {
        assert!(ran.out.contains(line), "{line}\n{}", ran.out);
    }
}

#[test]
fn components_in_json_have_both_rates() {
    let list = LIST.replace("|3|0.10000|0.10000|", "|3|0.10000|0.05000|");
    let ran = rehearse(&list, "", &["--json"]);
    let components = [
        r#"{"code":"000001","name":"PAB","quantity":8000,"flag":3,"premium":"0.10000","discount":"0.05000","amount":"96000.000"}"#,
        r#"{"code":"000002","name":"VANKE","quantity":1000,"flag":4,"premium":"0.00000","discount":"0.00000","amount":"8000.000"}"#,
        r#"{"code":"600000","name":"SPDB","quantity":5200,"flag":1,"premium":"0.10000","discount":"0.10000","amount":"0.000"}"#,
    ];
    let components = format!("\"components\":[{},", components.join(","));
    assert!(ran.out.contains(&components), "{}", ran.out);
}

/// The cash records of a redemption of one basket, with a discount of 000001 that
/// is not its premium.
#[test]
fn a_redemption_takes_the_discount() {
    let list = LIST.replace("|3|0.10000|0.10000|", "|3|0.10000|0.05000|");
    let day = "accounts 2\ncash 0 1000000\nhold 0 600000 10000\nhold 0 600036 10000\n\
        hold 1 510300 1000000\nopen\nredeem 1 1000000\n";
    let ran = rehearse(&list, day, &[]);
    let cash = "510305 S 1000000 0.099 99000.000\n510305 S 1 200.000 200.000\n\
        510302 S 1000000 0.150 150000.000\n510302 S 1 0.000 0.000\n";
    assert!(ran.out.contains(cash), "{}", ran.out);
}

#[test]
fn a_day_may_come_from_standard_input() {
    let mut child = command()
        .args(["rehearse", "-", "--strict"])
        .stdin(Stdio::piped())
        .stdout(Stdio::piped())
        .spawn()
        .expect("the command runs");
    let mut input = child.stdin.take().expect("its input");
    input.write_all(LIST.as_bytes()).expect("written");
    input.write_all(b"accounts 2\nopen\n").expect("written");
    drop(input);
    let ran = Ran::of(&child.wait_with_output().expect("an end"));
    let expected = "30 open ok\n1 calls, 1 accepted, 0 refused, 0 not understood\n";
    assert_eq!((ran.status, ran.out.as_str()), (0, expected));
}

#[test]
fn the_status_says_what_was_not_clean() {
    let clean = "accounts 2\nopen\n";
    let cases = [
        (clean.to_string(), &[][..], 0),
        (clean.to_string(), &["--strict"], 0),
        (format!("{clean}value\n"), &[], 0),
        (format!("{clean}value\n"), &["--strict"], 1),
        (format!("{clean}value\nexpect refused 14\n"), &[], 0),
        (format!("{clean}value\nexpect ok\n"), &[], 1),
        (format!("{clean}valu\n"), &[], 1),
        ("accounts 2\nopen\nopen\n".to_string(), &[], 1),
    ];
    for (lines, options, status) in cases {
        let ran = rehearse(LIST, &lines, options);
        assert_eq!(ran.status, status, "{lines:?} {options:?}: {}", ran.out);
    }
}

#[test]
fn usage_and_files_are_status_2() {
    let missing = scratch("x", b"").with_file_name("missing.txt");
    let missing = missing.to_str().expect("a path");
    let cases: [(&[&str], &str); 5] = [
        (&[], "what is to be done is missing"),
        (&["rehearse"], "DAY is missing"),
        (&["rehearse", "a", "--xml"], "\"--xml\" is no option"),
        (&["rehearse", missing], "missing.txt: No such file"),
        (&["list", missing], "missing.txt: No such file"),
    ];
    for (words, why) in cases {
        let ran = run(words);
        assert_eq!((ran.status, ran.out.as_str()), (2, ""), "{words:?}");
        assert!(
            ran.err.starts_with("roffelaine: ") && ran.err.contains(why),
            "{}",
            ran.err
        );
    }
}

#[test]
fn a_list_with_lf_is_named_and_mended() {
    let day = format!("{}accounts 2\nopen\n", LIST.replace("\r\n", "\n"));
    let file = scratch("day.txt", day.as_bytes());
    let path = file.to_str().expect("a path");
    let ran = run(&["rehearse", path]);
    assert_eq!(ran.status, 1);
    assert!(
        ran.out.starts_with("list refused 18 0: ") && ran.out.contains("--crlf"),
        "{}",
        ran.out
    );
    let ran = run(&["rehearse", path, "--crlf"]);
    assert_eq!(ran.status, 0);
    assert_eq!(ran.lines()[0], "30 open ok");
    let mended = file.with_file_name("mended.txt");
    let output = mended.to_str().expect("a path");
    let ran = run(&["list", path, "--crlf", "-o", output]);
    assert_eq!(ran.status, 0, "{}", ran.out);
    let expected = format!("{LIST}accounts 2\nopen\n");
    assert_eq!(std::fs::read_to_string(&mended).expect("written"), expected);
    // What is refused is not written.
    let broken = scratch("broken.txt", day.replace("Publish", "Publisch").as_bytes());
    let broken = broken.to_str().expect("a path");
    let other = file.with_file_name("other.txt");
    let ran = run(&[
        "list",
        broken,
        "--crlf",
        "-o",
        other.to_str().expect("a path"),
    ]);
    assert_eq!((ran.status, other.exists()), (1, false), "{}", ran.out);
    assert_eq!(std::fs::read_to_string(&file).expect("as it was"), day);
}

#[test]
fn a_list_says_what_it_has() {
    let list = LIST.replace("|3|0.10000|0.10000|", "|3|0.10000|0.05000|");
    let list = list.replace("|1|0.10000|0.10000|", "|1|0.10000|0.00000|");
    let file = scratch("list.txt", list.as_bytes());
    let ran = run(&["list", file.to_str().expect("a path")]);
    let expected = "\
list ETF510300 of 20250630
codes: 510300 units, 510301 creation and redemption, 510302 Shanghai cash, 510305 other cash
basket of 1000000 units, estimated cash -331.22
CreationRedemption 1: creation and redemption
MaxCashRatio 0.05000
CreationLimitPerUser 2000000
5 components
000001 PAB      8000 flag 3 premium 0.10000 discount 0.05000 amount 96000.000
000002 VANKE    1000 flag 4 amount 8000.000
600000 SPDB     5200 flag 1 premium 0.10000 discount 0.00000
600036 CMB      3000 flag 0
600519 MOUTAI   100 flag 2 amount 150000.000
";
    assert_eq!((ran.status, ran.out.as_str()), (0, expected));
}

#[test]
fn help_and_version_are_there() {
    let ran = run(&["--help"]);
    assert_eq!(ran.status, 0);
    for word in [
        "rehearse DAY",
        "list FILE",
        "reconcile DAY",
        "refusals",
        "expect",
        "totals",
    ] {
        assert!(ran.out.contains(word), "{word}");
    }
    let version = format!("roffelaine {}\n", env!("CARGO_PKG_VERSION"));
    assert_eq!(run(&["--version"]).out, version);
}
