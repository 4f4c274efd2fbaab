//! Days and lists under a flag table of the customer's own. What is expected is
//! worked out by hand from the paper's rules.

mod support;

#[path = "page/markup.rs"]
#[allow(dead_code)]
mod markup;

use markup::{assert_well_made, rows, text};
use support::{rehearse, repository, run, scratch, Ran, BOTH_ORDERS, LIST, LIST_LINES};

/// Flag 5 as it is piloted: stock that may be short in cash.
const STOCK: &str = "flag 5 1 1 1 0 1 1 1\n";

/// The paper's list with 600036 under flag 5.
fn piloted() -> String {
    LIST.replace("    3000|0|       |       |", "    3000|5|0.02000|0.03000|")
}

/// Account 1 lacks 1000 of 600000 and 250 of 600036 for a basket.
const OPENING: &str = "accounts 2\ncash 0 1000000\nhold 0 600000 10000\nhold 0 600036 10000\n\
    cash 1 1000000\nhold 1 600000 4200\nhold 1 600036 2750\nopen\n\
    price 000001 12\nprice 600000 10\nprice 600036 40\n";

/// What `list` says of a list with lines of a day behind it, and the file.
fn listed(list: &str, lines: &str) -> (Ran, String) {
    let file = scratch("day.txt", format!("{list}{lines}").as_bytes());
    let file = file.to_str().expect("a path").to_string();
    (run(&["list", &file]), file)
}

#[test]
fn the_example_answers_as_worked_by_hand() {
    let day = repository("examples/flag-day.txt");
    let ran = run(&["rehearse", day.to_str().expect("a path")]);
    let expected = include_str!("days/flag-day.out");
    assert_eq!((ran.status, ran.out.as_str()), (0, expected), "{}", ran.err);
}

/// The paper's list.
fn paper() -> String {
    LIST.to_string()
}

/// The piloted list without rates.
fn without_rates() -> String {
    piloted().replace("0.02000|0.03000", "       |       ")
}

const NO_PREMIUM: &str = "26:28 premium \"0.02000\": flag 5 uses no premium: blank";

/// A list, lines behind it, what stands in the field at fault, and how the reason
/// starts behind the file's name.
type RefusedField = (fn() -> String, &'static str, &'static str, &'static str);

const REFUSED_FIELDS: [RefusedField; 8] = [
    (piloted, "", "0.02000", NO_PREMIUM),
    // A flag that is not in use has blanks, whatever its other columns say.
    (piloted, "flag 5 1 1 1 0 1 1 0\n", "0.02000", NO_PREMIUM),
    (piloted, "flag 5 1 0 0 0 1 1 1\n", "0.02000", NO_PREMIUM),
    // Below the first opening it belongs to another day.
    (
        piloted,
        "accounts 2\nopen\naccounts 2\nflag 5 1 1 1 0 1 1 1\nopen\n",
        "0.02000",
        NO_PREMIUM,
    ),
    (
        piloted,
        "flag 5 0 0 1 1 1 0 1\n",
        "            |\r\n600519",
        "26:44 amount \"            \": flag 5 uses an amount: ",
    ),
    (
        without_rates,
        STOCK,
        "       |       |            |\r\n600519",
        "26:28 premium \"       \": flag 5 uses a premium: ",
    ),
    // A table may change our rows, and have them out of use.
    (
        paper,
        "flag 3 0 0 0 1 0 1 1\n",
        "0.10000|0.10000|   96000.000",
        "23:28 premium \"0.10000\": flag 3 uses no premium: blank",
    ),
    (
        paper,
        "flag 4 0 0 0 1 0 0 0\n",
        "    8000.000",
        "24:44 amount \"    8000.000\": flag 4 uses no amount: blank",
    ),
];

#[test]
fn blanks_of_the_list_follow_the_rows() {
    for (list, lines, field, expected) in REFUSED_FIELDS {
        let list = list();
        let (ran, file) = listed(&list, lines);
        let place = list.find(field).expect("the field");
        let expected = format!("list refused 19 {place}: {file}:{expected}");
        assert!(ran.out.starts_with(&expected), "{expected}\n{}", ran.out);
        let rehearsed = run(&["rehearse", &file]);
        assert_eq!((rehearsed.status, rehearsed.out), (1, ran.out));
    }
    let (ran, file) = listed(&without_rates(), "");
    let expected = format!("list refused 3 3: {file}:26:26 flag \"5\": ");
    assert!(ran.out.starts_with(&expected), "{}", ran.out);
}

#[test]
fn a_list_says_the_rows_that_were_given() {
    let lines = format!("accounts 2\n{STOCK}flag 4 0 0 0 1 0 0 0\nflag 2 0 0 1 1 1 1 1\nopen\n");
    let list = piloted().replace("    1000|4|       |       |", "    1000|2|0.00000|0.01000|");
    let list = list.replace("     100|2|       |       |", "     100|2|0.00100|1.00000|");
    let (ran, _) = listed(&list, &lines);
    let expected = "\
CreationLimitPerUser 2000000
flag 2: rate used, amount used, Shanghai, priced
flag 4: not in use
flag 5: stock moves, shortage in cash, rate used, Shanghai, priced
5 components
000001 PAB      8000 flag 3 premium 0.10000 discount 0.10000 amount 96000.000
000002 VANKE    1000 flag 2 premium 0.00000 discount 0.01000 amount 8000.000
600000 SPDB     5200 flag 1 premium 0.10000 discount 0.10000
600036 CMB      3000 flag 5 premium 0.02000 discount 0.03000
600519 MOUTAI   100 flag 2 premium 0.00100 discount 1.00000 amount 150000.000
";
    assert!(ran.out.ends_with(expected), "{}", ran.out);
    assert_eq!(ran.status, 0);
}

/// Rows against the rules, the lowest flag at fault, and why.
const BROKEN: [(&str, u64, &str); 12] = [
    (
        "flag 5 2 0 0 0 1 1 1",
        5,
        "stock moves 2, which is not 0 or 1",
    ),
    (
        // In a row that is not in use too.
        "flag 9 0 3 0 0 18446744073709551615 0 0",
        9,
        "shortage in cash 3, which is not 0 or 1; Shanghai 18446744073709551615, which is not 0 or 1",
    ),
    (
        "flag 6 0 0 2 2 0 2 0",
        6,
        "rate used 2, which is not 0 or 1; amount used 2, which is not 0 or 1; \
         priced 2, which is not 0 or 1",
    ),
    ("flag 5 1 0 0 0 1 1 7", 5, "in use 7, which is not 0 or 1"),
    ("flag 5 1 0 0 0 0 1 1", 5, "stock moves, but it is not Shanghai"),
    ("flag 5 1 0 0 0 1 0 1", 5, "stock moves, but it is not priced"),
    ("flag 5 1 0 0 1 1 1 1", 5, "stock moves, but an amount is used"),
    ("flag 5 0 0 1 0 1 1 1", 5, "no stock moves, but no amount is used"),
    ("flag 5 0 1 1 1 0 0 1", 5, "shortage in cash, but no stock moves"),
    ("flag 5 1 1 0 0 1 1 1", 5, "shortage in cash, but no rate is used"),
    (
        // Our rows may be changed, but not against the rules.
        "flag 0 1 1 0 1 0 1 1",
        0,
        "stock moves, but it is not Shanghai; stock moves, but an amount is used; \
         shortage in cash, but no rate is used",
    ),
    (
        "flag 8 2 2 2 2 2 2 2\nflag 7 0 0 0 0 0 0 1",
        7,
        "no stock moves, but no amount is used",
    ),
];

/// Number, place and reason of the refusal of such a table.
fn refused_table(flag: u64, why: &str) -> String {
    format!("refused 21 {flag}: the flag table breaks its rules at flag {flag}: {why}\n")
}

#[test]
fn a_table_against_the_rules_is_refused_before_the_list_is_looked_at() {
    for list in [LIST.to_string(), LIST.replace("Publish", "Publisch")] {
        for (row, flag, why) in BROKEN {
            let (ran, file) = listed(&list, &format!("{row}\naccounts 2\nopen\n"));
            let expected = format!("list {}", refused_table(flag, why));
            assert_eq!((ran.status, ran.out.as_str()), (1, expected.as_str()));
            for words in [&["rehearse", &file][..], &["reconcile", &file, &file]] {
                let ran = run(words);
                assert_eq!((ran.status, ran.out.as_str()), (1, expected.as_str()));
            }
        }
    }
}

#[test]
fn a_day_under_a_table_against_the_rules_is_not_opened() {
    for (row, flag, why) in BROKEN {
        let second = format!("accounts 2\n{row}\nopen\nexpect refused 21 {flag}\nvalue\n");
        let ran = rehearse(LIST, &format!("accounts 2\nopen\n{second}"), &[]);
        let open = LIST_LINES + 4 + row.lines().count();
        let (value, refused) = (open + 2, refused_table(flag, why));
        let expected = format!(
            "30 open ok\n{open} open {refused}{value} value refused 5 0: no day is open\n\
             3 calls, 1 accepted, 2 refused, 0 not understood, 1 of 1 expectations met\n"
        );
        assert_eq!(ran.out, expected);
    }
}

/// What stands in a row that is not in use has no meaning; stock may have rates
/// without a shortage in cash.
#[test]
fn other_tables_are_taken() {
    let tables = [
        "flag 5 1 0 0 1 0 0 0\nflag 6 0 1 0 0 0 0 0\nflag 9 1 1 1 1 1 1 0\n",
        "flag 5 1 0 1 0 1 1 1\nflag 6 0 0 0 1 1 1 1\nflag 7 0 0 1 1 1 1 1\nflag 8 0 0 1 1 0 0 1\n",
    ];
    for table in tables {
        let ran = rehearse(LIST, &format!("{table}accounts 2\nopen\n"), &["--strict"]);
        assert_eq!(ran.status, 0, "{}", ran.out);
    }
}

/// 1 comes before 21, and 21 before 3 and 4.
#[test]
fn the_table_is_tested_behind_the_sizes() {
    let broken = "flag 5 0 0 0 0 0 0 1\nflag 4 0 0 0 1 0 0 0\n";
    let too_much = "hold 0 510300 1\n";
    let opened = |accounts: u64, lines: &str| {
        let lines = format!("accounts 2\nopen\naccounts {accounts}\n{lines}open\n");
        let ran = rehearse(LIST, &lines, &[]);
        let answers = ran.lines();
        let (_, answer) = answers[1].split_once(" open ").expect("an opening");
        answer.split(':').next().unwrap_or_default().to_string()
    };
    assert_eq!(opened(1, &format!("{broken}{too_much}")), "refused 1 0");
    assert_eq!(opened(2, &format!("{broken}{too_much}")), "refused 21 5");
    let unused = "flag 4 0 0 0 1 0 0 0\n";
    assert_eq!(opened(2, &format!("{unused}{too_much}")), "refused 3 1");
    assert_eq!(opened(2, too_much), "refused 4 5");
}

/// A component of the list under another day's table.
#[test]
fn components_are_tested_again_under_another_table() {
    let tables = [
        ("", "3 3: 600036 has flag 5, which is not in use"),
        (
            "flag 5 1 0 0 0 1 1 1\n",
            "3 3: 600036 has a premium, which flag 5 does not use",
        ),
        (
            "flag 3 1 0 1 0 1 1 1\nflag 5 1 1 1 0 1 1 1\n",
            "3 0: 000001 has an amount, which flag 3 does not use",
        ),
    ];
    let list = piloted();
    for (table, reason) in tables {
        let lines = format!("{STOCK}accounts 2\nopen\naccounts 2\n{table}open\n");
        let ran = rehearse(&list, &lines, &[]);
        let line = LIST_LINES + lines.lines().count();
        assert_eq!(ran.lines()[1], format!("{line} open refused {reason}"));
    }
    let discounted = list.replace("0.02000|0.03000", "0.00000|0.03000");
    let lines = format!("{STOCK}accounts 2\nopen\naccounts 2\nflag 5 1 0 0 0 1 1 1\nopen\n");
    let ran = rehearse(&discounted, &lines, &[]);
    let expected = "34 open refused 3 3: 600036 has a discount, which flag 5 does not use";
    assert_eq!(ran.lines()[1], expected);
}

#[test]
fn faulty_rows_stop_the_opening() {
    let lines = "accounts 2\nflag 10 1 1 1 0 1 1 1\nflag 5 1 1 1 0 1 1\nflag 5 1 1 1 0 1 1 1 1\n\
        flag 5 1 1 1 0 1 1 1\n  flag 5 0 0 0 1 1 0 1\nFlag 6 0 0 0 1 0 0 1\nopen\n";
    let ran = rehearse(LIST, lines, &[]);
    let expected = "\
30 not understood: column 6: FLAG \"10\": a flag is 0 to 9
31 not understood: column 19: USE is missing
32 not understood: column 22: \"1\" is one word too many
34 not understood: column 3: flag 5 is given in line 33
35 not understood: column 1: \"Flag\" is written flag
36 open not made: 5 lines above are faulty
0 calls, 0 accepted, 0 refused, 6 not understood
";
    assert_eq!((ran.status, ran.out.as_str()), (1, expected));
}

#[test]
fn rows_stand_above_their_opening() {
    let lines = format!("{STOCK}accounts 2\nopen\nflag 6 0 0 0 1 0 0 1\naccounts 2\nopen\n{STOCK}");
    let ran = rehearse(LIST, &lines, &[]);
    let expected = "\
31 open ok
32 not understood: column 1: the day is open since line 31: it belongs above `open`
34 open ok
35 not understood: column 1: the day is open since line 34: it belongs above `open`
2 calls, 2 accepted, 0 refused, 2 not understood
";
    assert_eq!(ran.out, expected);
    let ran = rehearse(LIST, &format!("{STOCK}accounts 2\n"), &[]);
    assert_eq!(ran.lines()[0], "29 open not made: no line `open` follows");
    // A row behind a refused opening is not lost unsaid.
    let lines = format!("accounts 1\nopen\n{STOCK}accounts 2\nopen\naccounts 2\n{STOCK}open\n");
    let ran = rehearse(LIST, &lines, &[]);
    let expected = "\
30 open refused 1 0: accounts 1: a day has 2 to 64
31 not understood: column 1: a row of another day stands behind its `accounts`
33 open not made: 1 line above is faulty
36 open ok
2 calls, 1 accepted, 1 refused, 2 not understood
";
    assert_eq!(ran.out, expected);
}

/// The list is refused since no row was taken from the faulty line.
#[test]
fn a_faulty_row_is_named_where_the_list_is_refused() {
    let lines = "accounts 2\nflag 5 1 1 1 0 1 1\nopen\n";
    let (ran, file) = listed(&piloted(), lines);
    let start = format!("{file}:26:28 premium \"0.02000\": flag 5 uses no premium: blank");
    let end = "; line 30 gives no row of the table: USE is missing\n";
    assert!(
        ran.out.contains(&start) && ran.out.ends_with(end),
        "{}",
        ran.out
    );
    let ran = rehearse(&piloted(), lines, &["--json"]);
    assert!(ran
        .out
        .contains("; line 30 gives no row of the table: USE is missing\""));
}

/// 113,600 yuan of other cash as in the paper's case. Shanghai cash is 11,000 for
/// 1000 of 600000, 10,200 for 250 of 600036 with a premium of 0.02, and 150,000.
const CREATION: &str = "\
41 create ok 8
510300 B 1000000 0.000 0.000
600000 S 4200 0.000 0.000
600036 S 2750 0.000 0.000
510305 B 1000000 0.113 113000.000
510305 B 1 600.000 600.000
510302 B 1000000 0.171 171000.000
510302 B 1 200.000 200.000
510301 B 1000000 0.000 0.000
";
const REPORTS: &str = "\
investor 1 1 510300 1000000
investor 2 2 600000 4200
investor 2 2 600036 2750
investor 3 1 000000 0 1 171200.000 2 113600.000
fund 1 2 510300 1000000
fund 2 1 600000 4200
fund 2 1 600036 2750
fund 3 2 000000 0 1 171200.000 2 113600.000
";

#[test]
fn a_piloted_flag_may_be_short_in_cash() {
    let lines = format!("{STOCK}{OPENING}create 1 1000000\nexpect cash 1 715200\n");
    let ran = rehearse(&piloted(), &lines, &["--strict"]);
    assert!(ran.out.contains(CREATION), "{}", ran.out);
    assert_eq!(ran.status, 0, "{}", ran.out);
    let ran = rehearse(&piloted(), &format!("reports on\n{lines}"), &[]);
    assert!(ran.out.contains(REPORTS), "{}", ran.out);
    let ran = rehearse(&piloted(), &lines, &["--csv"]);
    let stock = "41,create,1,3,8,600036,CMB,S,2750,0.000,0.000\n";
    assert!(ran.out.contains(stock), "{}", ran.out);
}

/// What is missing is added up over all flags: 10,000 and 11,320 yuan here.
#[test]
fn the_ratio_is_held_over_all_flags() {
    let lines = format!("{STOCK}{OPENING}create 1 1000000\n");
    let lines = lines.replace("hold 1 600036 2750", "hold 1 600036 2717");
    let ran = rehearse(&piloted(), &lines, &[]);
    let expected = "41 create refused 15 0: missing stock is worth 21320.000, \
        at most 21285.000 by MaxCashRatio 0.05000\n";
    assert!(ran.out.contains(expected), "{}", ran.out);
}

/// Under the second day's table flag 5 allows no shortage in cash.
#[test]
fn two_days_have_their_own_tables() {
    let create = "create 1 1000000\n";
    let second = OPENING.replace("accounts 2\n", "accounts 2\nflag 5 1 0 1 0 1 1 1\n");
    let days = format!("{STOCK}{OPENING}{create}{second}{create}");
    let ran = rehearse(&piloted(), &days, &[]);
    let creations = ran
        .lines()
        .into_iter()
        .filter(|line| line.contains(" create "));
    let expected = [
        "41 create ok 8",
        "54 create refused 9 3: account 1 has 2750 of 600036, needs 3000",
    ];
    assert_eq!(creations.collect::<Vec<_>>(), expected);
}

/// Cash under flags that our table has not: 000001 is not priced, but has rates;
/// 600519 is priced, and pays its amount all the same.
#[test]
fn cash_follows_the_columns_and_not_the_price() {
    let list = LIST
        .replace("    8000|3|", "    8000|7|")
        .replace("     100|2|", "     100|9|");
    let table = "flag 7 0 0 1 1 0 0 1\nflag 9 0 0 0 1 1 1 1\n";
    let lines = BOTH_ORDERS.replace("hold 1 600000 3072", "hold 1 600000 3200");
    let orders = "value\nprice 600519 1400\nvalue\ncreate 1 1000000\nredeem 2 1000000\n";
    let ran = rehearse(&list, &format!("{table}{lines}{orders}"), &[]);
    let (_, said) = ran.out.split_once("43 price ok\n").expect("the prices");
    // 96,000 and 8,000 and 52,000 and 120,000 and 140,000 less 331.22 are 415,668.78.
    // Other cash is 105,600 and 8,000; Shanghai cash 22,000 for 2000 missing and 150,000.
    // Redemption pays 86,400 and 8,000, and 150,000.
    let expected = "\
44 value refused 14 0: 600519 has no price
45 price ok
46 value ok 0.4157
47 create ok 8
510300 B 1000000 0.000 0.000
600000 S 3200 0.000 0.000
600036 S 3000 0.000 0.000
510305 B 1000000 0.113 113000.000
510305 B 1 600.000 600.000
510302 B 1000000 0.172 172000.000
510302 B 1 0.000 0.000
510301 B 1000000 0.000 0.000
48 redeem ok 8
510300 S 1000000 0.000 0.000
600000 B 5200 0.000 0.000
600036 B 3000 0.000 0.000
510305 S 1000000 0.094 94000.000
510305 S 1 400.000 400.000
510302 S 1000000 0.150 150000.000
510302 S 1 0.000 0.000
510301 S 1000000 0.000 0.000
9 calls, 8 accepted, 1 refused, 0 not understood
";
    assert_eq!(said, expected);
}

/// Where cash is short, the reason has what the order takes under this table.
#[test]
fn shortages_are_told_under_the_day_s_table() {
    let poor = OPENING.replace("cash 1 1000000", "cash 1 284799.999");
    let ran = rehearse(&piloted(), &format!("{STOCK}{poor}create 1 1000000\n"), &[]);
    let expected = "41 create refused 10 0: account 1 has 284799.999 yuan, needs 284800.000";
    assert!(ran.out.contains(expected), "{}", ran.out);
    let fund = BOTH_ORDERS.replace("cash 0 1000000", "cash 0 244399.999");
    let ran = rehearse(&piloted(), &format!("{STOCK}{fund}redeem 2 1000000\n"), &[]);
    let expected = "redeem refused 17 5: the fund has 244399.999 yuan, needs 244400.000";
    assert!(ran.out.contains(expected), "{}", ran.out);
}

const OUR_TABLE: &str = "flag 0 1 0 0 0 1 1 1\nflag 1 1 1 1 0 1 1 1\nflag 2 0 0 0 1 1 0 1\n\
    flag 3 0 0 1 1 0 1 1\nflag 4 0 0 0 1 0 0 1\nflag 5 0 0 0 0 0 0 0\nflag 6 0 0 0 0 0 0 0\n\
    flag 7 0 0 0 0 0 0 0\nflag 8 0 0 0 0 0 0 0\nflag 9 0 0 0 0 0 0 0\n";

#[test]
fn our_table_given_is_as_none() {
    let orders = "reports on\nvalue\ncreate 1 1000000\nredeem 2 1000000\nshow 0\nshow 1\ntotals\n";
    let given = format!("{OUR_TABLE}{BOTH_ORDERS}{orders}");
    let none = given.replace("flag ", "# ");
    for form in ["--strict", "--csv"] {
        let [given, none] = [&given, &none].map(|lines| rehearse(LIST, lines, &[form]));
        assert_eq!(given.status, 0, "{}", given.out);
        assert_eq!(given.out, none.out);
    }
}

const ROW_IN_JSON: &str = r#"{"flag":5,"stock_moves":1,"shortage_in_cash":1,"rate_used":1,"amount_used":0,"shanghai":1,"priced":1,"in_use":1}"#;

#[test]
fn json_has_the_tables_that_were_given() {
    let second = "accounts 2\nflag 5 1 0 1 0 1 1 1\nopen\n";
    let ran = rehearse(
        &piloted(),
        &format!("{STOCK}accounts 2\nopen\n{second}"),
        &["--json"],
    );
    let table = r#""flag_table":[{"flag":0,"stock_moves":1,"shortage_in_cash":0,"rate_used":0,"amount_used":0,"shanghai":1,"priced":1,"in_use":1},"#;
    let (list, entries) = ran.out.split_once("\"entries\":").expect("the entries");
    assert!(list.contains(table) && list.contains(ROW_IN_JSON), "{list}");
    let entries: Vec<&str> = entries
        .lines()
        .filter(|line| line.contains("\"open\""))
        .collect();
    let start = format!(r#"{{"line":31,"call":"open","answer":"ok",{table}"#);
    assert!(
        entries[0].starts_with(&start) && entries[0].contains(ROW_IN_JSON),
        "{}",
        ran.out
    );
    let second = ROW_IN_JSON.replace("\"shortage_in_cash\":1", "\"shortage_in_cash\":0");
    assert!(entries[1].contains(&second), "{}", entries[1]);
    let without = rehearse(LIST, "accounts 2\nopen\n", &["--json"]);
    assert!(without
        .out
        .contains("{\"line\":30,\"call\":\"open\",\"answer\":\"ok\"}"));
    assert!(!without.out.contains("flag_table"), "{}", without.out);
}

#[test]
fn a_page_shows_the_table_of_each_opening() {
    let second = "accounts 2\nflag 5 1 0 1 0 1 1 1\nopen\naccounts 2\nflag 5 0 0 0 0 1 1 1\nopen\n";
    let page = rehearse(
        &piloted(),
        &format!("{STOCK}accounts 2\nopen\n{second}"),
        &["--html"],
    )
    .out;
    assert_well_made(&page);
    assert_eq!(page.matches("Flag table of the day").count(), 2);
    let row = |cells: &str| cells.split('|').map(str::to_string).collect::<Vec<_>>();
    let rows = rows(&page);
    for (cells, count) in [
        (
            "Flag|Stock moves|Shortage in cash|Rate used|Amount used|Shanghai|Priced|In use",
            2,
        ),
        ("3|no|no|yes|yes|no|yes|yes", 2),
        ("5|yes|yes|yes|no|yes|yes|yes", 1),
        ("5|yes|no|yes|no|yes|yes|yes", 1),
        ("9|||||||no", 2),
    ] {
        assert_eq!(
            rows.iter().filter(|each| **each == row(cells)).count(),
            count,
            "{cells}"
        );
    }
    let refused = "refused 21, place 5the flag table breaks its rules at flag 5: \
        no stock moves, but no amount is used (the flag table breaks its rules)";
    assert!(text(&page).contains(refused), "{}", text(&page));
    let without = rehearse(LIST, "accounts 2\nopen\n", &["--html"]).out;
    assert!(!without.contains("Flag table"));
}

#[test]
fn positions_are_reconciled_under_the_table() {
    let day = format!("{}{STOCK}{OPENING}create 1 1000000\n", piloted());
    let day = scratch("day.txt", day.as_bytes());
    let positions = day.with_file_name("positions.csv");
    std::fs::write(&positions, "1,510300,1000000\n1,cash,715200\n").expect("written");
    let files = [&day, &positions].map(|path| path.to_str().expect("a path"));
    let ran = run(&["reconcile", files[0], files[1]]);
    let expected =
        "2 positions given, 2 agree, 0 differ; posted and book agree after 1 order or trade\n";
    assert_eq!((ran.status, ran.out.as_str()), (0, expected), "{}", ran.err);
}
