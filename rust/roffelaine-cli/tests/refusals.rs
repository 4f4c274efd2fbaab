//! Every refusal is made, and says its reason with figures. What is expected
//! is written by hand from the paper.

mod support;

use std::collections::BTreeSet;
use support::{rehearse, run, scratch, LIST, LIST_LINES};

/// Account 1 as in the paper's cases, and a second holder.
const OPENING: &str = "accounts 3\ncash 0 1000000\nhold 0 600000 100000\nhold 0 600036 100000\n\
    cash 1 1000000\nhold 1 600000 3072\nhold 1 600036 3000\n\
    cash 2 1000\nhold 2 510300 1000000\nopen\n";
const PRICES: &str = "price 000001 12\nprice 600000 10\nprice 600036 40\n";

/// The last answer to these lines.
fn last_answer(list: &str, lines: &str) -> String {
    let ran = rehearse(list, lines, &[]);
    let mut lines = ran.lines().into_iter().rev();
    lines.next().expect("the counts");
    lines.next().expect("an answer").to_string()
}

/// Lines of a day with their list, and what the last one answers.
fn cases() -> Vec<(u64, String, String, &'static str)> {
    let day = |lines: &str| format!("{OPENING}{PRICES}{lines}");
    let same = LIST.to_string();
    let switched = LIST.replace("CreationRedemption=1", "CreationRedemption=3");
    let creation_only = LIST.replace("CreationRedemption=1", "CreationRedemption=2");
    let limited = LIST.replace("NetRedemptionLimit=0", "NetRedemptionLimit=1000000");
    let dear = LIST.replace("CreationRedemptionUnit=1000000", "CreationRedemptionUnit=1");
    let dear = dear.replace("CreationLimitPerUser=2000000", "CreationLimitPerUser=0");
    let poor = OPENING.replace("cash 1 1000000", "cash 1 287007.999");
    let rich = OPENING.replace("hold 2 510300 1000000", "hold 2 510300 9000000");
    let bare = OPENING.replace("hold 0 600036 100000", "hold 0 600036 2999");
    let penniless = OPENING.replace("cash 0 1000000", "cash 0 244399.999");
    let low_premium = LIST.replace("|3|0.10000|0.10000|", "|3|0.05000|0.10000|");
    let low_discount = LIST.replace("|3|0.10000|0.10000|", "|3|0.10000|0.05000|");
    vec![
        (1, same.clone(), "open\n".into(), "open refused 1 0: there is no line `accounts` above"),
        (1, same.clone(), "accounts 1\nopen\n".into(), "open refused 1 0: accounts 1: a day has 2 to 64"),
        (
            3,
            same.clone(),
            "accounts 2\nopen\naccounts 2\nflag 4 0 0 0 0 0 0 0\nopen\n".into(),
            "open refused 3 1: 000002 has flag 4, which is not in use",
        ),
        (
            21,
            same.clone(),
            "accounts 2\nopen\naccounts 2\nflag 5 1 1 0 0 1 1 1\nopen\n".into(),
            "open refused 21 5: the flag table breaks its rules at flag 5: \
             shortage in cash, but no rate is used",
        ),
        (
            4,
            same.clone(),
            "accounts 3\nhold 1 600000 1000000000000000000\nhold 2 600000 1\nopen\n".into(),
            "open refused 4 2: 600000 totals 1000000000000000001, at most 1000000000000000000",
        ),
        (
            4,
            same.clone(),
            "accounts 2\nhold 0 510300 7\nopen\n".into(),
            "open refused 4 5: the fund holds 7 of 510300, it may hold no units",
        ),
        (
            4,
            same.clone(),
            "accounts 2\ncash 0 4000000000000000.000\ncash 1 0.001\nopen\n".into(),
            "open refused 4 6: cash totals 4000000000000000.001, at most 4000000000000000.000",
        ),
        (5, same.clone(), "value\n".into(), "value refused 5 0: no day is open"),
        (6, same.clone(), day("price 510300 1\n"), "price refused 6 0: 510300 is the unit, which has no price"),
        (6, same.clone(), day("price 600001 1\n"), "price refused 6 0: 600001 is no component of the list"),
        (
            6,
            same.clone(),
            day("trade 510301 1 1 1 2\n"),
            "trade refused 6 0: 510301 is neither a component of the list nor the unit 510300",
        ),
        (7, same.clone(), day("price 600000 0\n"), "price refused 7 0: price 0.000: 0.001 to 9999.999"),
        (7, same.clone(), day("trade 600000 0 1 1 2\n"), "trade refused 7 0: quantity 0: 1 to 999999999"),
        (
            7,
            same.clone(),
            day("trade 600000 1 10000 1 2\n"),
            "trade refused 7 0: price 10000.000: 0.001 to 9999.999",
        ),
        (8, same.clone(), day("trade 600000 1 1 0 2\n"), "trade refused 8 0: account 0 is the fund, which never trades"),
        (8, same.clone(), day("trade 600000 1 1 1 3\n"), "trade refused 8 0: account 3: the day has 0 to 2"),
        (8, same.clone(), day("trade 600000 1 1 2 2\n"), "trade refused 8 0: seller and buyer are both account 2"),
        (8, same.clone(), day("create 0 1000000\n"), "create refused 8 0: account 0 is the fund, which makes no orders"),
        (
            9,
            same.clone(),
            day("trade 600000 10 1 1 2\ntrade 600000 11 1 2 1\n"),
            "trade refused 9 0: account 2 has 0 of 600000 to sell, needs 11; 10 bought today cannot be sold today",
        ),
        (
            9,
            same.clone(),
            day("trade 600036 1 1 1 2\ncreate 1 1000000\n"),
            "create refused 9 3: account 1 has 2999 of 600036, needs 3000",
        ),
        (
            9,
            same.clone(),
            day("create 1 1000000\nredeem 1 1000000\n"),
            "redeem refused 9 0: account 1 has 0 units to redeem, needs 1000000; \
             1000000 created today cannot be redeemed today",
        ),
        (
            9,
            same.clone(),
            day("redeem 2 1000000\ncreate 2 1000000\n"),
            "create refused 9 3: account 2 has 0 of 600036, needs 3000; 3000 got today cannot be handed in today",
        ),
        (
            10,
            same.clone(),
            day("trade 600000 101 10 1 2\n"),
            "trade refused 10 0: account 2 has 1000.000 yuan, needs 1010.000",
        ),
        (
            10,
            same.clone(),
            // 113,600 of other and 173,408 of Shanghai cash are due.
            format!("{poor}{PRICES}create 1 1000000\n"),
            "create refused 10 0: account 1 has 287007.999 yuan, needs 287008.000",
        ),
        (
            10,
            low_premium,
            // 96,000 with a premium of 0.05 are 4,800 less than with one of 0.1.
            day("create 1 1000000\n").replace("cash 1 1000000", "cash 1 282207.999"),
            "create refused 10 0: account 1 has 282207.999 yuan, needs 282208.000",
        ),
        (
            11,
            same.clone(),
            day("create 1 1500000\n"),
            "create refused 11 0: units 1500000: 1 to 20 whole baskets of 1000000",
        ),
        (12, switched, day("create 1 1000000\n"), "create refused 12 0: CreationRedemption 3: redemption only"),
        (12, creation_only, day("redeem 2 1000000\n"), "redeem refused 12 0: CreationRedemption 2: creation only"),
        (
            13,
            same.clone(),
            day("create 1 3000000\n"),
            "create refused 13 0: CreationLimitPerUser 2000000, would be 3000000",
        ),
        (
            13,
            limited,
            format!("{rich}{PRICES}redeem 2 1000000\nredeem 2 1000000\n"),
            "redeem refused 13 0: NetRedemptionLimit 1000000, would be 2000000",
        ),
        (14, same.clone(), format!("{OPENING}price 000001 12\nvalue\n"), "value refused 14 0: 600000 has no price"),
        (
            14,
            same.clone(),
            format!("{OPENING}price 000001 12\nprice 600000 10\ncreate 1 1000000\n"),
            "create refused 14 0: stock is missing and there is no value: 600036 has no price",
        ),
        (
            14,
            LIST.replace("EstimateCashComponent=-331.22", "EstimateCashComponent=-9999999.99"),
            day("value\n"),
            "value refused 14 0: the basket is worth less than 0",
        ),
        (14, dear, day("value\n"), "value refused 14 0: the value would be above 999.9999"),
        (
            15,
            same.clone(),
            // 2,129 missing at 10.000; the most is 1,000,000 times 0.4257 times 0.05.
            day("trade 600000 1 1 1 2\ncreate 1 1000000\n"),
            "create refused 15 0: missing stock is worth 21290.000, at most 21285.000 by MaxCashRatio 0.05000",
        ),
        (16, same.clone(), day("create 1 1000000 7\n"), "create refused 16 0: room for 7 records, 8 needed"),
        (16, same.clone(), day("redeem 2 1000000 0\n"), "redeem refused 16 0: room for 0 records, 8 needed"),
        (
            17,
            same.clone(),
            format!("{bare}{PRICES}redeem 2 1000000\n"),
            "redeem refused 17 3: the fund has 2999 of 600036, needs 3000",
        ),
        (
            17,
            same,
            // 86,400 and 8,000 of other cash and 150,000 of Shanghai cash are paid.
            format!("{penniless}{PRICES}redeem 2 1000000\n"),
            "redeem refused 17 5: the fund has 244399.999 yuan, needs 244400.000",
        ),
        (
            17,
            low_discount,
            // 96,000 less a discount of 0.05 are 4,800 more than less one of 0.1.
            day("redeem 2 1000000\n").replace("cash 0 1000000", "cash 0 249199.999"),
            "redeem refused 17 5: the fund has 249199.999 yuan, needs 249200.000",
        ),
    ]
}

#[test]
fn calls_say_why_they_are_refused() {
    for (number, list, lines, expected) in cases() {
        let line = LIST_LINES + lines.lines().count();
        let expected = format!("{line} {expected}");
        assert_eq!(last_answer(&list, &lines), expected, "refusal {number}");
        assert!(expected.contains(&format!(" refused {number} ")));
    }
}

/// The tests of an order alone give its refusal, with the same words.
#[test]
fn tests_alone_say_why_the_order_would_be_refused() {
    let mut made = BTreeSet::new();
    for (number, list, lines, expected) in cases() {
        let (before, last) = lines.trim_end().rsplit_once('\n').unwrap_or(("", &lines));
        if !last.starts_with("create ") && !last.starts_with("redeem ") {
            continue;
        }
        let line = LIST_LINES + lines.lines().count();
        let tests = last_answer(&list, &format!("{before}\ntest {last}\n"));
        assert_eq!(tests, format!("{line} test {expected}"));
        made.insert(number);
    }
    assert_eq!(Vec::from_iter(made), Vec::from_iter(8..=17));
}

/// Lists that are refused, and the number.
fn lists() -> Vec<(u64, String, &'static str)> {
    vec![
        (
            2,
            LIST.replace("=0.05000", "=1.00001"),
            "4:14 MaxCashRatio \"1.00001\"",
        ),
        (
            2,
            LIST.replace("PerUser=2000000", "PerUser=2000001"),
            "16:22 CreationLimitPerUser \"2000001\"",
        ),
        (3, LIST.replace("600519|", "600036|"), "27:1 "),
        (
            3,
            LIST.replace("|0.10000|   96000", "|1.00001|   96000"),
            "23:36 discount \"1.00001\": at most 1.00000",
        ),
        (18, LIST.replace("Publish", "Publisch"), "5:1 Publish "),
        (18, LIST.replace("\r\n", "\n"), "1:"),
        (
            18,
            // A list from before there was a discount.
            LIST.replace("|0.10000|0.10000|", "|0.10000|")
                .replace("|       |       |", "|       |"),
            "23:36 component line \"000001|PAB     |    8000|3|0.10000|   96000.000|\": \
             the line is 48 bytes, a component line has 56; it is a line of an old list, \
             without the discount",
        ),
        (
            19,
            LIST.replace("=0.05000", "=0.5"),
            "4:14 MaxCashRatio \"0.5\": five decimals, as 0.50000",
        ),
        (
            19,
            LIST.replace("3000|0|       |       |", "3000|0|       |0.00000|"),
            "26:36 discount \"0.00000\": flag 0 uses no discount: blank",
        ),
        (
            20,
            LIST.replace("Recordnum=5", "Recordnum=6"),
            "7:11 Recordnum \"6\"",
        ),
    ]
}

#[test]
fn lists_say_why_they_are_refused() {
    for (number, list, expected) in lists() {
        let file = scratch("list.txt", list.as_bytes());
        let file = file.to_str().expect("a path");
        let ran = run(&["list", file]);
        let start = format!("list refused {number} ");
        assert!(ran.out.starts_with(&start), "{number}: {}", ran.out);
        let reason = format!(": {file}:{expected}");
        assert!(ran.out.contains(&reason), "{number}: {}", ran.out);
        assert_eq!(ran.status, 1);
        let rehearsed = run(&["rehearse", file]);
        assert_eq!((rehearsed.status, rehearsed.out), (1, ran.out), "{number}");
    }
}

#[test]
fn every_refusal_is_made() {
    let calls = cases().into_iter().map(|case| case.0);
    let lists = lists().into_iter().map(|case| case.0);
    let mut made: Vec<u64> = calls.chain(lists).collect();
    made.sort_unstable();
    made.dedup();
    assert_eq!(made, Vec::from_iter(1..=21));
}

#[test]
fn the_table_has_them_all() {
    let ran = run(&["refusals"]);
    assert_eq!(ran.status, 0);
    assert_eq!(ran.lines().len(), 21);
    assert_eq!(
        ran.lines()[8],
        " 9 short of stock or units (place: the component, where a creation is short)"
    );
    assert_eq!(
        ran.lines()[20],
        "21 the flag table breaks its rules (place: the lowest flag at fault)"
    );
}
