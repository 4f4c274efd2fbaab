//! The page of a rehearsal: its markup, its figures, and how a browser shows
//! it.

#[path = "page/browser.rs"]
mod browser;
#[path = "page/days.rs"]
mod days;
#[path = "page/markup.rs"]
mod markup;

use days::{example, example_with_limits, large, page, printed, rehearse, ODD_NAME};
use markup::{assert_well_made, ids, rows, text};

/// A row of cells, parted by bars.
fn row(cells: &str) -> Vec<String> {
    cells
        .split('|')
        .map(|cell| cell.trim().to_string())
        .collect()
}

/// The rows of records: those that say which one of how many they are.
fn record_rows(page: &str) -> Vec<Vec<String>> {
    let is_record = |row: &Vec<String>| row[0].contains(" of ");
    rows(page).into_iter().filter(is_record).collect()
}

#[test]
fn pages_are_well_made_and_need_nothing_else() {
    for (name, day) in [("made.day", example()), ("large.day", large())] {
        let page = page(name, day);
        assert_well_made(&page);
        for part in ["lang=\"en\"", "charset=\"utf-8\"", "name=\"viewport\""] {
            assert!(page.contains(part), "{part}");
        }
        for outside in ["http", "src=", "<link", "<script", "url(", "@import"] {
            assert!(!page.contains(outside), "{outside}");
        }
    }
}

#[test]
fn every_line_that_says_something_is_there_in_order() {
    let day = example();
    let page = page("lines.day", &day);
    let lines = printed(rehearse("lines.day", &day, &["--json"]));
    let said = lines.split("{\"line\":").skip(1);
    let said = said.map(|entry| entry.split(',').next().unwrap_or_default());
    let said: Vec<String> = said.map(|line| format!("l{line}")).collect();
    let is_line = |id: &String| id.starts_with('l') && id[1..].parse::<u64>().is_ok();
    let shown: Vec<String> = ids(&page).into_iter().filter(is_line).collect();
    assert_eq!(shown, said);
    assert_eq!(shown.len(), 30 + 1 + 6 + 1 + 2);
    let parts: Vec<String> = ids(&page).into_iter().filter(|id| !is_line(id)).collect();
    assert_eq!(parts, ["calls", "positions", "limits", "totals"]);
}

#[test]
fn records_are_those_of_the_table() {
    for (name, day) in [("records.day", example()), ("more.day", large())] {
        let shown = record_rows(&page(name, &day));
        let table = printed(rehearse(name, &day, &["--csv"]));
        let table: Vec<&str> = table.lines().skip(1).collect();
        assert_eq!(shown.len(), table.len());
        for (shown, record) in shown.iter().zip(table) {
            let fields: Vec<&str> = record.split(',').collect();
            let [_, _, _, seq, of, code, _, side, quantity, price, amount] = fields[..] else {
                panic!("{record}");
            };
            let shown = shown.iter().map(|cell| cell.replace(',', ""));
            let shown: Vec<String> = shown.collect();
            let [first, shown_code, _, shown_side, figures @ ..] = &shown[..] else {
                panic!("{shown:?}");
            };
            assert_eq!(*first, format!("{seq} of {of}"));
            assert_eq!([shown_code, shown_side], [code, side]);
            assert_eq!(figures[..3], [quantity, price, amount]);
        }
    }
}

#[test]
fn records_have_running_totals() {
    let rows = record_rows(&page("running.day", example()));
    let first_creation = [
        "1 of 8 | 510300 | units          | B | 1,000,000 |   0.000 |       0.000 |             |     1,000,000 | units",
        "2 of 8 | 600000 | SPDB           | S |     3,072 |   0.000 |       0.000 |             |             0 | shares",
        "3 of 8 | 600036 | <b>&\"'x       | S |     3,000 |   0.000 |       0.000 |             |         3,000 | shares",
        "4 of 8 | 510305 | other cash     | B | 1,000,000 |   0.113 | 113,000.000 | 113,000.000 | 1,887,000.000 | yuan",
        "5 of 8 | 510305 | other cash     | B |         1 | 600.000 |     600.000 | 113,600.000 | 1,886,400.000 | yuan",
        "6 of 8 | 510302 | Shanghai cash  | B | 1,000,000 |   0.173 | 173,000.000 | 286,600.000 | 1,713,400.000 | yuan",
        "7 of 8 | 510302 | Shanghai cash  | B |         1 | 408.000 |     408.000 | 287,008.000 | 1,712,992.000 | yuan",
        "8 of 8 | 510301 | units by order | B | 1,000,000 |   0.000 |       0.000 |             |     1,000,000 | units",
    ];
    for (shown, expected) in rows.iter().zip(first_creation) {
        assert_eq!(*shown, row(expected));
    }
    let redemption_of_3 = [
        "1 of 8 | 510300 | units      | S | 2,000,000 | 0.000 |       0.000 |             |       400,000 | units",
        "2 of 8 | 600000 | SPDB       | B |    10,400 | 0.000 |       0.000 |             |        10,400 | shares",
        "3 of 8 | 600036 | <b>&\"'x   | B |     6,000 | 0.000 |       0.000 |             |         9,000 | shares",
        "4 of 8 | 510305 | other cash | S | 1,000,000 | 0.188 | 188,000.000 | 188,000.000 |   917,600.000 | yuan",
    ];
    for (shown, expected) in rows[16..].iter().zip(redemption_of_3) {
        assert_eq!(*shown, row(expected));
    }
}

#[test]
fn calls_are_in_words() {
    let day = example();
    let page = page("words.day", &day);
    let text = text(&page);
    for words in [
        "52 value  0.4257 yuan for a unit",
        "55 create account 1, 1,000,000 units (1 basket) accepted",
        "8 records, account 1 pays 287,008.000 yuan",
        "58 trade 400,000 of 510300 units at 0.426 yuan, account 1 sells to account 3 accepted",
        "8 records, account 3 gets 488,800.000 yuan",
        "74 redeem account 2, 1,000,000 units (1 basket), room for 3 records refused 16, place 0",
        "77 create account 2, 1,000,000 units (1 basket) refused 9, place 3",
        "3000 got today cannot be handed in today (short of stock or units)",
        "account 0 (the fund) sells to account 2 refused 8, place 0",
        "88 create account 3, 1,500,000 units (1 basket and 500,000 units) refused 11, place 0",
        "89 sell 600000 100 not understood",
        "96 expect cash 1 1567740 met",
        "97 expect cash 1 5 not met",
        "account 1 has 1567740.000 yuan",
    ] {
        assert!(text.contains(words), "{words}");
    }
    let prices = [
        "49|price|000001|PAB|12.000",
        "50|price|600000|SPDB|10.000",
        "51|price|600036|<b>&\"'x|40.000",
    ];
    for price in prices {
        assert!(rows(&page).contains(&row(price)), "{price}");
    }
}

#[test]
fn the_head_says_what_to_look_at() {
    let page = page("head.day", example());
    let text = text(&page);
    for words in [
        "ETF510300 on 2025-06-30",
        "ETF510300, first code 510300",
        "1,000,000 units",
        "creation and redemption",
        "in line 46",
        "30: 14 accepted, 16 refused",
        "1 of 2 met",
    ] {
        assert!(text.contains(words), "{words}");
    }
    let banner = page
        .split("<div class=\"banner\">")
        .nth(1)
        .expect("a banner");
    assert!(banner.contains("1 line not understood</strong>, in line <a href=\"#l89\">89</a>"));
    assert!(banner.contains("1 expectation not met</strong>, in line <a href=\"#l97\">97</a>"));
    let clean = example()
        .replace("sell 600000 100\n", "")
        .replace("expect cash 1 5\n", "");
    let clean = days::page("clean.day", clean);
    assert!(!clean.contains("class=\"banner\""));
}

#[test]
fn positions_and_totals_stand_at_the_end() {
    let page = page("end.day", example());
    let (_, end) = page
        .split_once("<section id=\"positions\">")
        .expect("positions");
    let end = format!("<!DOCTYPE html><section>{end}");
    let (rows, text) = (rows(&end), text(&end));
    assert!(text.contains("The fund (account 0)Cash 317,408.000 yuan, created 0 units"));
    assert!(text.contains("Account 2Cash 1,796,452.500 yuan, created 0 units, redeemed 1,000,000"));
    for expected in [
        "600000|SPDB|12,672|0|0|12,672",
        "510300|units|0|0|1,600,000|1,600,000",
        "600000|SPDB|4,800|0|5,200|10,000",
        "600036|<b>&\"'x|3,000|0|6,000|9,000",
        "000001|PAB|0|0|0|0",
        "600000|SPDB|33,072|29,072|29,072|33,072",
        "510300|units|3,500,000|2,400,000|3,400,000|2,500,000",
        "cash|yuan|4,900,000.500|1,506,260.000|1,506,260.000|4,900,000.500",
    ] {
        assert!(rows.contains(&row(expected)), "{expected}");
    }
    assert!(text.contains("every row balances"));
}

#[test]
fn limits_are_bars() {
    let page = page("limits.day", example_with_limits());
    assert_well_made(&page);
    let bars = [
        "all accounts | 2,000,000 | 8,000,000 | 6,000,000 |  25.0",
        "all accounts | 3,000,000 | 4,000,000 | 1,000,000 |  75.0",
        "account 1    | 2,000,000 | 2,000,000 |         0 | 100.0",
        "account 2    | 1,000,000 | 2,000,000 | 1,000,000 |  50.0",
        "account 3    | 2,000,000 | 2,000,000 |         0 | 100.0",
        "all accounts |         0 | 5,000,000 | 5,000,000 |   0.0",
        "all accounts | 1,000,000 | 4,000,000 | 3,000,000 |  25.0",
        "account 1    | 2,000,000 | 3,000,000 | 1,000,000 |  66.6",
    ];
    let shown: Vec<&str> = page.split("role=\"img\" aria-label=\"").skip(1).collect();
    assert_eq!(shown.len(), bars.len());
    for (shown, bar) in shown.iter().zip(bars.map(row)) {
        let [who, used, limit, left, part] = &bar[..] else {
            panic!("{bar:?}");
        };
        let words = format!("{used} of {limit} units used, {left} left");
        let drawn = format!("<div style=\"width:{part}%\"></div></div><span>{words}</span>");
        let start = format!("{who}: {words}, {part} %\">{drawn}");
        assert!(shown.starts_with(&start), "{start}");
    }
    assert!(!page.contains("<h3>NetRedemptionLimitPerUser"));
}

#[test]
fn what_comes_from_files_is_no_markup() {
    let name = "a<&\">'.day";
    let day = example() + "<script>alert(1)</script> & \"x\"\n\u{1}\u{202e}\n";
    let shown = page(name, &day);
    assert_well_made(&shown);
    assert!(shown.contains("a&lt;&amp;&quot;&gt;&#39;.day</title>"));
    assert!(shown.contains("a&lt;&amp;&quot;&gt;&#39;.day</code>"));
    assert!(shown.contains("&lt;script&gt;alert(1)&lt;/script&gt; &amp; &quot;x&quot;"));
    assert!(shown.contains("<td class=\"t\">&lt;b&gt;&amp;&quot;&#39;x</td>"));
    assert!(!shown.contains("<b>&") && !shown.contains('\u{202e}'));
    let mut bytes = day.replace(ODD_NAME, "########").into_bytes();
    let at = bytes.windows(8).position(|part| part == b"########");
    let at = at.expect("the name");
    bytes[at..at + 8].copy_from_slice(b"\xc6\xbd\xb0\xb2<i>\xff");
    let shown = page("bytes.day", bytes);
    assert_well_made(&shown);
    assert!(!shown.contains("<i>"));
    let long = example() + &"x".repeat(100_000);
    assert!(page("long.day", long).len() < 60_000);
}

#[test]
fn a_list_that_is_refused_has_a_page() {
    let output = rehearse("re<fused.day", "no list\r\n", &["--html"]);
    assert_eq!(output.status.code(), Some(1));
    let said = String::from_utf8_lossy(&output.stderr).into_owned();
    assert!(said.starts_with("list refused 18 0: "), "{said}");
    let page = printed(output);
    assert_well_made(&page);
    assert!(page.contains("<h1>The list is refused</h1>"));
    assert!(page.contains("re&lt;fused.day</code>"));
    assert!(page.contains("<strong>Refused 18, place 0:</strong>"));
}

#[test]
fn a_day_that_is_not_opened_and_one_that_is_opened_twice_have_pages() {
    let day = example();
    let (list, lines) = day.split_once("ENDENDEND\r\n").expect("a list");
    let list = format!("{list}ENDENDEND\r\n");
    let empty = page("empty.day", &list);
    assert_well_made(&empty);
    assert!(empty.contains("The file has no lines behind its list."));
    assert_eq!(empty.matches("No day was opened.").count(), 3);
    let lines = lines.replace("expect cash 1 5\n", "");
    let twice = page("twice.day", format!("{list}{lines}{lines}"));
    assert_well_made(&twice);
    assert!(twice.contains("positions, limits and totals are those since line 114"));
    let records = record_rows(&twice);
    let (first, second) = records.split_at(records.len() / 2);
    assert_eq!(first, second);
}

#[test]
fn a_browser_shows_it_at_both_widths() {
    let Some(browser) = browser::installed() else {
        println!("skipped: no Chromium is installed");
        return;
    };
    let days = [
        ("seen", example(), ODD_NAME.trim(), 87),
        ("seen-large", large(), "N 59", 0),
    ];
    for (name, day, text, rows) in days {
        let page = page(&format!("{name}.day"), day);
        let seen = browser::look(browser, name, &page, text);
        assert_eq!(seen.len(), 2);
        for seen in &seen {
            assert!(seen.needed <= seen.width, "{name}: {seen:?}");
            assert_eq!((seen.outside, seen.flat), (0, 0), "{name}: {seen:?}");
            assert!(seen.is_read, "{name}: {seen:?}");
            assert!(rows == 0 || seen.rows == rows, "{name}: {seen:?}");
        }
        let (narrow, wide) = (&seen[0], &seen[1]);
        assert_eq!((narrow.width, wide.width), (390, 1280));
        assert!(narrow.scrolling > 0, "{name}: {narrow:?}");
        assert!(rows == 0 || wide.scrolling == 0, "{name}: {wide:?}");
    }
}
