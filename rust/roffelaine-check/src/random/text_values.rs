//! Bytes to put in list texts, for their faults.

/// Bytes that matter to the text's form.
pub(super) const MARKS: &[u8] = b"\r\n|=.-0 19aZ[]\x00\xFF";

/// Values for a head line by its place: ill-written ones, and well-written
/// ones at the ends of its range and past them.
pub(super) fn head_values(line: usize) -> &'static [&'static str] {
    match line {
        0 => FUND_CODES,
        2 => RATIOS,
        6 | 9 | 10 => MONEY,
        7 | 8 => DATES,
        11 => NET_VALUES,
        _ => WHOLES,
    }
}

/// Values that no head line has.
pub(super) const NO_VALUES: &[&str] = &[
    "", " ", "-", ".", "+1", " 1", "1 ", "1|2", "a", "0x1", "1\r2", "1\n2", "--1.00", "1,00",
    "1.0a",
];

const FUND_CODES: &[&str] = &[
    "000000", "000001", "999995", "999996", "999999", "1000000", "00001", "51030a", " 10301",
    "-10301",
];

const WHOLES: &[&str] = &[
    "0",
    "1",
    "2",
    "3",
    "4",
    "9",
    "10",
    "00",
    "01",
    "005",
    "-0",
    "-1",
    "300",
    "301",
    "99999999",
    "100000000",
    "999999999999",
    "1000000000000",
    "1.00",
    "18446744073709551615",
    "18446744073709551616",
    "99999999999999999999999999999999999999",
    "340282366920938463463374607431768211456",
];

const RATIOS: &[&str] = &[
    "0.00000",
    "1.00000",
    "1.00001",
    "12.00000",
    "0.0000",
    "0.000000",
    "00.00000",
    ".00001",
    "1",
    "-0.00001",
    "18446744073709551616.00000",
    "184467440737095.51616",
];

const MONEY: &[&str] = &[
    "0.00",
    "-0.00",
    "-0.01",
    "-0.10",
    "0.0",
    "0.000",
    ".00",
    "-.01",
    "1.",
    "01.00",
    "-01.00",
    "9999999.99",
    "-9999999.99",
    "-10000000.00",
    "99999999.99",
    "100000000.00",
    "999999999.99",
    "1000000000.00",
    "18446744073709551616.00",
    "92233720368547758.08",
    "-92233720368547758.08",
    "-99999999999999999999999999.00",
];

const DATES: &[&str] = &[
    "20240229",
    "20230229",
    "19000229",
    "20000229",
    "00000101",
    "00010101",
    "99991231",
    "20250631",
    "20251301",
    "20250100",
    "20250001",
    "2025063",
    "202506300",
    "2025063O",
    "-2025063",
];

const NET_VALUES: &[&str] = &[
    "0.0000",
    "999.9999",
    "1000.0000",
    "0.000",
    "0.00000",
    "00.0000",
    "-0.0000",
    "-1.0000",
    "99999999999999999999.0000",
    "1844674407370955.1616",
];

/// Start of each field of a component line, and bytes of its width to put
/// there: ill-written, past the range, or right for another flag.
pub(super) const COMPONENT_VALUES: &[(usize, &[&[u8]])] = &[
    (0, CODES),
    (7, NAMES),
    (16, QUANTITIES),
    (25, FLAGS),
    (27, RATES),
    (35, RATES),
    (43, AMOUNTS),
];

const CODES: &[&[u8]] = &[
    b"00000a", b" 00001", b"      ", b"1|0000", b"-00001", b"000000", b"999999",
];

const NAMES: &[&[u8]] = &[
    b"a|bcdefg",
    b"abc\rdefg",
    b"abc\ndefg",
    b"abcdefg|",
    b"\r       ",
    b"       \r",
];

const QUANTITIES: &[&[u8]] = &[
    b"        ",
    b"0       ",
    b"00000001",
    b"      00",
    b"     1 2",
    b"    1.00",
    b"      -1",
    b"   1|   ",
    b"       0",
    b"99999999",
    b"      +1",
    b"\t      1",
];

const FLAGS: &[&[u8]] = &[
    b"5", b"6", b"7", b"8", b"9", b"a", b" ", b"-", b"|", b"0", b"1", b"2", b"3", b"4",
];

const RATES: &[&[u8]] = &[
    b"       ", b"1.00001", b"9.99999", b" .10000", b"0.1000 ", b"00.1000", b" 0.1000", b"0,10000",
    b"0.10000", b"1.00000", b"0.1000a", b"-.10000", b"      0", b"  |    ", b"0.00000",
];

const AMOUNTS: &[&[u8]] = &[
    b"            ",
    b"       0.000",
    b"99999999.999",
    b"0.000       ",
    b"      00.000",
    b"        .000",
    b"       0.00 ",
    b"        0.00",
    b"      -1.000",
    b"       1,000",
    b"   1|  0.000",
    b"           0",
];

/// First lines, all but one of them wrong.
pub(super) const FIRST_LINES: &[&[u8]] = &[
    b"",
    b"[ETF]",
    b"[ETF123456789]",
    b"[ETF12345678]",
    b"[etf50]",
    b"[ETF50",
    b"ETF50]",
    b"[ETF50] ",
    b" [ETF50]",
    b"[ETF 50]",
    b"[ETF5_0]",
    b"[ETF50]]",
    b"[ETF\xB5]",
    b"[Etf50]",
    b"[ETF50\r]",
];
