//! Days that are rehearsed, and the command that does it.

use std::fmt::Write;
use std::path::PathBuf;
use std::process::{Command, Output};

/// A name of eight bytes that is no markup.
pub const ODD_NAME: &str = "<b>&\"'x ";

/// The paper's day, with a name that must be escaped, totals, and expectations
/// of which the last one is not met.
pub fn example() -> String {
    let day = include_str!("../days/page.day");
    let day = day.replace("CMB     ", ODD_NAME);
    day + "totals\nexpect cash 1 1567740\nexpect cash 1 5\n"
}

/// The same, with all limits in the list.
pub fn example_with_limits() -> String {
    let limits = [
        ("CreationLimit=0", "CreationLimit=8000000"),
        ("\nRedemptionLimit=0", "\nRedemptionLimit=4000000"),
        ("RedemptionLimitPerUser=0", "RedemptionLimitPerUser=2000000"),
        ("NetCreationLimit=0", "NetCreationLimit=5000000"),
        ("NetRedemptionLimit=0", "NetRedemptionLimit=4000000"),
        (
            "NetCreationLimitPerUser=0",
            "NetCreationLimitPerUser=3000000",
        ),
    ];
    let day = example();
    limits
        .iter()
        .fold(day, |day, (none, some)| day.replacen(none, some, 1))
}

const COMPONENTS: u64 = 60;
const ACCOUNTS: u64 = 12;

/// A day with a large basket, some hundred calls and large figures.
pub fn large() -> String {
    let mut day = String::new();
    let head = example();
    let (head, _) = head.split_once("TAGTAG").expect("a list");
    day += &head.replace("Recordnum=5", &format!("Recordnum={COMPONENTS}"));
    day += "TAGTAG\r\n";
    for code in codes() {
        let part = code % 1_000;
        let _ = write!(
            day,
            "{code}|N {part:<6}|{:>8}|0|       |       |            |\r\n",
            99_000
        );
    }
    let _ = write!(day, "ENDENDEND\r\naccounts {ACCOUNTS}\n");
    for account in 0..ACCOUNTS {
        let _ = writeln!(day, "cash {account} 99999999999.123");
        for code in codes() {
            let _ = writeln!(day, "hold {account} {code} 999999999");
        }
        if account > 0 {
            let _ = writeln!(day, "hold {account} 510300 9000000000");
        }
    }
    day += "open\n";
    for code in codes() {
        let _ = writeln!(day, "price {code} 1234.567");
    }
    (0..300).for_each(|step| day += &call(step));
    day
}

fn codes() -> impl Iterator<Item = u64> {
    600_000..600_000 + COMPONENTS
}

fn call(step: u64) -> String {
    let (account, code) = (1 + step % (ACCOUNTS - 1), 600_000 + step % COMPONENTS);
    let other = 1 + (step + 1) % (ACCOUNTS - 1);
    match step % 6 {
        0 => format!("redeem {account} 20000000\nexpect ok\n"),
        1 => format!("trade {code} 999 1234.567 {account} {other}\nexpect ok\n"),
        2 => format!("price {code} 9999.999\n"),
        3 => format!("create {account} 2000000\n"),
        4 => format!("trade {code} 0 1 {account} {other}\n"),
        _ => format!("trade 510300 100000 4.321 {account} {other}\n"),
    }
}

/// Where the test may write.
pub fn place(name: &str) -> PathBuf {
    let place = PathBuf::from(env!("CARGO_TARGET_TMPDIR")).join("page");
    std::fs::create_dir_all(&place).expect("a directory for the test");
    place.join(name)
}

/// Rehearses a day that is written to a file of a name.
pub fn rehearse(name: &str, day: impl AsRef<[u8]>, options: &[&str]) -> Output {
    let file = place(name);
    std::fs::write(&file, day).expect("the day is written");
    let mut command = Command::new(env!("CARGO_BIN_EXE_roffelaine"));
    command.arg("rehearse").arg(&file).args(options);
    command.output().expect("the command runs")
}

/// The page of a day.
pub fn page(name: &str, day: impl AsRef<[u8]>) -> String {
    printed(rehearse(name, day, &["--html"]))
}

/// What a command printed.
pub fn printed(output: Output) -> String {
    String::from_utf8(output.stdout).expect("a page in UTF-8")
}
