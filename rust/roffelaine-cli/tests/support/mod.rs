//! Shared by the tests: the command, run on files of a scratch folder.
#![allow(dead_code)]

use std::path::{Path, PathBuf};
use std::process::{Command, Output, Stdio};
use std::sync::atomic::{AtomicUsize, Ordering};

/// The paper's list, "A day to compare with", with two limits.
pub const LIST: &str = concat!(
    "[ETF510300]\r\n",
    "Fundid1=510301\r\n",
    "CreationRedemptionUnit=1000000\r\n",
    "MaxCashRatio=0.05000\r\n",
    "Publish=1\r\n",
    "CreationRedemption=1\r\n",
    "Recordnum=5\r\n",
    "EstimateCashComponent=-331.22\r\n",
    "TradingDay=20250630\r\n",
    "PreTradingDay=20250627\r\n",
    "CashComponent=-329.58\r\n",
    "NAVperCU=425668.78\r\n",
    "NAV=0.4257\r\n",
    "CreationLimit=0\r\n",
    "RedemptionLimit=0\r\n",
    "CreationLimitPerUser=2000000\r\n",
    "RedemptionLimitPerUser=0\r\n",
    "NetCreationLimit=0\r\n",
    "NetRedemptionLimit=0\r\n",
    "NetCreationLimitPerUser=0\r\n",
    "NetRedemptionLimitPerUser=0\r\n",
    "TAGTAG\r\n",
    "000001|PAB     |    8000|3|0.10000|0.10000|   96000.000|\r\n",
    "000002|VANKE   |    1000|4|       |       |    8000.000|\r\n",
    "600000|SPDB    |    5200|1|0.10000|0.10000|            |\r\n",
    "600036|CMB     |    3000|0|       |       |            |\r\n",
    "600519|MOUTAI  |     100|2|       |       |  150000.000|\r\n",
    "ENDENDEND\r\n",
);

/// Lines of the list, so that line 1 of a day is this many and one more.
pub const LIST_LINES: usize = 28;

/// A day on which both orders can be made: account 1 of the paper's cases, and
/// account 2 with a basket of units. Behind the list its last price is line 41.
pub const BOTH_ORDERS: &str =
    "accounts 3\ncash 0 1000000\nhold 0 600000 10000\nhold 0 600036 10000\n\
    cash 1 1000000\nhold 1 600000 3072\nhold 1 600036 3000\n\
    cash 2 1000\nhold 2 510300 1000000\nopen\n\
    price 000001 12\nprice 600000 10\nprice 600036 40\n";

/// What the command did.
pub struct Ran {
    pub status: i32,
    pub out: String,
    pub err: String,
}

impl Ran {
    pub fn of(output: &Output) -> Self {
        let text = |bytes: &[u8]| String::from_utf8_lossy(bytes).into_owned();
        Ran {
            status: output.status.code().expect("an exit status"),
            out: text(&output.stdout),
            err: text(&output.stderr),
        }
    }

    pub fn lines(&self) -> Vec<&str> {
        self.out.lines().collect()
    }
}

pub fn command() -> Command {
    let mut command = Command::new(env!("CARGO_BIN_EXE_roffelaine"));
    command.stdin(Stdio::null());
    command
}

pub fn run(words: &[&str]) -> Ran {
    Ran::of(&command().args(words).output().expect("the command runs"))
}

/// A file of its own with these bytes.
pub fn scratch(name: &str, bytes: &[u8]) -> PathBuf {
    static COUNT: AtomicUsize = AtomicUsize::new(0);
    let count = COUNT.fetch_add(1, Ordering::Relaxed);
    let folder = Path::new(env!("CARGO_TARGET_TMPDIR"));
    let folder = folder.join(format!("{}-{count}", std::process::id()));
    std::fs::create_dir_all(&folder).expect("a scratch folder");
    let path = folder.join(name);
    std::fs::write(&path, bytes).expect("a scratch file");
    path
}

/// Rehearses lines behind a list, with options.
pub fn rehearse(list: &str, lines: &str, options: &[&str]) -> Ran {
    let day = scratch("day.txt", format!("{list}{lines}").as_bytes());
    let mut words = vec!["rehearse", day.to_str().expect("a path")];
    words.extend(options);
    run(&words)
}

/// A file of the repository, by its path from the root.
pub fn repository(path: &str) -> PathBuf {
    Path::new(env!("CARGO_MANIFEST_DIR"))
        .join("../..")
        .join(path)
}
