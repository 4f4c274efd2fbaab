//! The list of the paper's day and an opening on it, for tests.

use roffelaine::{Cents, Component, Day, Fund, Head, Holdings, List, Money, Rate, Switch, Units};

/// The lines of two components, of the unit and of cash.
pub const SPDB: usize = 2;
pub const CMB: usize = 3;
pub const UNIT: usize = 5;
pub const CASH: usize = 6;

pub fn list() -> List<'static> {
    let fund = Fund {
        first_code: 510_300,
        basket_size: Units(1_000_000),
        max_cash_ratio: Rate(5_000),
        switch: Switch::Both,
        estimated_cash: Cents(-33_122),
        ..Fund::default()
    };
    let component = |code, quantity, flag, rate, yuan| Component {
        code,
        quantity,
        flag,
        premium: Rate(rate),
        discount: Rate(rate),
        amount: Money::from_yuan(yuan),
    };
    List {
        letters: b"510300",
        head: Head {
            fund,
            ..Head::default()
        },
        components: vec![
            component(1, 8_000, 3, 10_000, 96_000),
            component(2, 1_000, 4, 0, 8_000),
            component(600_000, 5_200, 1, 10_000, 0),
            component(600_036, 3_000, 0, 0, 0),
            component(600_519, 100, 2, 0, 150_000),
        ],
        names: Vec::new(),
    }
}

/// The fund, account 1 that can create a basket, and account 2 with units.
pub fn holdings() -> Vec<Holdings> {
    let held = |yuan, lines: [u64; 6]| Holdings {
        cash: Money::from_yuan(yuan),
        lines: lines.to_vec(),
    };
    vec![
        held(1_000_000, [0, 0, 20_000, 10_000, 0, 0]),
        held(500_000, [0, 0, 3_072, 3_000, 0, 0]),
        held(100_000, [0, 0, 0, 0, 0, 2_000_000]),
    ]
}

/// The open day, its prices set.
pub fn day() -> Day {
    let list = list();
    let opened = Day::open(&list.head.fund, &list.components, &holdings());
    let mut day = opened.expect("an open day");
    for (line, yuan) in [(0, 12), (SPDB, 10), (CMB, 40)] {
        let set = day.set_price(line, Money::from_yuan(yuan));
        set.expect("a price");
    }
    day
}
