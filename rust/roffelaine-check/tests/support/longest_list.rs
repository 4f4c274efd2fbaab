//! The longest list text that the paper allows, written by the model.

use roffelaine_check::model::list::{write, Head, Writing, NAME_BYTES};
use roffelaine_check::model::{range, Component, Fund, MAX_COMPONENTS};

/// Its bytes, added up by hand: the first line with 8 letters 15; of the twenty
/// fields the names 295, the values 180, and 3 more each for "=" and the line's
/// end; TAGTAG 8; 58 for each component; ENDENDEND 11.
pub const LONGEST: usize = 15 + 295 + 180 + 3 * 20 + 8 + 58 * 300 + 11;

/// Each field as long as its range allows, and all components.
pub fn longest_list() -> Vec<u8> {
    let basket_size = *range::BASKET_SIZE.end();
    let fund = Fund {
        first_code: 510_300,
        basket_size,
        max_cash_ratio: range::RATIO_MAX,
        switch: 1,
        estimated_cash: *range::ESTIMATED_CASH.end(),
        limits: [range::LIMIT_MAX / basket_size * basket_size; 8],
    };
    let head = Head {
        fund,
        publish: 1,
        trading_day: 20_250_630,
        pre_trading_day: 20_250_627,
        cash_component: *range::ESTIMATED_CASH.start(),
        nav_per_basket: range::NAV_PER_BASKET_MAX,
        nav: range::NAV_MAX,
    };
    let list = Writing {
        letters: b"ABCDEFGH",
        head,
        count: MAX_COMPONENTS as u64,
        table: &[],
        components: &longest_components(),
        names: &[b'A'; NAME_BYTES * MAX_COMPONENTS],
    };
    let mut text = vec![0; LONGEST];
    let reply = write(&list, &mut text);
    assert_eq!((reply.number, reply.value), (0, LONGEST as u64));
    text
}

fn longest_components() -> Vec<u64> {
    let components = (0..MAX_COMPONENTS as u64).map(|at| Component {
        code: 600_000 + at,
        quantity: range::QUANTITY_MAX,
        flag: 3,
        premium: range::RATE_MAX,
        discount: range::RATE_MAX,
        amount: range::AMOUNT_MAX,
    });
    components.flat_map(|each| each.numbers()).collect()
}
