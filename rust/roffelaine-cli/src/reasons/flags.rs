//! What is wrong with a flag table, and with components under it.

use roffelaine::FlagColumn::{
    AmountUsed, InUse, Priced, RateUsed, Shanghai, ShortageInCash, StockMoves,
};
use roffelaine::{FlagColumn, FlagTable, List, Refusal};

/// Why a flag table is refused at a flag: all that breaks the rules in its row.
pub fn table(table: &FlagTable, flag: usize) -> String {
    let row = table.row(flag);
    let numbers = FlagColumn::ALL.into_iter().zip(row);
    let wrong = numbers.filter(|&(_, number)| number > 1);
    let mut faults: Vec<String> = wrong
        .map(|(column, number)| format!("{} {number}, which is not 0 or 1", column.words()))
        .collect();
    if faults.is_empty() && row[InUse as usize] == 1 {
        let broken = broken_rules(|column| row[column as usize] == 1);
        faults.extend(broken.into_iter().map(str::to_string));
    }
    let words = Refusal::FlagTable { place: flag as u64 }.words();
    format!("{words} at flag {flag}: {}", faults.join("; "))
}

/// The rules that a row in use breaks.
fn broken_rules(is: impl Fn(FlagColumn) -> bool) -> Vec<&'static str> {
    let rules = [
        (
            is(StockMoves) && !is(Shanghai),
            "stock moves, but it is not Shanghai",
        ),
        (
            is(StockMoves) && !is(Priced),
            "stock moves, but it is not priced",
        ),
        (
            is(StockMoves) && is(AmountUsed),
            "stock moves, but an amount is used",
        ),
        (
            !is(StockMoves) && !is(AmountUsed),
            "no stock moves, but no amount is used",
        ),
        (
            is(ShortageInCash) && !is(StockMoves),
            "shortage in cash, but no stock moves",
        ),
        (
            is(ShortageInCash) && !is(RateUsed),
            "shortage in cash, but no rate is used",
        ),
    ];
    let broken = rules.into_iter().filter(|(is_broken, _)| *is_broken);
    broken.map(|(_, words)| words).collect()
}

/// Why a component of a list that was read is refused under the table of a day;
/// none where its flag is not the cause.
pub fn component(list: &List<'_>, table: &FlagTable, line: usize) -> Option<String> {
    let component = list.components.get(line)?;
    let (code, flag) = (component.code, component.flag);
    if !table.says(flag, InUse) {
        return Some(format!("{code:06} has flag {flag}, which is not in use"));
    }
    let fields = [
        ("a premium", component.premium.0, RateUsed),
        ("a discount", component.discount.0, RateUsed),
        ("an amount", component.amount.0, AmountUsed),
    ];
    let mut fields = fields.into_iter();
    let (field, ..) = fields.find(|&(_, number, used)| number > 0 && !table.says(flag, used))?;
    Some(format!(
        "{code:06} has {field}, which flag {flag} does not use"
    ))
}
