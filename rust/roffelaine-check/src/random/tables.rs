//! Random flag tables, that keep the rules and that break one.

use super::Rng;
use crate::model::{FlagColumn, FlagRow, FlagTable, FLAGS, FLAG_COLUMNS, TABLE_NUMBERS};

/// A table that keeps the rules and has a flag in use: ours, ours with other rows
/// in places, or quite another, at times with all flags in use.
pub fn sound_table(rng: &mut Rng) -> FlagTable {
    let mut table = FlagTable::OURS;
    match rng.below(8) {
        0..=1 => {}
        2..=3 => {
            for _ in 0..rng.between(1, 3) {
                change_a_row(rng, &mut table);
            }
        }
        4 => table = FlagTable(std::array::from_fn(|_| row_in_use(rng))),
        _ => table = FlagTable(std::array::from_fn(|_| any_row(rng))),
    }
    if flags_in_use(&table).is_empty() {
        table.0[rng.index(FLAGS)] = row_in_use(rng);
    }
    table
}

/// Puts another row that keeps the rules in place of one.
pub(super) fn change_a_row(rng: &mut Rng, table: &mut FlagTable) {
    table.0[rng.index(FLAGS)] = any_row(rng);
}

/// The run to lend for a table: for ours mostly none.
pub(super) fn lent_table(rng: &mut Rng, table: &FlagTable) -> Vec<u64> {
    if *table == FlagTable::OURS && !rng.one_in(3) {
        return Vec::new();
    }
    table.numbers().to_vec()
}

/// The flags that a table has in use.
pub(super) fn flags_in_use(table: &FlagTable) -> Vec<u64> {
    let flags = 0..FLAGS as u64;
    flags
        .filter(|&flag| table.says(flag, FlagColumn::InUse))
        .collect()
}

/// A row that keeps the rules.
fn any_row(rng: &mut Rng) -> FlagRow {
    match rng.below(4) {
        0 => row_not_in_use(rng),
        _ => row_in_use(rng),
    }
}

/// Zeros and ones, which mean nothing.
fn row_not_in_use(rng: &mut Rng) -> FlagRow {
    let mut row = std::array::from_fn(|_| rng.below(2));
    if rng.one_in(3) {
        row = [0; FLAG_COLUMNS];
    }
    row[FlagColumn::InUse as usize] = 0;
    row
}

/// Stock that may or may not be short in cash, or an amount.
fn row_in_use(rng: &mut Rng) -> FlagRow {
    match rng.below(4) {
        0 => [1, 0, rng.below(2), 0, 1, 1, 1],
        1 => [1, 1, 1, 0, 1, 1, 1],
        _ => [0, 0, rng.below(2), 1, rng.below(2), rng.below(2), 1],
    }
}

/// Breaks one rule of a table in any row.
pub(super) fn damage_table(rng: &mut Rng, table: &mut FlagTable) {
    let row = &mut table.0[rng.index(FLAGS)];
    let (rate, free) = (rng.below(2), rng.below(2));
    match rng.below(9) {
        0..=2 => row[rng.index(FLAG_COLUMNS)] = other_number(rng),
        3 => *row = [1, free * rate, rate, 1, 1, 1, 1],
        4 => *row = [1, free * rate, rate, 0, 0, 1, 1],
        5 => *row = [1, free * rate, rate, 0, 1, 0, 1],
        6 => *row = [0, 0, rate, 0, free, rng.below(2), 1],
        7 => *row = [0, 1, rate, 1, free, rng.below(2), 1],
        _ => *row = [1, 1, 0, 0, 1, 1, 1],
    }
}

/// Neither 0 nor 1, but 0 or 1 in the last bits of some.
fn other_number(rng: &mut Rng) -> u64 {
    rng.pick(&[2, 2, 3, 256, 257, 1 << 32, (1 << 32) + 1, 1 << 63, u64::MAX])
}

/// Breaks one rule of the table that a run says, or gives the run a length that
/// no table has.
pub(super) fn damage_table_run(rng: &mut Rng, run: &mut Vec<u64>) {
    let mut table = FlagTable::given(run).unwrap_or(FlagTable::OURS);
    if rng.one_in(3) {
        *run = table.numbers().to_vec();
        return damage_table_length(rng, run);
    }
    damage_table(rng, &mut table);
    *run = table.numbers().to_vec();
}

fn damage_table_length(rng: &mut Rng, run: &mut Vec<u64>) {
    match rng.below(6) {
        0 => run.truncate(TABLE_NUMBERS - 1),
        1 => run.push(rng.below(3)),
        2 => run.truncate(1),
        3 => run.truncate(TABLE_NUMBERS - FLAG_COLUMNS),
        4 => run.extend([0; FLAG_COLUMNS]),
        _ => run.extend(run.clone()),
    }
}
