//! The model with a fault in what it does with flag tables.

use roffelaine_check::engine::{Engine, Lent, LentList, Model};
use roffelaine_check::model::list::Writing;
use roffelaine_check::model::{
    stretch_width, Call, Component, FlagColumn, FlagRow, FlagTable, Opening, Order, Reply, FLAGS,
    FLAG_COLUMNS, LOTS, STRETCH_HEAD, TABLE_NUMBERS,
};
use FlagColumn::{AmountUsed, InUse, Priced, RateUsed, Shanghai, ShortageInCash, StockMoves};

/// A way to be wrong.
#[derive(Clone, Copy, Debug, PartialEq, Eq)]
pub enum Fault {
    None,
    TakesShortageWithoutTheRate,
    TakesShortageWithoutStock,
    TakesStockWithAnAmount,
    TakesStockElsewhere,
    TakesStockUnpriced,
    TakesNeitherStockNorAmount,
    TakesTwoForYes,
    TestsRowsNotInUse,
    TestsRowsOfComponentsAlone,
    PlaceOfTheHighestFlag,
    TakesALongerRun,
    TableAfterTheFund,
    TableBehindTheText,
    TableBehindTheSizes,
    OpensWithOurTable,
    OpensWithFourFlags,
    BlanksByOurTable,
    BlanksWithoutInUse,
    WritesByOurTable,
    ShanghaiByOurTable,
    PricedByOurTable,
    RateForPricedAlone,
    RatioByTheNextRow,
    RatioOfOneFlagAlone,
}

impl Fault {
    /// All that are one.
    pub const ALL: [Fault; 24] = [
        Fault::TakesShortageWithoutTheRate,
        Fault::TakesShortageWithoutStock,
        Fault::TakesStockWithAnAmount,
        Fault::TakesStockElsewhere,
        Fault::TakesStockUnpriced,
        Fault::TakesNeitherStockNorAmount,
        Fault::TakesTwoForYes,
        Fault::TestsRowsNotInUse,
        Fault::TestsRowsOfComponentsAlone,
        Fault::PlaceOfTheHighestFlag,
        Fault::TakesALongerRun,
        Fault::TableAfterTheFund,
        Fault::TableBehindTheText,
        Fault::TableBehindTheSizes,
        Fault::OpensWithOurTable,
        Fault::OpensWithFourFlags,
        Fault::BlanksByOurTable,
        Fault::BlanksWithoutInUse,
        Fault::WritesByOurTable,
        Fault::ShanghaiByOurTable,
        Fault::PricedByOurTable,
        Fault::RateForPricedAlone,
        Fault::RatioByTheNextRow,
        Fault::RatioOfOneFlagAlone,
    ];

    /// A flag's row as the fault takes it.
    fn row(self, row: &FlagRow, flag: usize) -> FlagRow {
        let mut taken = *row;
        let mut put = |column: FlagColumn, number| taken[column as usize] = number;
        let moves = row[StockMoves as usize] == 1;
        let is_short = row[ShortageInCash as usize] == 1;
        match self {
            Fault::TakesTwoForYes => return row.map(|number| number.min(1)),
            _ if row[InUse as usize] != 1 => {}
            Fault::TakesShortageWithoutTheRate if moves && is_short => put(RateUsed, 1),
            Fault::TakesShortageWithoutStock if !moves => put(ShortageInCash, 0),
            Fault::TakesStockWithAnAmount if moves => put(AmountUsed, 0),
            Fault::TakesStockElsewhere if moves => put(Shanghai, 1),
            Fault::TakesStockUnpriced if moves => put(Priced, 1),
            Fault::TakesNeitherStockNorAmount if !moves => put(AmountUsed, 1),
            Fault::ShanghaiByOurTable if !moves => put(Shanghai, our(flag, Shanghai)),
            Fault::PricedByOurTable if !moves => put(Priced, our(flag, Priced)),
            _ => {}
        }
        taken
    }

    fn table(self, table: &FlagTable) -> FlagTable {
        FlagTable(std::array::from_fn(|flag| self.row(&table.0[flag], flag)))
    }

    /// A lent run as the fault takes it.
    fn run(self, run: &[u64]) -> Vec<u64> {
        match FlagTable::given(run) {
            Some(table) if !run.is_empty() => self.table(&table).numbers().to_vec(),
            None if self == Fault::TakesALongerRun => run[..run.len().min(TABLE_NUMBERS)].to_vec(),
            _ => run.to_vec(),
        }
    }

    /// The answer of the fault where a table is lent that the model answers so.
    fn judged(self, run: &[u64], reply: Reply, without_table: Reply) -> Reply {
        let is_refused = reply.number == 21;
        match self {
            Fault::TestsRowsNotInUse if !is_refused => refused_row(&all_in_use(run)),
            Fault::PlaceOfTheHighestFlag if is_refused => last_fault(run),
            Fault::TableAfterTheFund if is_refused && without_table.number == 2 => {
                Some(without_table)
            }
            Fault::TableBehindTheText if is_refused && without_table.number == 18 => {
                Some(without_table)
            }
            Fault::TableBehindTheSizes if is_refused && without_table.number == 1 => {
                Some(without_table)
            }
            _ => None,
        }
        .unwrap_or(reply)
    }
}

fn our(flag: usize, column: FlagColumn) -> u64 {
    FlagTable::OURS.0[flag][column as usize]
}

/// The run with every row in use; empty where it is no table.
fn all_in_use(run: &[u64]) -> Vec<u64> {
    let mut run = run.to_vec();
    for row in run.chunks_exact_mut(FLAG_COLUMNS) {
        row[InUse as usize] = 1;
    }
    run
}

/// The refusal of a table, if the model refuses it.
fn refused_row(run: &[u64]) -> Option<Reply> {
    let mut lent = LentList {
        components: Vec::new(),
        fields: [0; 22],
        first_row: 0,
    };
    let reply = Model.read(b"", run, &mut lent);
    (reply.number == 21).then_some(reply)
}

/// The refusal of the highest flag at fault.
fn last_fault(run: &[u64]) -> Option<Reply> {
    let table = FlagTable::given(run)?;
    let alone = |flag: usize| {
        let mut other = FlagTable::BLANK;
        other.0[flag] = table.0[flag];
        refused_row(other.numbers())
    };
    (0..FLAGS).rev().find_map(alone)
}

/// The table with no rows but those of a day's components.
fn rows_of_components(lent: &Lent) -> FlagTable {
    let count = lent.prices.len().min(lent.day.components.len());
    let listed = &lent.day.components[..count];
    FlagTable(std::array::from_fn(|flag| {
        match listed.iter().any(|each| each.flag == flag as u64) {
            true => lent.day.table.0[flag],
            false => [0; FLAG_COLUMNS],
        }
    }))
}

/// Takes the rates from components that are not priced.
fn priced_rates_alone(lent: &mut Lent) {
    let table = lent.day.table;
    for component in &mut lent.day.components {
        if !table.says(component.flag, Priced) {
            (component.premium, component.discount) = (0, 0);
        }
    }
}

/// The worth of what is missing for an order under the flags short in cash that
/// count.
fn missing(lent: &Lent, order: &Order, counts: impl Fn(u64) -> bool) -> u128 {
    let width = stretch_width(lent.prices.len());
    let stretch = &lent.book[order.account as usize * width..][STRETCH_HEAD..width];
    let baskets = order.units / lent.day.fund.basket_size;
    let lines = lent.day.components.iter().zip(&lent.prices);
    let lines = lines.zip(stretch.chunks_exact(LOTS));
    let worth = |((component, &price), lots): ((&Component, &u64), &[u64])| {
        let is_short = lent.day.table.says(component.flag, ShortageInCash);
        let need = baskets * component.quantity;
        let missing = need.saturating_sub(lots[0] + lots[1]);
        match is_short && counts(component.flag) {
            true => u128::from(missing) * u128::from(price),
            false => 0,
        }
    };
    lines.map(worth).sum()
}

/// The model with one fault.
pub struct Misruling(pub Fault);

impl Misruling {
    /// The answer to a creation whose ratio is judged by other rows.
    fn ratio(&self, order: &Order, before: &Lent, reply: Reply) -> Reply {
        let value = Model.call(&Call::Value, &mut before.clone());
        let is_judged = reply.is_accepted() || reply.number == 15;
        if !is_judged || !value.is_accepted() {
            return reply;
        }
        let table = &before.day.table;
        let counts = |flag: u64| match self.0 {
            Fault::RatioByTheNextRow => table.says((flag + 1) % 10, ShortageInCash),
            _ => (0..flag).all(|lower| !table.says(lower, ShortageInCash)),
        };
        let (fund, worth) = (&before.day.fund, missing(before, order, counts));
        let share = u128::from(order.units * value.value) * u128::from(fund.max_cash_ratio);
        match (worth * 1_000_000 <= share, reply.is_accepted()) {
            (true, false) => Reply::accepted(0),
            (false, true) => Reply::refused(15, 0),
            _ => reply,
        }
    }
}

impl Engine for Misruling {
    fn open(&self, opening: &Opening<'_>, lent: &mut Lent) -> Reply {
        let run = self.0.run(opening.table);
        let before = lent.clone();
        let taken = Opening {
            table: &run,
            ..*opening
        };
        let reply = Model.open(&taken, lent);
        let none = Opening {
            table: &[],
            ..*opening
        };
        let without_table = Model.open(&none, &mut before.clone());
        let judged = self.0.judged(&run, reply, without_table);
        let flags = lent.day.components.iter().map(|each| each.flag);
        if self.0 == Fault::OpensWithFourFlags && reply.is_accepted() && flags.max() > Some(4) {
            *lent = before;
            return Reply::refused(3, 0);
        }
        if !judged.is_accepted() {
            *lent = before;
            return judged;
        }
        lent.day.table = match (self.0, FlagTable::given(opening.table)) {
            (Fault::OpensWithOurTable, _) => FlagTable::OURS,
            (_, Some(table)) => table,
            (_, None) => lent.day.table,
        };
        judged
    }

    fn call(&self, call: &Call, lent: &mut Lent) -> Reply {
        let before = lent.clone();
        lent.day.table = match self.0 {
            Fault::TestsRowsOfComponentsAlone => rows_of_components(lent),
            fault => fault.table(&lent.day.table),
        };
        if self.0 == Fault::RateForPricedAlone {
            priced_rates_alone(lent);
        }
        let mut reply = Model.call(call, lent);
        lent.day = before.day.clone();
        let is_ratio = matches!(
            self.0,
            Fault::RatioByTheNextRow | Fault::RatioOfOneFlagAlone
        );
        if let (Call::Create(order) | Call::TestCreation(order), true) = (call, is_ratio) {
            let judged = self.ratio(order, &before, reply);
            if judged != reply {
                *lent = before;
            }
            reply = judged;
        }
        reply
    }

    fn run(&self, rows: &[u64], lent: &mut Lent, answers: &mut [u64]) -> Reply {
        Model.run(rows, lent, answers)
    }

    fn run_one_by_one(&self, rows: &[u64], lent: &mut Lent, answers: &mut [u64]) -> Reply {
        Model.run_one_by_one(rows, lent, answers)
    }

    fn read(&self, text: &[u8], table: &[u64], lent: &mut LentList) -> Reply {
        let (run, before) = (self.0.run(table), lent.clone());
        let reply = Model.read(text, &run, lent);
        let without_table = Model.read(text, &[], &mut before.clone());
        let judged = self.0.judged(&run, reply, without_table);
        let blanks = match (self.0, FlagTable::given(&run)) {
            _ if judged.number == 21 => None,
            (Fault::BlanksByOurTable, _) => Some((text.to_vec(), Vec::new())),
            (Fault::BlanksWithoutInUse, Some(table)) => Some((fill(text, &table), run)),
            _ => None,
        };
        if let Some((text, run)) = blanks {
            *lent = before;
            return Model.read(&text, &run, lent);
        }
        if judged != reply {
            *lent = before;
        }
        judged
    }

    fn name(&self, text: &[u8], first_row: u64, component: u64, part: &mut [u64]) -> u64 {
        Model.name(text, first_row, component, part)
    }

    fn letters(&self, text: &[u8], part: &mut [u64]) -> u64 {
        Model.letters(text, part)
    }

    fn write(&self, list: &Writing<'_>, output: &mut [u8]) -> Reply {
        let (run, before) = (self.0.run(list.table), output.to_vec());
        let reply = Model.write(
            &Writing {
                table: &run,
                ..*list
            },
            output,
        );
        let none = Writing {
            table: &[],
            ..*list
        };
        if self.0 == Fault::WritesByOurTable && reply.number != 21 {
            output.copy_from_slice(&before);
            return Model.write(&none, output);
        }
        let without_table = Model.write(&none, &mut before.clone());
        let judged = self.0.judged(&run, reply, without_table);
        if judged != reply {
            output.copy_from_slice(&before);
        }
        judged
    }
}

/// Where the flag stands in a component line, and the fields that a column may
/// leave blank.
const FLAG: usize = 25;
const FIELDS: [(std::ops::Range<usize>, FlagColumn); 3] =
    [(27..34, RateUsed), (35..42, RateUsed), (43..55, AmountUsed)];

/// The text as one whose flags are all in use has to stand for the model to read
/// it: what such a flag has a yes for is blank where it was filled, and ill-written
/// where it was blank.
fn fill(text: &[u8], table: &FlagTable) -> Vec<u8> {
    let mut text = text.to_vec();
    for line in text.split_mut(|&byte| byte == b'\n') {
        let flag = line
            .get(FLAG)
            .map_or(u64::MAX, |&byte| u64::from(byte.wrapping_sub(b'0')));
        let row = table
            .0
            .get(flag as usize)
            .filter(|row| row[InUse as usize] == 0);
        let (Some(row), 57) = (row, line.len()) else {
            continue;
        };
        for (field, column) in FIELDS {
            let part = &mut line[field];
            if row[column as usize] == 1 {
                let is_blank = part.iter().all(|&byte| byte == b' ');
                part.fill(if is_blank { b'x' } else { b' ' });
            }
        }
    }
    text
}
