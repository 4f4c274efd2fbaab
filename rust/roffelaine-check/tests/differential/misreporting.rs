//! The model with a fault in the lists of orders.

use roffelaine_check::engine::{Engine, Lent, LentList, Model};
use roffelaine_check::model::list::Writing;
use roffelaine_check::model::{
    lengths_for, Call, Counts, Lengths, Opening, Order, Reply, CASH_REPORT, OTHER_KIND,
    REPORT_NUMBERS, ROW_NUMBERS, SHANGHAI_KIND, STOCK_REPORT, UNIT_REPORT,
};

/// A way to be wrong.
#[derive(Clone, Copy, Debug, PartialEq, Eq)]
pub enum Fault {
    None,
    CountOff,
    NoReports,
    FundKeepsTheSides,
    FundKeepsTheCashSide,
    RedemptionKeepsTheSides,
    GapForAZeroGroup,
    KindsTurnedRound,
    EmptyCashReport,
    UnitReportOfTheSecondCode,
    ReportsWhatDidNotMove,
    TouchesTheInvestorsListPastTheLast,
    TouchesTheFundsListPastTheLast,
    RefusedOrderWrites,
    TakesAShortRecordList,
    TakesAShortInvestorsList,
    TakesAShortFundsList,
    RefusesAFullList,
    DriverLeavesTheInvestorsReports,
    DriverLeavesTheFundsReports,
    DriverSwapsTheReportLists,
}

impl Fault {
    /// All that are one.
    pub const ALL: [Fault; 20] = [
        Fault::CountOff,
        Fault::NoReports,
        Fault::FundKeepsTheSides,
        Fault::FundKeepsTheCashSide,
        Fault::RedemptionKeepsTheSides,
        Fault::GapForAZeroGroup,
        Fault::KindsTurnedRound,
        Fault::EmptyCashReport,
        Fault::UnitReportOfTheSecondCode,
        Fault::ReportsWhatDidNotMove,
        Fault::TouchesTheInvestorsListPastTheLast,
        Fault::TouchesTheFundsListPastTheLast,
        Fault::RefusedOrderWrites,
        Fault::TakesAShortRecordList,
        Fault::TakesAShortInvestorsList,
        Fault::TakesAShortFundsList,
        Fault::RefusesAFullList,
        Fault::DriverLeavesTheInvestorsReports,
        Fault::DriverLeavesTheFundsReports,
        Fault::DriverSwapsTheReportLists,
    ];

    /// The order as it is judged: a list one number longer or shorter than it
    /// is.
    fn judged(self, mut order: Order) -> Order {
        let lengths = &mut order.lengths;
        match self {
            Fault::TakesAShortRecordList => lengths.records += 1,
            Fault::TakesAShortInvestorsList => lengths.investor += 1,
            Fault::TakesAShortFundsList => lengths.fund += 1,
            Fault::RefusesAFullList => lengths.fund = lengths.fund.saturating_sub(1),
            _ => {}
        }
        order
    }

    /// The same of a call's order.
    fn judged_call(self, call: &Call) -> Call {
        match *call {
            Call::Create(order) => Call::Create(self.judged(order)),
            Call::Redeem(order) => Call::Redeem(self.judged(order)),
            Call::TestCreation(order) => Call::TestCreation(self.judged(order)),
            Call::TestRedemption(order) => Call::TestRedemption(self.judged(order)),
            other => other,
        }
    }

    /// Spoils a report; `is_fund` where it is the fund's.
    fn spoil(self, report: &mut [u64], is_fund: bool, call: &Call, first_code: u64) {
        let is_redemption = matches!(call, Call::Redeem(_));
        match (self, report[0]) {
            (Fault::FundKeepsTheSides, _) if is_fund => turn(report),
            (Fault::FundKeepsTheCashSide, CASH_REPORT) if is_fund => turn(report),
            (Fault::RedemptionKeepsTheSides, _) if is_redemption => turn(report),
            (Fault::GapForAZeroGroup, CASH_REPORT) if report[4] == OTHER_KIND => {
                report[4..8].rotate_right(2);
            }
            (Fault::KindsTurnedRound, CASH_REPORT) => turn_kinds(report),
            (Fault::UnitReportOfTheSecondCode, UNIT_REPORT) => report[2] = first_code + 1,
            _ => {}
        }
    }

    /// A report too many that the fault makes of an accepted order.
    fn spare(self, lent: &Lent, call: &Call, reply: Reply) -> Option<[u64; REPORT_NUMBERS]> {
        let (stock_side, side) = match call {
            Call::Create(_) => (2, 1),
            _ => (1, 2),
        };
        let reports = &lent.runs.investor[..written(reply).investor];
        let has_cash = reports
            .chunks_exact(REPORT_NUMBERS)
            .any(|report| report[0] == CASH_REPORT);
        let component = &lent.day.components[0];
        let [report_type, side, code] = match self {
            Fault::EmptyCashReport if !has_cash => [CASH_REPORT, side, 0],
            Fault::ReportsWhatDidNotMove if component.quantity == 0 => {
                [STOCK_REPORT, stock_side, component.code]
            }
            _ => return None,
        };
        Some([report_type, side, code, 0, 0, 0, 0, 0, 0, 0])
    }
}

fn turn(report: &mut [u64]) {
    report[1] = 3 - report[1];
}

fn turn_kinds(report: &mut [u64]) {
    for kind in [4, 6, 8] {
        report[kind] = match report[kind] {
            SHANGHAI_KIND => OTHER_KIND,
            OTHER_KIND => SHANGHAI_KIND,
            none => none,
        };
    }
}

/// The numbers that an accepted order with this reply has written.
fn written(reply: Reply) -> Lengths {
    lengths_for(Counts {
        records: reply.value,
        reports: reply.reports,
    })
}

/// Changes the number behind those written, where the list has one.
fn touch(list: &mut [u64], written: usize) {
    if let Some(past) = list.get_mut(written) {
        *past = past.wrapping_add(1);
    }
}

/// The model with one fault.
pub struct Misreporting(pub Fault);

impl Misreporting {
    /// Spoils what an accepted order has written.
    fn spoil(&self, call: &Call, before: &Lent, lent: &mut Lent, reply: &mut Reply) {
        let (written, first_code) = (written(*reply), lent.day.fund.first_code);
        let spare = self.0.spare(lent, call, *reply);
        let lists = lent.runs.front(call.lengths());
        for (list, is_fund) in [(&mut *lists.investor, false), (&mut *lists.fund, true)] {
            for report in list[..written.fund].chunks_exact_mut(REPORT_NUMBERS) {
                self.0.spoil(report, is_fund, call, first_code);
            }
        }
        match (self.0, spare) {
            (Fault::CountOff, _) => reply.reports += 1,
            (Fault::NoReports, _) => {
                lent.runs.investor.clone_from(&before.runs.investor);
                lent.runs.fund.clone_from(&before.runs.fund);
            }
            (Fault::TouchesTheInvestorsListPastTheLast, _) => {
                touch(lists.investor, written.investor);
            }
            (Fault::TouchesTheFundsListPastTheLast, _) => touch(lists.fund, written.fund),
            (_, Some(report)) => add(lists.investor, lists.fund, written.fund, report, reply),
            _ => {}
        }
    }
}

/// One more report to the investor and its opposite to the fund, where both
/// lists have room for it.
fn add(
    investor: &mut [u64],
    fund: &mut [u64],
    start: usize,
    mut report: [u64; REPORT_NUMBERS],
    reply: &mut Reply,
) {
    let place = start..start + REPORT_NUMBERS;
    if place.end <= investor.len().min(fund.len()) {
        investor[place.clone()].copy_from_slice(&report);
        turn(&mut report);
        fund[place].copy_from_slice(&report);
        reply.reports += 1;
    }
}

/// Swaps the investor's part and the fund's in each order's row.
fn swap_report_lists(rows: &mut [u64]) {
    let rows = rows.chunks_exact_mut(ROW_NUMBERS);
    for row in rows.filter(|row| matches!(row[0], 3 | 4)) {
        let (investor, fund) = row[5..].split_at_mut(2);
        investor.swap_with_slice(fund);
    }
}

impl Engine for Misreporting {
    fn call(&self, call: &Call, lent: &mut Lent) -> Reply {
        let before = lent.clone();
        let lengths = lent.runs.lengths();
        // A place more in each run, for a list that is taken as longer.
        lent.runs = before.runs.as_ref().map(|run| [&run[..], &[0]].concat());
        let mut reply = Model.call(&self.0.judged_call(call), lent);
        for (run, length) in lent.runs.as_mut().zip(lengths).each() {
            run.truncate(length);
        }
        let is_order = matches!(call, Call::Create(_) | Call::Redeem(_));
        let lists = call.lengths().zip(written(reply)).each();
        let has_room = lists.iter().all(|(length, written)| written <= length);
        if is_order && reply.is_accepted() && has_room {
            self.spoil(call, &before, lent, &mut reply);
        }
        if self.0 == Fault::RefusedOrderWrites && reply.number == 16 {
            touch(lent.runs.front(call.lengths()).investor, 0);
        }
        reply
    }

    fn run(&self, rows: &[u64], lent: &mut Lent, answers: &mut [u64]) -> Reply {
        let (before, mut rows) = (lent.runs.clone(), rows.to_vec());
        if self.0 == Fault::DriverSwapsTheReportLists {
            swap_report_lists(&mut rows);
        }
        let reply = Model.run(&rows, lent, answers);
        match self.0 {
            Fault::DriverLeavesTheInvestorsReports => lent.runs.investor = before.investor,
            Fault::DriverLeavesTheFundsReports => lent.runs.fund = before.fund,
            _ => {}
        }
        reply
    }

    the_rest_of_the_model!();
}
