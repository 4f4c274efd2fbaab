//! The reports of an order against its records.

use crate::said::Reports;
use roffelaine::{CashGroup, CashKind, List, Money, Record, Report, ReportType, Side};

/// What is wrong with an order's reports, by its records; the investor's are
/// looked at first.
pub fn difference(list: &List<'_>, records: &[Record], reports: &Reports) -> Option<String> {
    let investor = told(list, records);
    let fund: Vec<Report> = investor.iter().map(|report| report.opposite()).collect();
    let expected = [investor, fund];
    let mut parties = reports.by_party().into_iter().zip(&expected);
    parties.find_map(|((party, found), expected)| first_difference(party, found, expected))
}

/// The reports to the investor that the records tell of: the unit's first
/// record, each of stock, and one of all cash.
fn told(list: &List<'_>, records: &[Record]) -> Vec<Report> {
    let first = list.head.fund.first_code;
    let moved = records.iter().filter_map(|record| {
        let report_type = match record.code.checked_sub(first) {
            Some(0) => ReportType::Unit,
            Some(1 | 2 | 5) => return None,
            _ => ReportType::Stock,
        };
        Some(Report {
            report_type,
            side: record.side,
            code: record.code,
            quantity: record.quantity,
            groups: [None; 3],
        })
    });
    moved.chain(cash_report(first, records)).collect()
}

/// One report of all cash, Shanghai first; none where there is no cash.
fn cash_report(first_code: u64, records: &[Record]) -> Option<Report> {
    let kinds = [
        (CashKind::Shanghai, first_code + 2),
        (CashKind::Other, first_code + 5),
    ];
    let groups = kinds.into_iter().filter_map(|(kind, code)| {
        let such = records.iter().filter(|record| record.code == code);
        let amount = Money(such.map(|record| record.amount.0).sum());
        (amount.0 > 0).then_some(CashGroup { kind, amount })
    });
    let mut groups = groups.fuse();
    let groups: [Option<CashGroup>; 3] = std::array::from_fn(|_| groups.next());
    groups[0]?;
    Some(Report {
        report_type: ReportType::Cash,
        side: cash_side(first_code, records)?,
        code: 0,
        quantity: 0,
        groups,
    })
}

fn cash_side(first_code: u64, records: &[Record]) -> Option<Side> {
    let is_cash = |record: &&Record| matches!(record.code.checked_sub(first_code), Some(2 | 5));
    records.iter().find(is_cash).map(|record| record.side)
}

fn first_difference(party: &str, found: &[Report], expected: &[Report]) -> Option<String> {
    let longest = found.len().max(expected.len());
    let at = (0..longest).find(|&at| found.get(at) != expected.get(at))?;
    let words = |report: Option<&Report>| report.map_or("none".to_string(), Report::to_string);
    let (found, expected) = (words(found.get(at)), words(expected.get(at)));
    let number = at + 1;
    Some(format!(
        "{party} report {number} is {found}, by the records {expected}"
    ))
}

#[cfg(test)]
mod tests {
    use super::*;
    use crate::sample::{day, list};
    use roffelaine::Units;

    /// The paper's creation, with its reports changed.
    fn changed(change: impl Fn(&mut Reports)) -> Option<String> {
        let made = day().create(1, Units(1_000_000)).expect("a creation");
        let mut reports = Reports {
            investor: made.investor,
            fund: made.fund,
        };
        change(&mut reports);
        difference(&list(), &made.records, &reports)
    }

    #[test]
    fn the_reports_of_the_paper_agree() {
        assert_eq!(changed(|_| {}), None);
        let redeemed = day().redeem(2, Units(1_000_000)).expect("a redemption");
        let reports = Reports {
            investor: redeemed.investor,
            fund: redeemed.fund,
        };
        assert_eq!(difference(&list(), &redeemed.records, &reports), None);
    }

    #[test]
    fn the_first_report_that_differs_is_said() {
        let quantity = changed(|reports| reports.investor[1].quantity += 1);
        assert_eq!(
            quantity.as_deref(),
            Some("investor report 2 is 2 2 600000 3073, by the records 2 2 600000 3072")
        );
        let side = changed(|reports| reports.fund[3].side = Side::Buy);
        assert_eq!(
            side.as_deref(),
            Some(
                "fund report 4 is 3 1 000000 0 1 173408.000 2 113600.000, \
                 by the records 3 2 000000 0 1 173408.000 2 113600.000"
            )
        );
        let missing = changed(|reports| reports.fund.truncate(3));
        assert_eq!(
            missing.as_deref(),
            Some("fund report 4 is none, by the records 3 2 000000 0 1 173408.000 2 113600.000")
        );
        let spare = changed(|reports| reports.investor.push(reports.investor[0]));
        assert_eq!(
            spare.as_deref(),
            Some("investor report 5 is 1 1 510300 1000000, by the records none")
        );
    }

    #[test]
    fn a_kind_without_cash_and_no_cash_at_all_agree() {
        let made = day().create(1, Units(1_000_000)).expect("a creation");
        let without = |codes: &[u64], groups: [Option<CashGroup>; 3]| {
            let mut records = made.records.clone();
            records.retain(|record| !codes.contains(&record.code));
            let mut investor = made.investor.clone();
            match groups {
                [None, ..] => investor.truncate(3),
                groups => investor[3].groups = groups,
            }
            let fund = investor.iter().map(|report| report.opposite()).collect();
            difference(&list(), &records, &Reports { investor, fund })
        };
        let [shanghai, other, _] = made.investor[3].groups;
        assert_eq!(without(&[510_305], [shanghai, None, None]), None);
        assert_eq!(without(&[510_302], [other, None, None]), None);
        assert_eq!(without(&[510_302, 510_305], [None; 3]), None);
        let gap = without(&[510_302], [None, other, None]);
        assert!(gap.is_some());
    }
}
