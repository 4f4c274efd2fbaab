//! What a line expects of the call before it, or of the book.

use super::Session;
use crate::said::{Answer, Made, Refused, Said};
use crate::statement::{Call, Expectation};

impl Session<'_> {
    pub(super) fn expect(&self, expected: &Expectation) -> Said {
        match self.unexpected(expected) {
            None => Said::Met,
            Some(why) => Said::NotMet { why },
        }
    }

    /// What there is in place of what is expected.
    fn unexpected(&self, expected: &Expectation) -> Option<String> {
        match *expected {
            Expectation::Refused { number, place } => self.unexpected_answer(|outcome| {
                let refusal = outcome.as_ref().err()?.refusal;
                let placed = place.is_none_or(|place| place == refusal.place());
                (refusal.number() == number && placed).then_some(())
            }),
            Expectation::Ok { count } => self.unexpected_answer(|outcome| {
                let records = match outcome.as_ref().ok()? {
                    Made::Order { records, .. } => Some(records.len() as u64),
                    Made::Tested { records, .. } => Some(*records as u64),
                    Made::Done | Made::Opened { .. } | Made::Value(_) => None,
                };
                (count.is_none() || count == records).then_some(())
            }),
            Expectation::Value(value) => match self.day.reference_value() {
                Ok(found) if found == value => None,
                Ok(found) => Some(format!("the value is {found}")),
                Err(refusal) => {
                    let (number, place) = (refusal.number(), refusal.place());
                    let reason = self.reason(&Call::Value, refusal);
                    Some(format!("value refused {number} {place}: {reason}"))
                }
            },
            Expectation::Cash { account, amount } => self.account_fault(account).or_else(|| {
                let cash = self.position(account as usize).cash;
                (cash != amount).then(|| format!("account {account} has {cash} yuan"))
            }),
            Expectation::Lots {
                account,
                code,
                old,
                bought,
                got,
            } => self
                .account_fault(account)
                .or_else(|| self.unexpected_lots(account as usize, code, [old, bought, got])),
        }
    }

    fn unexpected_answer(
        &self,
        is_met: impl Fn(&Result<Made, Refused>) -> Option<()>,
    ) -> Option<String> {
        let Some(Answer { call, outcome }) = &self.last else {
            return Some("there is no call before it".to_string());
        };
        if is_met(outcome).is_some() {
            return None;
        }
        let word = call.word();
        Some(match outcome {
            Ok(Made::Done | Made::Opened { .. }) => format!("{word} answered ok"),
            Ok(Made::Value(value)) => format!("{word} answered ok {value}"),
            Ok(Made::Order { records, .. }) => format!("{word} answered ok {}", records.len()),
            Ok(Made::Tested { records, .. }) => format!("{word} answered ok {records}"),
            Err(refused) => {
                let (number, place) = (refused.refusal.number(), refused.refusal.place());
                format!("{word} answered refused {number} {place}")
            }
        })
    }

    fn unexpected_lots(&self, account: usize, code: u64, expected: [u64; 3]) -> Option<String> {
        let Some(line) = self.day.line_of(code) else {
            return Some(self.unknown_code(code));
        };
        let lots = self.day.book().account(account)?.lots(line);
        let found = [lots.old, lots.bought, lots.got];
        let [old, bought, got] = found;
        (found != expected)
            .then(|| format!("account {account} has {old} {bought} {got} of {code:06}"))
    }
}
