//! The tests of an order alone.

use super::Session;
use crate::said::{Answer, Made, Refused};
use crate::statement::{Call, Order};

impl Session<'_> {
    /// What the day book answers to the tests alone: what the order would be
    /// answered now. Nothing is posted.
    pub(super) fn tested(&self, call: Call, order: &Order) -> Answer {
        let (account, units, rooms) = (order.account as usize, order.units, self.rooms(order));
        let counts = match call {
            Call::TestCreate(_) => self.day.test_creation(account, units, rooms),
            _ => self.day.test_redemption(account, units, rooms),
        };
        let made = counts.map(|counts| Made::Tested {
            records: counts.records,
            reports: self.reports_on.then_some(counts.reports),
        });
        let outcome = made.map_err(|refusal| Refused {
            refusal,
            reason: self.reason(&call, refusal),
        });
        Answer { call, outcome }
    }
}
