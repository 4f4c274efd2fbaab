//! The model with a fault in the tests alone of orders.

use roffelaine_check::engine::{Engine, Lent, LentList, Model};
use roffelaine_check::model::list::Writing;
use roffelaine_check::model::{Call, Opening, Order, Reply};

/// A way to be wrong.
#[derive(Clone, Copy, Debug, PartialEq, Eq)]
pub enum Fault {
    None,
    TakesAShortRecordList,
    TakesAShortInvestorsList,
    TakesAShortFundsList,
    RecordCountOff,
    ReportCountOff,
    NoReportCount,
    NoPlace,
    WithoutTheDay,
    WritesTheBook,
    WritesThePrices,
    RedemptionAnswersAsCreation,
}

impl Fault {
    /// All that are one.
    pub const ALL: [Fault; 11] = [
        Fault::TakesAShortRecordList,
        Fault::TakesAShortInvestorsList,
        Fault::TakesAShortFundsList,
        Fault::RecordCountOff,
        Fault::ReportCountOff,
        Fault::NoReportCount,
        Fault::NoPlace,
        Fault::WithoutTheDay,
        Fault::WritesTheBook,
        Fault::WritesThePrices,
        Fault::RedemptionAnswersAsCreation,
    ];

    /// The order as its tests judge it: a list one number longer than it is.
    fn judged(self, mut order: Order) -> Order {
        let lengths = &mut order.lengths;
        match self {
            Fault::TakesAShortRecordList => lengths.records += 1,
            Fault::TakesAShortInvestorsList => lengths.investor += 1,
            Fault::TakesAShortFundsList => lengths.fund += 1,
            _ => {}
        }
        order
    }

    /// The tests as they are made; none where the call is another.
    fn tests(self, call: &Call) -> Option<Call> {
        Some(match *call {
            Call::TestCreation(order) => Call::TestCreation(self.judged(order)),
            Call::TestRedemption(order) if self == Fault::RedemptionAnswersAsCreation => {
                Call::TestCreation(order)
            }
            Call::TestRedemption(order) => Call::TestRedemption(self.judged(order)),
            _ => return None,
        })
    }

    /// Spoils what the tests answer and leave.
    fn spoil(self, reply: &mut Reply, lent: &mut Lent) {
        let is_accepted = reply.is_accepted();
        match self {
            Fault::RecordCountOff if is_accepted => reply.value += 1,
            Fault::ReportCountOff if is_accepted => reply.reports -= 1,
            Fault::NoReportCount => reply.reports = 0,
            Fault::NoPlace => reply.place = 0,
            Fault::WithoutTheDay if reply.number == 5 => *reply = Reply::accepted(0),
            Fault::WritesTheBook => touch(&mut lent.book),
            Fault::WritesThePrices => touch(&mut lent.prices),
            _ => {}
        }
    }
}

/// Changes the last number, where there is one.
fn touch(run: &mut [u64]) {
    if let Some(last) = run.last_mut() {
        *last = last.wrapping_add(1);
    }
}

/// The model with one fault.
pub struct Mistesting(pub Fault);

impl Engine for Mistesting {
    fn call(&self, call: &Call, lent: &mut Lent) -> Reply {
        let Some(tests) = self.0.tests(call) else {
            return Model.call(call, lent);
        };
        let mut reply = Model.call(&tests, lent);
        self.0.spoil(&mut reply, lent);
        reply
    }

    fn run(&self, rows: &[u64], lent: &mut Lent, answers: &mut [u64]) -> Reply {
        Model.run(rows, lent, answers)
    }

    the_rest_of_the_model!();
}
