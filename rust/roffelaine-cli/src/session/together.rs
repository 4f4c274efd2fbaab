//! Calls that follow each other, made in one go: the day book looks at the whole
//! book once for all of them. An opening and tests alone are made by themselves.

use super::Session;
use crate::said::{Answer, Entry, Made, Refused, Reports};
use crate::statement::{statement, Call, Order, Statement};
use roffelaine::{Batch, Day, Outcome, Rooms};
use std::borrow::Cow;
use std::io;

/// How many calls are made in one go.
const MOST: usize = 256;

impl Session<'_> {
    /// Does what the lines say, one after the other, and hands on what each came
    /// to.
    pub fn lines<'t>(
        &mut self,
        lines: impl Iterator<Item = (usize, Cow<'t, str>)>,
        mut hand_on: impl FnMut(Entry) -> io::Result<()>,
    ) -> io::Result<()> {
        let mut waiting = Vec::with_capacity(MOST);
        for (line, text) in lines {
            match statement(&text) {
                Ok(None) => continue,
                Ok(Some(Statement::Call(call))) if may_wait(&call) => {
                    waiting.push((line, call));
                    if waiting.len() < MOST {
                        continue;
                    }
                    self.together(&mut waiting, &mut hand_on)?;
                }
                _ => {
                    self.together(&mut waiting, &mut hand_on)?;
                    self.line(line, &text).map_or(Ok(()), &mut hand_on)?;
                }
            }
        }
        self.together(&mut waiting, &mut hand_on)?;
        self.end().map_or(Ok(()), hand_on)
    }

    /// Makes the calls that wait.
    fn together(
        &mut self,
        waiting: &mut Vec<(usize, Call)>,
        hand_on: &mut impl FnMut(Entry) -> io::Result<()>,
    ) -> io::Result<()> {
        if waiting.is_empty() {
            return Ok(());
        }
        let calls: Vec<Call> = waiting.iter().map(|&(_, call)| call).collect();
        let answers = self.answers(&calls);
        for ((line, _), answer) in waiting.drain(..).zip(answers) {
            let said = self.answer(answer);
            self.counts.add(&said);
            hand_on(Entry { line, said })?;
        }
        Ok(())
    }

    /// What the day book answers to calls, which are posted where it accepts
    /// them.
    pub(super) fn answers(&mut self, calls: &[Call]) -> Vec<Answer> {
        // One call that is refused leaves the day as it was.
        let before = (calls.len() > 1).then(|| self.day.clone());
        let outcome = self.day.run(&self.batch(calls));
        let mut reasons = self.reasons(calls, &outcome, before);
        let answers = calls.iter().enumerate().map(|(at, call)| Answer {
            call: *call,
            outcome: self.answered(&outcome, at, call, reasons[at].take()),
        });
        let answers: Vec<Answer> = answers.collect();
        let accepted = answers.iter().filter(|answer| answer.outcome.is_ok());
        for answer in accepted {
            self.posting.post(self.list, &answer.call, answer.records());
        }
        answers
    }

    /// Why calls were refused. Each reason is said on the day that the call saw:
    /// the calls before it are made again from the day before all of them.
    fn reasons(
        &mut self,
        calls: &[Call],
        outcome: &Outcome,
        before: Option<Day>,
    ) -> Vec<Option<String>> {
        let mut reasons = vec![None; calls.len()];
        let refused = (0..calls.len()).filter_map(|at| Some((at, outcome.answer(at).err()?)));
        let refused: Vec<_> = refused.collect();
        if refused.is_empty() {
            return reasons;
        }
        let after = before.map(|before| std::mem::replace(&mut self.day, before));
        let mut made = 0;
        for (at, refusal) in refused {
            if after.is_some() && made < at {
                self.day.run(&self.batch(&calls[made..at]));
            }
            reasons[at] = Some(self.reason(&calls[at], refusal));
            made = at + 1;
        }
        if let Some(after) = after {
            self.day = after;
        }
        reasons
    }

    /// The rooms of an order's lists. A line says the room for records alone:
    /// reports have all they need.
    pub(super) fn rooms(&self, order: &Order) -> Rooms {
        let ample = self.day.ample_rooms();
        let room = order.room.and_then(|room| usize::try_from(room).ok());
        Rooms {
            records: room.map_or(ample.records, |room| room.min(ample.records)),
            ..ample
        }
    }

    fn batch(&self, calls: &[Call]) -> Batch {
        let mut batch = Batch::default();
        for call in calls {
            match *call {
                Call::Price { code, price } => batch.set_price(self.line_of(code), price),
                Call::Trade(trade) => batch.trade(&roffelaine::Trade {
                    line: self.line_of(trade.code),
                    quantity: trade.quantity,
                    price: trade.price,
                    seller: trade.seller as usize,
                    buyer: trade.buyer as usize,
                }),
                Call::Create(order) => {
                    batch.create(order.account as usize, order.units, self.rooms(&order));
                }
                Call::Redeem(order) => {
                    batch.redeem(order.account as usize, order.units, self.rooms(&order));
                }
                Call::Value => batch.reference_value(),
                Call::Open | Call::TestCreate(_) | Call::TestRedeem(_) => {
                    unreachable!("{call:?} is made by itself")
                }
            }
        }
        batch
    }

    /// What the day book answered to one of the calls.
    fn answered(
        &self,
        outcome: &Outcome,
        at: usize,
        call: &Call,
        reason: Option<String>,
    ) -> Result<Made, Refused> {
        let value = outcome.answer(at).map_err(|refusal| Refused {
            refusal,
            reason: reason.unwrap_or_default(),
        })?;
        Ok(match call {
            Call::Create(_) | Call::Redeem(_) => Made::Order {
                records: outcome.records(at),
                reports: self.reports_on.then(|| Reports {
                    investor: outcome.investor_reports(at),
                    fund: outcome.fund_reports(at),
                }),
            },
            Call::Value => Made::Value(roffelaine::ReferenceValue(value)),
            Call::Price { .. } | Call::Trade(_) => Made::Done,
            Call::Open | Call::TestCreate(_) | Call::TestRedeem(_) => {
                unreachable!("{call:?} is made by itself")
            }
        })
    }
}

/// Whether a call is made together with others.
fn may_wait(call: &Call) -> bool {
    *call != Call::Open && call.tested().is_none()
}
