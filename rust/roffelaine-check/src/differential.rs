//! The differential test: random cases on two engines until they differ.

use crate::compare::{Comparison, Difference};
use crate::engine::{Engine, Lent, LentList, Model};
use crate::flat::{answers_length, row_of, rows_of};
use crate::model::{Call, PerList, Reply};
use crate::random::{self, OpeningCase, Rng, Scale, Size, TextCase, WritingCase};

/// How many cases of each sort to make from a seed.
#[derive(Clone, Copy, Debug)]
pub struct Plan {
    pub seed: u64,
    /// Days with a whole list of calls; as many changed days and as many
    /// damaged openings go with them.
    pub days: u64,
    /// Texts to read; half as many lists to write go with them.
    pub texts: u64,
}

impl Plan {
    /// Compares all cases of the plan, up to the first difference.
    pub fn run(&self, comparison: &mut Comparison<'_>) -> Result<(), Difference> {
        let mut rng = Rng::new(self.seed);
        for _ in 0..self.days {
            whole_day(&mut rng, comparison)?;
            changed_day(&mut rng, comparison)?;
            refused_opening(&mut rng, comparison)?;
        }
        for at in 0..self.texts {
            one_text(&mut rng, comparison)?;
            if at % 2 == 0 {
                one_writing(&mut rng, comparison)?;
            }
        }
        Ok(())
    }
}

fn refused_opening(rng: &mut Rng, comparison: &mut Comparison<'_>) -> Result<(), Difference> {
    let (size, scale) = (Size::any(rng), Scale::any(rng));
    let case = OpeningCase::damaged(rng, size, scale);
    let mut lent = case.lent(rng);
    comparison.opening(&case, &mut lent).map(drop)
}

/// An accepted opening and a list of calls, one by one and then in one go.
fn whole_day(rng: &mut Rng, comparison: &mut Comparison<'_>) -> Result<(), Difference> {
    let (size, scale) = (Size::any(rng), Scale::any(rng));
    let case = OpeningCase::sound(rng, size, scale);
    let mut lent = case.lent(rng);
    comparison.opening(&case, &mut lent)?;
    let start = lent.clone();
    let mut calls = random::price_calls(rng, &lent, scale);
    let mut replies = Vec::new();
    for call in &calls {
        replies.push(comparison.call(call, &mut lent)?);
    }
    for _ in 0..rng.between(20, 70) {
        let call = random::any_call(rng, &lent, scale);
        replies.push(call_and_short_lists(comparison, &call, &mut lent)?);
        calls.push(call);
    }
    whole_list(rng, comparison, &start, &calls, (&replies, &lent))?;
    wild_rows(rng, comparison, start, scale)
}

/// One call, and where it is an order that is accepted, the same with lists that
/// are just long enough and a number too short; `lent` is left as the call leaves
/// it.
fn call_and_short_lists(
    comparison: &mut Comparison<'_>,
    call: &Call,
    lent: &mut Lent,
) -> Result<Reply, Difference> {
    let before = lent.clone();
    let reply = comparison.call(call, lent)?;
    comparison.short_lists(call, &before, reply)?;
    Ok(reply)
}

/// The same calls in one go, each order with its own parts of the runs.
fn whole_list(
    rng: &mut Rng,
    comparison: &mut Comparison<'_>,
    start: &Lent,
    calls: &[Call],
    expected: (&[Reply], &Lent),
) -> Result<(), Difference> {
    let (rows, lengths) = rows_of(calls);
    let start = Lent {
        runs: lengths.map(|length| rng.numbers(length)),
        ..start.clone()
    };
    let noise = rng.numbers(answers_length(&rows));
    let (answers, left) = comparison.rows(&rows, &start, &noise)?;
    let has_row = |(call, _): &(&Call, &Reply)| row_of(call, PerList::default()).is_some();
    let listed = calls.iter().zip(expected.0).filter(has_row);
    let expected_answers: Vec<u64> = listed.flat_map(|(_, reply)| reply.numbers()).collect();
    let same = answers == expected_answers
        && (&left.book, &left.prices) == (&expected.1.book, &expected.1.prices);
    if same {
        return Ok(());
    }
    Err(Difference(format!(
        "the calls in rows and one by one differ: answers {answers:?} and {expected_answers:?}, \
         asked: {calls:?} on {start:?}"
    )))
}

/// Rows with any parts of the runs, among them some that name no call.
fn wild_rows(
    rng: &mut Rng,
    comparison: &mut Comparison<'_>,
    mut lent: Lent,
    scale: Scale,
) -> Result<(), Difference> {
    let rows = random::wild_rows(rng, &mut lent, scale);
    let length = random::wild_answers_length(rng, &rows);
    let noise = rng.numbers(length);
    comparison.rows(&rows, &lent, &noise).map(drop)
}

/// Calls on a day that was changed by hand after some calls.
fn changed_day(rng: &mut Rng, comparison: &mut Comparison<'_>) -> Result<(), Difference> {
    let (size, scale) = (Size::any(rng), Scale::any(rng));
    let mut lent = day_after_calls(rng, size, scale);
    match rng.below(3) {
        0 => day_at_a_bound(rng, comparison, &mut lent, scale),
        1 => day_at_edges(rng, comparison, &lent),
        _ => broken_day(rng, comparison, &mut lent, scale),
    }?;
    wild_rows(rng, comparison, lent, scale)
}

/// Calls one after another from a total at its bound.
fn day_at_a_bound(
    rng: &mut Rng,
    comparison: &mut Comparison<'_>,
    lent: &mut Lent,
    scale: Scale,
) -> Result<(), Difference> {
    random::raise_to_a_bound(rng, lent);
    wild_rows(rng, comparison, lent.clone(), scale)?;
    for _ in 0..12 {
        let call = random::any_call(rng, lent, scale);
        call_and_short_lists(comparison, &call, lent)?;
    }
    Ok(())
}

/// Calls that just pass or just fail, each on the same day tuned anew.
fn day_at_edges(
    rng: &mut Rng,
    comparison: &mut Comparison<'_>,
    lent: &Lent,
) -> Result<(), Difference> {
    for _ in 0..12 {
        let mut tuned = lent.clone();
        let call = random::edge_call(rng, &mut tuned);
        call_and_short_lists(comparison, &call, &mut tuned)?;
    }
    Ok(())
}

/// Calls of all kinds on the same broken day.
fn broken_day(
    rng: &mut Rng,
    comparison: &mut Comparison<'_>,
    lent: &mut Lent,
    scale: Scale,
) -> Result<(), Difference> {
    random::break_day(rng, lent);
    for _ in 0..8 {
        let call = random::any_call(rng, lent, scale);
        call_and_short_lists(comparison, &call, &mut lent.clone())?;
    }
    Ok(())
}

/// A day some calls after its opening, by the model alone.
fn day_after_calls(rng: &mut Rng, size: Size, scale: Scale) -> Lent {
    let case = OpeningCase::sound(rng, size, scale);
    let mut lent = case.lent(rng);
    Model.open(&case.opening(), &mut lent);
    for call in random::price_calls(rng, &lent, scale) {
        Model.call(&call, &mut lent);
    }
    for _ in 0..rng.below(20) {
        let call = random::any_call(rng, &lent, scale);
        Model.call(&call, &mut lent);
    }
    lent
}

fn one_text(rng: &mut Rng, comparison: &mut Comparison<'_>) -> Result<(), Difference> {
    let case = if rng.one_in(5) {
        TextCase::sound(rng)
    } else {
        TextCase::damaged(rng)
    };
    let noise = LentList {
        components: rng.numbers(case.room),
        fields: std::array::from_fn(|_| rng.number()),
        first_row: rng.number(),
    };
    comparison.text(&case, &noise).map(drop)
}

fn one_writing(rng: &mut Rng, comparison: &mut Comparison<'_>) -> Result<(), Difference> {
    let case = if rng.one_in(3) {
        WritingCase::sound(rng)
    } else {
        WritingCase::damaged(rng)
    };
    comparison.writing(&case).map(drop)
}
