//! The library's list on random texts and lists to write, beside the model.

#[path = "support/longest_list.rs"]
mod longest_list;

use longest_list::longest_list;
use roffelaine::{Cents, List, Refusal};
use roffelaine_check::library_types::{component, head, reply, table_of_run};
use roffelaine_check::model::list::{self, NAME_BYTES};
use roffelaine_check::model::{Component, Reply, COMPONENT_NUMBERS, MAX_COMPONENTS};
use roffelaine_check::random::{Rng, TextCase, WritingCase};
use std::collections::BTreeSet;

/// The components of a flat run, in the library's type.
fn components(run: &[u64]) -> Vec<roffelaine::Component> {
    let components = run.chunks_exact(COMPONENT_NUMBERS);
    let components = components.map(Component::from_numbers);
    components.map(|each| component(&each)).collect()
}

/// Reads a text with the model and the library, which must agree; gives the
/// number of the refusal, none where the library's types cannot say the table.
fn read_on_both(text: &[u8], table: &[u64]) -> Option<u64> {
    let mut run = [0; COMPONENT_NUMBERS * MAX_COMPONENTS];
    let library = match table {
        [] => List::read(text),
        _ => List::read_with_table(text, &table_of_run(table)?),
    };
    let (model, library) = match (list::read(text, table, &mut run), library) {
        (Ok(model), Ok(library)) => (model, library),
        (Err(refusal), library) => {
            assert_eq!(reply(library, |_| 0), Reply::from(refusal));
            return Some(refusal.number);
        }
        (Ok(_), Err(refusal)) => panic!("the library alone: {refusal}"),
    };
    assert!(std::ptr::eq(library.letters, model.letters));
    assert_eq!(Some(library.head), head(&model.head));
    let count = model.count as usize;
    assert_eq!(library.names.len(), count);
    for (at, name) in library.names.iter().enumerate() {
        assert!(std::ptr::eq(&name[..], model.name(at)));
    }
    let expected = components(&run[..COMPONENT_NUMBERS * count]);
    assert_eq!(library.components, expected);
    for (line, component) in expected.iter().enumerate() {
        assert_eq!(library.line_of(component.code), Some(line));
    }
    let first_code = model.head.fund.first_code;
    assert_eq!(library.line_of(first_code), Some(count));
    assert_eq!(library.line_of(first_code + 1), None);
    Some(0)
}

#[test]
fn parts_of_a_text_are_those_of_the_model() {
    let mut rng = Rng::new(21);
    for _ in 0..300 {
        let case = TextCase::sound(&mut rng);
        assert_eq!(read_on_both(&case.text, &case.table), Some(0));
    }
}

#[test]
fn texts_are_refused_as_by_the_model() {
    let mut rng = Rng::new(22);
    let cases = (0..4_000).map(|_| TextCase::damaged(&mut rng));
    let reached = cases.filter_map(|case| read_on_both(&case.text, &case.table));
    let reached: BTreeSet<u64> = reached.collect();
    assert_eq!(reached, BTreeSet::from([0, 2, 3, 18, 19, 20, 21]));
}

/// A list to write, in the library's types; none where these cannot say it: a
/// count of its own, half a component or name, or a number past a type.
fn library_list(case: &WritingCase) -> Option<List<'_>> {
    let run = case.components.chunks_exact(COMPONENT_NUMBERS);
    let whole = run.remainder().is_empty()
        && run.len() as u64 == case.count
        && case.names.len().is_multiple_of(NAME_BYTES);
    let names = case.names.chunks_exact(NAME_BYTES);
    let list = List {
        letters: &case.letters,
        head: head(&case.head)?,
        components: components(&case.components),
        names: names.filter_map(<[u8]>::first_chunk).collect(),
    };
    whole.then_some(list)
}

/// Writes a list with the model and the library, which must agree; gives the
/// number of the refusal, none where the library's types cannot say the list.
fn write_on_both(case: &WritingCase) -> Option<u64> {
    let list = library_list(case)?;
    let found = match case.table[..] {
        [] => list.write(),
        _ => list.write_with_table(&table_of_run(&case.table)?),
    };
    let mut expected = vec![0; longest_list::LONGEST];
    let expected_reply = list::write(&case.list(), &mut expected);
    expected.truncate(expected_reply.value as usize);
    let text = found.clone().unwrap_or_default();
    assert_eq!(reply(found, |text| text.len() as u64), expected_reply);
    assert_eq!(text, expected);
    Some(expected_reply.number)
}

#[test]
fn lists_are_written_as_by_the_model() {
    let mut rng = Rng::new(23);
    for _ in 0..300 {
        let case = WritingCase::sound(&mut rng);
        assert_eq!(write_on_both(&case), Some(0));
    }
    let cases = (0..2_000).map(|_| WritingCase::damaged(&mut rng));
    let reached: BTreeSet<u64> = cases.filter_map(|case| write_on_both(&case)).collect();
    assert_eq!(reached, BTreeSet::from([0, 1, 2, 3, 21]));
}

#[test]
fn a_net_asset_value_below_zero_is_not_written() {
    let text = longest_list();
    let mut list = List::read(&text).expect("it is read");
    list.head.nav_per_basket = Cents(-1);
    assert_eq!(list.write(), Err(Refusal::FundField));
}

#[test]
fn the_longest_list_is_read_and_written() {
    let text = longest_list();
    assert_eq!(read_on_both(&text, &[]), Some(0));
    let list = List::read(&text).expect("it is read");
    assert_eq!(list.write(), Ok(text.clone()));
}
