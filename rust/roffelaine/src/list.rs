//! A list text, read and written.

use crate::layout::{
    component_of, component_run, field_numbers, head_of, part_of, COMPONENT_NUMBERS, FIELD_NUMBERS,
    NAME_BYTES, PART_NUMBERS,
};
use crate::{lent, Component, FlagTable, Head, Refusal, MOST_COMPONENTS};

/// The bytes of the longest list.
pub const LONGEST_TEXT: usize = 17_969;

/// A list; the letters and names are parts of its text. Every line of the text
/// ends in CR and LF.
#[derive(Clone, Debug, PartialEq, Eq)]
pub struct List<'t> {
    /// The letters behind `[ETF` in the first line.
    pub letters: &'t [u8],
    /// The fields before the components.
    pub head: Head,
    /// The basket.
    pub components: Vec<Component>,
    /// The name of each component.
    pub names: Vec<&'t [u8; NAME_BYTES]>,
}

impl<'t> List<'t> {
    /// Reads a text under our flag table. Where it is refused,
    /// [`ListFault`](crate::ListFault) says what is wrong, and where.
    pub fn read(text: &'t [u8]) -> Result<Self, Refusal> {
        Self::read_lent(text, &[])
    }

    /// Reads a text under a flag table, by which the rates and the amount that a
    /// component's flag does not use are blank.
    pub fn read_with_table(text: &'t [u8], table: &FlagTable) -> Result<Self, Refusal> {
        Self::read_lent(text, table.as_run())
    }

    fn read_lent(text: &'t [u8], table: &[u64]) -> Result<Self, Refusal> {
        let mut run = [0; COMPONENT_NUMBERS * MOST_COMPONENTS];
        let mut fields = [0; FIELD_NUMBERS];
        let mut first_row = 0;
        let reply = lent::read(text, table, &mut run, &mut fields, &mut first_row);
        let count = reply.outcome()? as usize;
        let components = run.chunks_exact(COMPONENT_NUMBERS).take(count);
        let names = (0..count as u64).filter_map(|at| name(text, first_row, at).first_chunk());
        Ok(List {
            letters: letters(text),
            head: head_of(&fields),
            components: components.map(component_of).collect(),
            names: names.collect(),
        })
    }

    /// The list as text, under our flag table.
    pub fn write(&self) -> Result<Vec<u8>, Refusal> {
        self.write_lent(&[])
    }

    /// The list as text, under a flag table.
    pub fn write_with_table(&self, table: &FlagTable) -> Result<Vec<u8>, Refusal> {
        self.write_lent(table.as_run())
    }

    fn write_lent(&self, table: &[u64]) -> Result<Vec<u8>, Refusal> {
        let fields = field_numbers(&self.head, self.components.len() as u64);
        let components = component_run(&self.components);
        let names: Vec<u8> = self.names.iter().copied().flatten().copied().collect();
        let mut text = vec![0; LONGEST_TEXT];
        let reply = lent::write(&fields, table, &components, &names, self.letters, &mut text);
        text.truncate(reply.outcome()? as usize);
        Ok(text)
    }

    /// The line of a code: a component's, or the unit's for the fund's first
    /// code.
    pub fn line_of(&self, code: u64) -> Option<usize> {
        let components = &self.components;
        match components.binary_search_by_key(&code, |component| component.code) {
            Ok(line) => Some(line),
            Err(_) => (code == self.head.fund.first_code).then_some(components.len()),
        }
    }
}

/// The name of a component of a text whose first component line starts at
/// `first_row`; empty where there is none.
fn name(text: &[u8], first_row: u64, component: u64) -> &[u8] {
    let mut part = [0; PART_NUMBERS];
    lent::name(text, first_row, component, &mut part);
    part_of(text, part)
}

/// The letters of a text's first line; empty where that is not a list's.
fn letters(text: &[u8]) -> &[u8] {
    let mut part = [0; PART_NUMBERS];
    lent::letters(text, &mut part);
    part_of(text, part)
}
