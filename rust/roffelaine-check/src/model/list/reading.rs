//! Reading the list text (refusals 21, 18, 19, 20, 2, 3, 16).

use super::super::flags::FlagTable;
use super::super::range;
use super::super::refusal::{
    Refusal, COMPONENT, FUND_FIELD, LIST_TOO_SHORT, RECORD_COUNT, TEXT_FIELD,
};
use super::super::types::{first_faulty_component, Component, COMPONENT_NUMBERS, MAX_COMPONENTS};
use super::component_line::read_component;
use super::head::{read_head, Head};
use super::layout::{
    first_line, Layout, COMPONENT_LINE, COMPONENT_STRIDE, HEAD_NAMES, LETTERS_BEFORE, NAME,
};
use std::ops::Range;

/// What a list that was read hands back, besides the lent components.
#[derive(Clone, Copy, Debug, PartialEq, Eq)]
pub struct List<'t> {
    /// The bracket's letters, a part of the text.
    pub letters: &'t [u8],
    pub head: Head,
    pub count: u64,
    /// Where the first component line starts in the text.
    pub first_row: usize,
    component_lines: &'t [u8],
}

impl<'t> List<'t> {
    /// The name of a component, a part of the text; empty past the last.
    pub fn name(&self, component: usize) -> &'t [u8] {
        name_in(self.component_lines, component)
    }
}

/// Reads a list under the table of a lent run: the components go to the lent run,
/// 6 numbers each.
pub fn read<'t>(
    text: &'t [u8],
    table: &[u64],
    components: &mut [u64],
) -> Result<List<'t>, Refusal> {
    let table = FlagTable::for_text(table)?;
    let layout = Layout::of(text)?;
    let (head, record_count) =
        read_head(text, &layout.values).map_err(|at| wrong_value(&layout, at))?;
    let mut found = [Component::BLANK; MAX_COMPONENTS];
    read_components(&layout, &table, &mut found)?;
    let count = layout.count();
    if !range::COMPONENTS.contains(&record_count) || record_count != count as u64 {
        return Err(Refusal::new(RECORD_COUNT));
    }
    if !head.in_range() {
        return Err(Refusal::new(FUND_FIELD));
    }
    let found = &found[..count];
    let (first_code, listed) = (head.fund.first_code, found.iter().copied());
    if let Some(place) = first_faulty_component(first_code, &table, listed) {
        return Err(Refusal::at(COMPONENT, place));
    }
    if components.len() < COMPONENT_NUMBERS * count {
        return Err(Refusal::new(LIST_TOO_SHORT));
    }
    for (place, component) in components.chunks_exact_mut(COMPONENT_NUMBERS).zip(found) {
        place.copy_from_slice(&component.numbers());
    }
    Ok(List {
        letters: layout.letters,
        head,
        count: record_count,
        first_row: layout.components_at,
        component_lines: layout.components,
    })
}

/// Where the bracket's letters stand, if the first line stands right.
pub fn letters_of(text: &[u8]) -> Option<Range<usize>> {
    let start = LETTERS_BEFORE.len();
    first_line(text).map(|letters| start..start + letters.len())
}

/// Where the name stands in the line of so many component lines' bytes behind
/// a place, if the text goes so far. The lines themselves are not tested.
pub fn name_behind(text: &[u8], first_row: u64, component: u64) -> Option<Range<usize>> {
    let behind = component.checked_mul(COMPONENT_STRIDE as u64)?;
    let start = usize::try_from(first_row.checked_add(behind)?).ok()?;
    let line = text.get(start..)?;
    (line.len() >= COMPONENT_STRIDE).then_some(start + NAME.start..start + NAME.end)
}

/// The name of a component of the text; empty where the text's lines do not
/// stand right or it has no such component line.
pub fn name(text: &[u8], component: usize) -> &[u8] {
    Layout::of(text).map_or(&[], |layout| name_in(layout.components, component))
}

fn name_in(component_lines: &[u8], component: usize) -> &[u8] {
    component_lines
        .chunks_exact(COMPONENT_STRIDE)
        .nth(component)
        .map_or(&[], |line| NAME.of(line))
}

/// Reads every component line, past the room of `found` too.
fn read_components(
    layout: &Layout<'_>,
    table: &FlagTable,
    found: &mut [Component; MAX_COMPONENTS],
) -> Result<(), Refusal> {
    for (place, line) in layout.components.chunks_exact(COMPONENT_STRIDE).enumerate() {
        let component = read_component(&line[..COMPONENT_LINE], table).map_err(|field| {
            let line_start = layout.components_at + COMPONENT_STRIDE * place;
            wrong_field(line_start, line_start + field.start)
        })?;
        if let Some(found) = found.get_mut(place) {
            *found = component;
        }
    }
    Ok(())
}

fn wrong_value(layout: &Layout<'_>, at: usize) -> Refusal {
    let start = layout.values[at].start;
    wrong_field(start - HEAD_NAMES[at].len() - 1, start)
}

/// The place of refusal 19: the field's first byte, not its line's.
fn wrong_field(_line_start: usize, field_start: usize) -> Refusal {
    Refusal::at(TEXT_FIELD, field_start)
}
