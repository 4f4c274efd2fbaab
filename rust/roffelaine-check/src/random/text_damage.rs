//! Faults in list texts.

use super::tables::flags_in_use;
use super::text_values::{head_values, COMPONENT_VALUES, FIRST_LINES, MARKS, NO_VALUES};
use super::texts::{component_line, name, Line, Lines};
use super::Rng;
use crate::model::{Component, MAX_COMPONENTS};
use std::ops::Range;

/// One fault in the lines of a text.
pub(super) fn damage_lines(rng: &mut Rng, lines: &mut Lines) {
    match rng.below(22) {
        0..=4 => set_head_value(rng, lines),
        5 => edit_head_value(rng, lines),
        6..=9 => set_component_field(rng, lines),
        10 => set_component_code(rng, lines),
        11 => move_lines(rng, lines),
        12 => change_count(rng, lines),
        13 => change_an_end(rng, lines),
        14 => rename_head_line(rng, lines),
        15 => change_first_line(rng, lines),
        16 => change_fixed_line(rng, lines),
        17 => damage_component_form(rng, lines),
        18 => fill_with_components(rng, lines),
        19 => drop_discounts(rng, lines),
        20 => swap_columns(rng, lines),
        _ => insert_blank_line(rng, lines),
    }
}

/// One fault anywhere in the bytes of a text.
pub(super) fn damage_bytes(rng: &mut Rng, text: &mut Vec<u8>) {
    if text.is_empty() {
        return;
    }
    let at = rng.index(text.len());
    match rng.below(10) {
        0..=1 => text[at] = rng.number() as u8,
        2 => text[at] = rng.pick(MARKS),
        3 => text[at] ^= 0x20,
        4 => text.insert(at, rng.pick(MARKS)),
        5 => drop(text.remove(at)),
        6 => text.truncate(at),
        7 => cut_after_a_line(rng, text),
        8 => text.truncate(text.len().saturating_sub(rng.between(1, 3) as usize)),
        _ => {
            text.extend_from_slice(rng.pick(&[&b"\r\n"[..], b"\n", b" ", b"ENDENDEND\r\n", b"\0"]))
        }
    }
}

fn cut_after_a_line(rng: &mut Rng, text: &mut Vec<u8>) {
    let ends = |text: &[u8]| text.windows(2).filter(|pair| pair == b"\r\n").count();
    let kept = rng.index(ends(text) + 1);
    let mut seen = 0;
    let place = text.windows(2).position(|pair| {
        seen += usize::from(pair == b"\r\n");
        seen == kept
    });
    text.truncate(place.map_or(0, |place| place + 2));
}

fn some_line<'l>(rng: &mut Rng, lines: &'l mut [Line]) -> Option<&'l mut Line> {
    if lines.is_empty() {
        return None;
    }
    let at = rng.index(lines.len());
    lines.get_mut(at)
}

fn value_start(line: &Line) -> usize {
    line.bytes
        .iter()
        .position(|&byte| byte == b'=')
        .map_or(line.bytes.len(), |at| at + 1)
}

fn set_head_value(rng: &mut Rng, lines: &mut Lines) {
    if lines.head.is_empty() {
        return;
    }
    let at = rng.index(lines.head.len());
    let value = match rng.below(6) {
        0 => rng.pick(NO_VALUES),
        1 => {
            let other = rng.index(lines.head.len());
            rng.pick(head_values(other))
        }
        _ => rng.pick(head_values(at)),
    };
    let line = &mut lines.head[at];
    line.bytes.truncate(value_start(line));
    line.bytes.extend_from_slice(value.as_bytes());
}

/// Changes, drops or adds one byte of a head line's value.
fn edit_head_value(rng: &mut Rng, lines: &mut Lines) {
    let Some(line) = some_line(rng, &mut lines.head) else {
        return;
    };
    let start = value_start(line);
    if start == line.bytes.len() {
        return;
    }
    let at = start + rng.index(line.bytes.len() - start);
    match rng.below(3) {
        0 => line.bytes[at] = rng.pick(MARKS),
        1 => drop(line.bytes.remove(at)),
        _ => line.bytes.insert(at, rng.pick(MARKS)),
    }
}

/// Puts other bytes of the same width in a field of a component line.
fn set_component_field(rng: &mut Rng, lines: &mut Lines) {
    let Some(line) = some_line(rng, &mut lines.components) else {
        return;
    };
    let (start, values) = rng.pick(COMPONENT_VALUES);
    let value = rng.pick(values);
    if let Some(place) = line.bytes.get_mut(start..start + value.len()) {
        place.copy_from_slice(value);
    }
}

/// A code in the fund's group, equal to its predecessor's or below it.
fn set_component_code(rng: &mut Rng, lines: &mut Lines) {
    if lines.components.is_empty() {
        return;
    }
    let at = rng.index(lines.components.len());
    let code = match lines.components.get(at.wrapping_sub(1)) {
        Some(previous) if rng.one_in(2) => previous.bytes.get(..6).map(<[u8]>::to_vec),
        _ => {
            let code = lines.first_code + rng.between(0, 6);
            Some(format!("{code:06}").into_bytes())
        }
    };
    let line = &mut lines.components[at].bytes;
    if let (Some(code), Some(place)) = (code, line.get_mut(..6)) {
        place.copy_from_slice(&code[..6]);
    }
}

/// Drops, doubles or swaps lines of the head or of the components.
fn move_lines(rng: &mut Rng, lines: &mut Lines) {
    let block = if rng.one_in(2) {
        &mut lines.head
    } else {
        &mut lines.components
    };
    if block.is_empty() {
        return;
    }
    let (at, other) = (rng.index(block.len()), rng.index(block.len()));
    match rng.below(3) {
        0 => drop(block.remove(at)),
        1 => block.insert(at, block[at].clone()),
        _ => block.swap(at, other),
    }
}

/// A Recordnum that is one off, or no component lines at all.
fn change_count(rng: &mut Rng, lines: &mut Lines) {
    let count = match rng.below(4) {
        0 => lines.component_count() + 1,
        1 => lines.component_count() - usize::from(lines.component_count() > 0),
        2 => rng.pick(&[0, 300, 301]),
        _ => {
            lines.components.clear();
            0
        }
    };
    if let Some(line) = lines.head.get_mut(5) {
        *line = Line::new(format!("Recordnum={count}"));
    }
}

fn change_an_end(rng: &mut Rng, lines: &mut Lines) {
    let end = rng.pick(&[
        &b"\n"[..],
        b"\r",
        b"",
        b"\r\r\n",
        b"\r\n\r\n",
        b"\n\r",
        b" \r\n",
        b"\r\n ",
    ]);
    let mut lines = lines.each_mut();
    if rng.one_in(5) {
        lines.iter_mut().for_each(|line| line.end = end.to_vec());
    } else {
        let at = rng.index(lines.len());
        lines[at].end = end.to_vec();
    }
}

fn rename_head_line(rng: &mut Rng, lines: &mut Lines) {
    let Some(line) = some_line(rng, &mut lines.head) else {
        return;
    };
    let start = value_start(line);
    match rng.below(4) {
        0 if start > 0 => drop(line.bytes.remove(start - 1)),
        1 => line.bytes.insert(start.saturating_sub(1), b' '),
        2 if start > 1 => line.bytes[start - 2] ^= 0x01,
        _ => line.bytes.insert(0, b' '),
    }
}

fn change_first_line(rng: &mut Rng, lines: &mut Lines) {
    lines.first.bytes = rng.pick(FIRST_LINES).to_vec();
}

fn change_fixed_line(rng: &mut Rng, lines: &mut Lines) {
    let words: &[&[u8]] = &[
        b"TAGTAG",
        b"tagtag",
        b"TAGTAG ",
        b"TAG",
        b"ENDENDEND",
        b"endendend",
        b"ENDEND",
        b"",
    ];
    let line = if rng.one_in(2) {
        &mut lines.before
    } else {
        &mut lines.after
    };
    line.bytes = rng.pick(words).to_vec();
}

/// Where the bars of a component line stand.
const BARS: [usize; 7] = [6, 15, 24, 26, 34, 42, 55];
/// Its discount, with the bar behind it.
const DISCOUNT: Range<usize> = 35..43;

/// Moves a bar, changes the width or ends the line early.
fn damage_component_form(rng: &mut Rng, lines: &mut Lines) {
    let Some(line) = some_line(rng, &mut lines.components) else {
        return;
    };
    let bar = rng.pick(&BARS);
    if line.bytes.len() <= BARS[BARS.len() - 1] {
        return;
    }
    match rng.below(5) {
        0 => line.bytes[bar] = rng.pick(MARKS),
        1 => line.bytes.swap(bar, bar - 1),
        2 => line.bytes.push(rng.pick(b"| \r")),
        3 => drop(line.bytes.pop()),
        _ => line.bytes[9..11].copy_from_slice(b"\r\n"),
    }
}

/// One component line without its discount, of 48 bytes, or all of them, as in
/// a list from before there was one.
fn drop_discounts(rng: &mut Rng, lines: &mut Lines) {
    let drop_discount = |line: &mut Line| {
        if line.bytes.len() >= DISCOUNT.end {
            line.bytes.drain(DISCOUNT);
        }
    };
    if rng.one_in(3) {
        lines.components.iter_mut().for_each(drop_discount);
    } else {
        some_line(rng, &mut lines.components).map(drop_discount);
    }
}

/// Swaps two columns of a component line that stand side by side: most often
/// premium and discount, so that the text is right and says something else.
fn swap_columns(rng: &mut Rng, lines: &mut Lines) {
    let Some(line) = some_line(rng, &mut lines.components) else {
        return;
    };
    let second = rng.pick(&[1, 2, 3, 4, 5, 5, 5, 6]);
    let start = match second {
        1 => 0,
        _ => BARS[second - 2] + 1,
    };
    let (middle, end) = (BARS[second - 1] + 1, BARS[second] + 1);
    if let Some(both) = line.bytes.get_mut(start..end) {
        both.rotate_left(middle - start);
    }
}

/// Component lines up to the most there may be, or one more.
fn fill_with_components(rng: &mut Rng, lines: &mut Lines) {
    let count = MAX_COMPONENTS as u64 + rng.below(2);
    let flag = flags_in_use(&lines.table)[0];
    let codes =
        (0..1_000_000).filter(|code| !(lines.first_code..lines.first_code + 6).contains(code));
    lines.components = codes
        .take(count as usize)
        .map(|code| {
            component_line(
                &Component {
                    code,
                    flag,
                    ..Component::BLANK
                },
                &lines.table,
                &name(rng),
            )
        })
        .collect();
    if let Some(line) = lines.head.get_mut(5) {
        *line = Line::new(format!("Recordnum={count}"));
    }
}

fn insert_blank_line(rng: &mut Rng, lines: &mut Lines) {
    let block = if rng.one_in(2) {
        &mut lines.head
    } else {
        &mut lines.components
    };
    let at = rng.index(block.len() + 1);
    block.insert(at, Line::new(""));
}
