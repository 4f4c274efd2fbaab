//! Lists with random damage: every refusal has its words, at a place of the text.

#[path = "support/paper_list.rs"]
mod paper_list;

use paper_list::LIST;
use roffelaine::{position, FlagTable, List, ListFault, Position, Refusal};

const CASES: u64 = 50_000;

/// Random numbers by xorshift.
struct Random(u64);

impl Random {
    fn number(&mut self) -> u64 {
        self.0 ^= self.0 << 13;
        self.0 ^= self.0 >> 7;
        self.0 ^= self.0 << 17;
        self.0
    }

    fn below(&mut self, end: usize) -> usize {
        (self.number() >> 16) as usize % end
    }

    fn pick<T: Copy>(&mut self, values: &[T]) -> T {
        values[self.below(values.len())]
    }
}

/// Bytes that mean something in a list.
const MARKS: &[u8] = b"|\r\n \t0159-+.,=[]x\x7f\xe5\xff";

fn damage(random: &mut Random, text: &mut Vec<u8>) {
    if text.is_empty() {
        return;
    }
    let at = random.below(text.len());
    match random.below(13) {
        0 => text[at] = random.number() as u8,
        1 => text[at] = random.pick(MARKS),
        2 => text.insert(at, random.pick(MARKS)),
        3 => drop(text.remove(at)),
        4..=6 => change_a_digit(random, text),
        7 => move_a_line(random, text),
        8 => end_lines(random, text),
        9 if random.below(8) == 0 => text.truncate(at),
        10 if random.below(4) == 0 => text.extend_from_slice(b"ENDENDEND\r\n"),
        11 => drop_a_field(random, text),
        _ => swap_bytes(random, text, at),
    }
}

/// Another digit in place of one, or one more beside it.
fn change_a_digit(random: &mut Random, text: &mut Vec<u8>) {
    let digits: Vec<usize> = (0..text.len())
        .filter(|&at| text[at].is_ascii_digit())
        .collect();
    if digits.is_empty() {
        return;
    }
    let (at, digit) = (random.pick(&digits), random.pick(b"0123456789"));
    match random.below(3) {
        0 => text.insert(at, digit),
        _ => text[at] = digit,
    }
}

/// Drops, doubles or swaps lines.
fn move_a_line(random: &mut Random, text: &mut Vec<u8>) {
    let mut lines: Vec<Vec<u8>> = text
        .split_inclusive(|&byte| byte == b'\n')
        .map(<[u8]>::to_vec)
        .collect();
    let (at, other) = (random.below(lines.len()), random.below(lines.len()));
    match random.below(3) {
        0 => drop(lines.remove(at)),
        1 => lines.insert(at, lines[other].clone()),
        _ => lines.swap(at, other),
    }
    *text = lines.concat();
}

/// Drops what stands between two bars of a component line, with one of them.
fn drop_a_field(random: &mut Random, text: &mut Vec<u8>) {
    let bars: Vec<usize> = (0..text.len()).filter(|&at| text[at] == b'|').collect();
    let fields = bars.windows(2).map(|pair| pair[0]..pair[1]);
    let fields: Vec<_> = fields
        .filter(|field| !text[field.clone()].contains(&b'\n'))
        .collect();
    if !fields.is_empty() {
        let at = random.below(fields.len());
        text.drain(fields[at].clone());
    }
}

/// Other line ends, for one line or for all.
fn end_lines(random: &mut Random, text: &mut Vec<u8>) {
    let end: &[u8] = random.pick(&[&b"\n"[..], b"\r", b"\r\r\n", b"\n\r", b""]);
    let is_for_all = random.below(4) == 0;
    let lines = text.split_inclusive(|&byte| byte == b'\n');
    let chosen = random.below(text.iter().filter(|&&byte| byte == b'\n').count() + 1);
    let changed = lines
        .enumerate()
        .map(|(at, line)| match line.strip_suffix(b"\r\n") {
            Some(bytes) if is_for_all || at == chosen => [bytes, end].concat(),
            _ => line.to_vec(),
        });
    *text = changed.collect::<Vec<_>>().concat();
}

fn swap_bytes(random: &mut Random, text: &mut [u8], at: usize) {
    let other = (at + 1 + random.below(3)).min(text.len() - 1);
    text.swap(at, other);
}

/// The place of a position, if the text has it.
fn place_of(text: &[u8], at: Position) -> Option<usize> {
    let lines = text.split_inclusive(|&byte| byte == b'\n');
    let before: usize = lines.take(at.line - 1).map(<[u8]>::len).sum();
    let place = before + at.column - 1;
    (place <= text.len() && position(text, place) == at).then_some(place)
}

fn check_place(text: &[u8], refusal: Refusal, fault: &ListFault) {
    let place = place_of(text, fault.position).expect("a place of the text");
    if !matches!(refusal.number(), 18 | 19) {
        return;
    }
    let archive_place = refusal.place() as usize;
    // Where lines are joined, their end is the fault, not the line behind them.
    if fault.field == "line end" {
        let is_end = text.get(place).is_none_or(|byte| b"\r\n".contains(byte));
        assert!(is_end && !text[place..].starts_with(b"\r\n"), "{fault}");
        return;
    }
    assert!(place >= archive_place, "{fault}");
    let line = position(text, archive_place).line;
    assert_eq!(fault.position.line, line, "{fault}");
}

/// The text with the example that a fault's words give in place of the field.
fn with_example(text: &[u8], place: usize, fault: &ListFault) -> Option<Vec<u8>> {
    let (_, example) = fault.expected.rsplit_once(", as ")?;
    let rest = &text[place..];
    let is_head = fault.field.starts_with(char::is_uppercase);
    let length = match is_head {
        true => rest.windows(2).position(|pair| pair == b"\r\n")?,
        false => example.trim_matches('"').len(),
    };
    let example = example.trim_matches('"').as_bytes();
    Some([&text[..place], example, &rest[length..]].concat())
}

/// Mostly our table, else one with other rows, which keep the rules.
fn any_table(random: &mut Random) -> FlagTable {
    let mut table = FlagTable::OURS;
    if random.below(4) > 0 {
        return table;
    }
    for flag in 0..10 {
        let [rates, shanghai, priced] = [(); 3].map(|()| random.below(2) as u64);
        let row = match random.below(5) {
            0 => [0, 1, rates, 0, shanghai, priced, 0],
            1 => [1, 0, rates, 0, 1, 1, 1],
            2 => [1, 1, 1, 0, 1, 1, 1],
            3 => [0, 0, rates, 1, shanghai, priced, 1],
            _ => table.row(flag),
        };
        table.set_row(flag, row);
    }
    table
}

/// What words give as an example is written as it must be.
fn check_example(text: &[u8], refusal: Refusal, fault: &ListFault, table: &FlagTable) -> bool {
    let place = refusal.place() as usize;
    let mended = match refusal.number() {
        19 => with_example(text, place, fault),
        _ => None,
    };
    if let Some(mended) = &mended {
        let again = List::read_with_table(mended, table);
        assert_ne!(again.err(), Some(refusal), "{fault}");
    }
    mended.is_some()
}

#[test]
fn every_refusal_has_its_words() {
    let mut random = Random(0x9e37_79b9_7f4a_7c15);
    let (mut numbers, mut examples) = ([0; 22], 0);
    for case in 0..CASES {
        let mut text = LIST.as_bytes().to_vec();
        for _ in 0..1 + random.below(3) {
            damage(&mut random, &mut text);
        }
        let table = any_table(&mut random);
        let Err(refusal) = List::read_with_table(&text, &table) else {
            continue;
        };
        let Some(fault) = ListFault::of_with_table(&text, refusal, &table) else {
            panic!("case {case}, {refusal}: {}", text.escape_ascii());
        };
        assert!(!fault.field.is_empty() && !fault.expected.is_empty());
        check_place(&text, refusal, &fault);
        examples += usize::from(check_example(&text, refusal, &fault, &table));
        numbers[refusal.number() as usize] += 1;
    }
    for number in [2, 3, 18, 19, 20] {
        assert!(numbers[number] > 100, "{numbers:?}");
    }
    assert!(examples > 100, "{examples} examples");
}

/// A refusal of another text, or none of reading, gives no panic.
#[test]
fn refusals_of_other_texts_do_no_harm() {
    let mut random = Random(0x2545_f491_4f6c_dd1d);
    for _ in 0..CASES {
        let mut text = LIST.as_bytes().to_vec();
        for _ in 0..random.below(4) {
            damage(&mut random, &mut text);
        }
        let place = random.below(text.len() + 3) as u64;
        let number = 1 + random.below(21) as u64;
        let refusal = Refusal::from_numbers(number, place).expect("a refusal");
        let table = any_table(&mut random);
        if let Some(fault) = ListFault::of_with_table(&text, refusal, &table) {
            place_of(&text, fault.position).expect("a place of the text");
        }
    }
}
