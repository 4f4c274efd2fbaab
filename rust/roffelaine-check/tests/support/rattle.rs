//! Reads off Rattle sources what other languages name too: the refusals, and
//! the constants of a file.

use std::collections::BTreeMap;

/// A refusal's number, and whether it has a place.
pub type Refusals = BTreeMap<String, (u64, bool)>;

/// `ShortOfStock` as `SHORT_OF_STOCK`.
pub fn constant_name(variant: &str) -> String {
    let mut name = String::new();
    for letter in variant.chars() {
        if letter.is_uppercase() && !name.is_empty() {
            name.push('_');
        }
        name.extend(letter.to_uppercase());
    }
    name
}

/// The lines between one that has `start` and the next that has only `end`.
pub fn block<'t>(text: &'t str, start: &str, end: &str) -> Vec<&'t str> {
    let lines = text.lines().map(str::trim);
    let lines = lines.skip_while(|line| !line.starts_with(start)).skip(1);
    let block: Vec<&str> = lines.take_while(|line| *line != end).collect();
    assert!(!block.is_empty(), "no {start}");
    block
}

/// The variants of the enum `Refusal`, and whether each has a place.
pub fn variants(text: &str) -> BTreeMap<String, bool> {
    let lines = block(text, "pub enum Refusal {", "}").into_iter();
    let lines = lines.filter(|line| !line.starts_with("//"));
    let variants = lines.map(|line| line.trim_end_matches(','));
    variants
        .map(|variant| match variant.strip_suffix("(usize)") {
            Some(name) => (constant_name(name), true),
            None => (constant_name(variant), false),
        })
        .collect()
}

/// The refusals of lines that have a `start`, a variant, a `middle`, and then
/// the number and the place.
pub fn numbered(text: &str, start: &str, middle: &str) -> Refusals {
    let lines = text.lines().map(str::trim);
    let lines = lines.filter_map(|line| line.strip_prefix(start)?.split_once(middle));
    let mut refusals = Refusals::new();
    for (variant, numbers) in lines {
        let mut words = variant
            .split(['(', ')', ' '])
            .filter(|word| !word.is_empty());
        let name = constant_name(words.next().expect("a variant"));
        let bound = words.next().unwrap_or("0");
        let mut numbers = numbers
            .split([',', ' ', ')'])
            .filter(|word| !word.is_empty());
        let number = numbers.next().expect("a number");
        let number = number.parse().expect("a number");
        assert_eq!(numbers.next(), Some(bound), "the place of {name}");
        let before = refusals.insert(name, (number, bound != "0"));
        assert_eq!(before, None, "{variant} stands twice");
    }
    refusals
}

/// The constants of a file that are numbers, or sums and products of numbers,
/// of the lengths of its byte strings and of other constants, its own or those
/// `below`. A byte string stands among the known ones by its length.
pub fn constants(text: &str, below: &BTreeMap<String, usize>) -> BTreeMap<String, usize> {
    let mut known = below.clone();
    let mut own = BTreeMap::new();
    for line in text.lines().map(|line| line.trim_start_matches("pub ")) {
        let Some(constant) = line.strip_prefix("const ") else {
            continue;
        };
        if let Some((name, bytes)) = constant.split_once(": &[u8] = b\"") {
            known.insert(format!("{name}.len"), bytes.trim_end_matches("\";").len());
        }
        let Some((name, value)) = constant.split_once(": usize = ") else {
            continue;
        };
        let value = Sum::new(value.trim_end_matches(';'), &known).value();
        known.insert(name.to_string(), value);
        own.insert(name.to_string(), value);
    }
    own
}

/// A sum of products, read from left to right.
struct Sum<'t> {
    words: Vec<&'t str>,
    at: usize,
    known: &'t BTreeMap<String, usize>,
}

impl<'t> Sum<'t> {
    fn new(text: &'t str, known: &'t BTreeMap<String, usize>) -> Self {
        let mut words = Vec::new();
        let mut rest = text.trim();
        while let Some(first) = rest.chars().next() {
            let is_mark = "()+*".contains(first);
            let end = match is_mark {
                true => 1,
                false => rest.find(['(', ')', '+', '*', ' ']).unwrap_or(rest.len()),
            };
            words.push(&rest[..end]);
            rest = rest[end..].trim_start();
        }
        Sum {
            words,
            at: 0,
            known,
        }
    }

    /// The value of the whole text.
    fn value(mut self) -> usize {
        let value = self.sum();
        assert_eq!(self.at, self.words.len(), "{:?}", self.words);
        value
    }

    fn takes(&mut self, mark: &str) -> bool {
        let is_next = self.words.get(self.at) == Some(&mark);
        self.at += usize::from(is_next);
        is_next
    }

    fn sum(&mut self) -> usize {
        let mut sum = self.product();
        while self.takes("+") {
            sum += self.product();
        }
        sum
    }

    fn product(&mut self) -> usize {
        let mut product = self.factor();
        while self.takes("*") {
            product *= self.factor();
        }
        product
    }

    fn factor(&mut self) -> usize {
        if self.takes("(") {
            let sum = self.sum();
            assert!(self.takes(")"), "{:?}", self.words);
            return sum;
        }
        let word = self.words[self.at];
        self.at += 1;
        if word.ends_with(".len") {
            assert!(self.takes("(") && self.takes(")"), "{:?}", self.words);
        }
        self.word(word)
    }

    fn word(&self, word: &str) -> usize {
        let name = word.rsplit("::").next().unwrap_or(word);
        match self.known.get(name) {
            Some(value) => *value,
            None => word
                .replace('_', "")
                .parse()
                .unwrap_or_else(|_| panic!("no {word}")),
        }
    }
}
