//! Shared by the tests: the vector rows as JSON values, and the hashes in them.

pub mod json;
pub mod sha256;

use json::Json;
use std::path::PathBuf;

/// Fields of a row that are bytes.
const BYTES: [&str; 3] = ["text", "names", "letters"];

/// The rows of a vector file, in full.
pub fn rows(file: &str) -> Vec<Json> {
    let path = vector_folder().join(file);
    let text = std::fs::read_to_string(&path).unwrap_or_else(|error| panic!("{path:?}: {error}"));
    let rows = rows_of(&text);
    assert!(!rows.is_empty(), "{path:?} has no rows");
    println!("{file}: {} rows", rows.len());
    rows
}

/// `vectors` in the root of the repository, else what the variable VECTORS says.
fn vector_folder() -> PathBuf {
    let in_root = PathBuf::from(env!("CARGO_MANIFEST_DIR")).join("../../vectors");
    match std::env::var_os("VECTORS") {
        Some(folder) if !in_root.is_dir() => folder.into(),
        _ => in_root,
    }
}

/// The rows of a text, one JSON object to a line, in full: bytes are bytes, and
/// a row like an earlier one has all that it does not say itself.
pub fn rows_of(text: &str) -> Vec<Json> {
    let mut rows: Vec<Json> = Vec::new();
    for line in text.lines() {
        let row = Json::read(line).expect("a vector row is JSON");
        let row = in_full(row, &rows);
        rows.push(row);
    }
    rows
}

fn in_full(row: Json, before: &[Json]) -> Json {
    let Json::Object(mut fields) = row else {
        panic!("a vector row is an object");
    };
    for (name, value) in &mut fields {
        if BYTES.contains(&name.as_str()) {
            *value = Json::Bytes(bytes_of(value, before));
        }
    }
    let Some(at) = fields.iter().position(|(name, _)| name == "like") else {
        return Json::Object(fields);
    };
    let (_, like) = fields.remove(at);
    let Json::Object(others) = &before[like.number::<usize>()] else {
        panic!("a vector row is an object");
    };
    let is_own = |name: &str| fields.iter().any(|(own, _)| own == name);
    let rest = others.iter().filter(|(name, _)| !is_own(name));
    let rest: Vec<_> = rest.cloned().collect();
    fields.extend(rest);
    Json::Object(fields)
}

/// Bytes in hexadecimal digits, in pieces one after another, or as the text of
/// an earlier row with edits.
fn bytes_of(value: &Json, before: &[Json]) -> Vec<u8> {
    match value {
        Json::Text(_) => value.hex(),
        Json::List(pieces) => pieces.iter().flat_map(piece).collect(),
        _ => {
            let row = &before[value.get("row").number::<usize>()];
            edited(row.get("text").bytes(), value.get("edit").list())
        }
    }
}

/// A piece: bytes, or a count and the bytes that stand so many times.
fn piece(piece: &Json) -> Vec<u8> {
    match piece {
        Json::List(repeated) => repeated[1].hex().repeat(repeated[0].number()),
        _ => piece.hex(),
    }
}

/// The text with other bytes in place of some: at each place, of the text as it
/// was, how many are taken out and what is put in.
fn edited(text: &[u8], edits: &[Json]) -> Vec<u8> {
    let mut out = Vec::new();
    let mut from = 0;
    for edit in edits {
        let [place, removed, put] = edit.list() else {
            panic!("an edit has three parts");
        };
        let place = place.number();
        out.extend_from_slice(&text[from..place]);
        out.extend(put.hex());
        from = place + removed.number::<usize>();
    }
    out.extend_from_slice(&text[from..]);
    out
}
