//! The markup of a page, taken apart far enough to test it.

use std::collections::HashSet;

/// Elements that have no end.
const VOID: [&str; 1] = ["meta"];
/// Elements that end a paragraph they would stand in.
const BLOCKS: [&str; 14] = [
    "p", "div", "table", "ol", "ul", "dl", "details", "section", "header", "footer", "main", "nav",
    "h2", "h3",
];
const ENTITIES: [&str; 5] = ["&amp;", "&lt;", "&gt;", "&quot;", "&#39;"];

/// A tag, or the text between two tags.
pub enum Piece<'p> {
    Start(&'p str, Vec<(&'p str, &'p str)>),
    End(&'p str),
    Text(&'p str),
}

/// The tags and texts of a page, the text of its style left out.
pub fn pieces(page: &str) -> Vec<Piece<'_>> {
    let mut rest = page.strip_prefix("<!DOCTYPE html>").expect("a doctype");
    let mut pieces = Vec::new();
    while let Some(start) = rest.find('<') {
        pieces.push(Piece::Text(&rest[..start]));
        let end = tag_end(&rest[start..]) + start;
        let tag = &rest[start + 1..end];
        rest = &rest[end + 1..];
        match tag.strip_prefix('/') {
            Some(name) => pieces.push(Piece::End(name)),
            None => {
                let (name, attributes) = tag.split_once(' ').unwrap_or((tag, ""));
                pieces.push(Piece::Start(name, self::attributes(attributes)));
                if name == "style" {
                    rest = &rest[rest.find("</style>").expect("the end of the style")..];
                }
            }
        }
    }
    pieces.push(Piece::Text(rest));
    pieces
}

/// Where a tag ends, which no `>` in quotes does.
fn tag_end(tag: &str) -> usize {
    let mut is_quoted = false;
    let end = tag.bytes().position(|byte| {
        is_quoted ^= byte == b'"';
        byte == b'>' && !is_quoted
    });
    end.expect("a tag that ends")
}

fn attributes(text: &str) -> Vec<(&str, &str)> {
    let mut attributes = Vec::new();
    let mut rest = text.trim();
    while !rest.is_empty() {
        let name_end = rest.find(['=', ' ']).unwrap_or(rest.len());
        let (name, behind) = rest.split_at(name_end);
        let (value, behind) = match behind.strip_prefix("=\"") {
            Some(value) => value.split_once('"').expect("a value in quotes"),
            None => ("", behind),
        };
        attributes.push((name, value));
        rest = behind.trim_start();
    }
    attributes
}

/// Holds a page to what any page keeps: elements nest, texts are escaped, ids
/// stand once and links lead to them.
pub fn assert_well_made(page: &str) {
    let mut open: Vec<&str> = Vec::new();
    let (mut ids, mut links) = (HashSet::new(), Vec::new());
    let mut heading = 0;
    for piece in pieces(page) {
        match piece {
            Piece::Text(text) => assert_escaped(text),
            Piece::End(name) => assert_eq!(open.pop(), Some(name), "inside {open:?}"),
            Piece::Start(name, attributes) => {
                let is_block = BLOCKS.contains(&name);
                assert!(!(is_block && open.contains(&"p")), "{name} in a paragraph");
                if let Some(level) = heading_level(name) {
                    assert!(level <= heading + 1, "{name} behind h{heading}");
                    heading = level;
                }
                let is_scoped = attributes.iter().any(|(name, _)| *name == "scope");
                assert!(name != "th" || is_scoped, "a th has its scope");
                for (name, value) in attributes {
                    assert_escaped(value);
                    match name {
                        "id" => assert!(ids.insert(value), "{value} stands twice"),
                        "href" => links.push(value),
                        _ => {}
                    }
                }
                if !VOID.contains(&name) {
                    open.push(name);
                }
            }
        }
    }
    assert!(open.is_empty(), "{open:?} do not end");
    for link in links {
        let id = link.strip_prefix('#').expect("a link inside the page");
        assert!(ids.contains(id), "{link} leads nowhere");
    }
}

fn heading_level(name: &str) -> Option<u32> {
    let level = name.strip_prefix('h')?;
    level.parse().ok()
}

fn assert_escaped(text: &str) {
    let mut rest = text;
    while let Some(at) = rest.find('&') {
        rest = &rest[at..];
        let entity = ENTITIES.iter().find(|entity| rest.starts_with(**entity));
        rest = &rest[entity.expect("an entity").len()..];
    }
    assert!(!text.contains(['<', '>']), "{text:?}");
    let is_plain = |each: char| !each.is_control() || each == '\n';
    assert!(text.chars().all(is_plain), "{text:?}");
}

/// Text as it is read.
pub fn read(text: &str) -> String {
    let unquoted = text.replace("&quot;", "\"").replace("&#39;", "'");
    let unquoted = unquoted.replace("&lt;", "<").replace("&gt;", ">");
    unquoted.replace("&amp;", "&")
}

/// The cells of every row of every table, as they are read.
pub fn rows(page: &str) -> Vec<Vec<String>> {
    let mut rows: Vec<Vec<String>> = Vec::new();
    let mut is_in_cell = false;
    for piece in pieces(page) {
        match piece {
            Piece::Start("tr", _) => rows.push(Vec::new()),
            Piece::Start("td" | "th", _) => {
                is_in_cell = true;
                rows.last_mut().expect("a row").push(String::new());
            }
            Piece::End("td" | "th") => is_in_cell = false,
            Piece::Text(text) if is_in_cell => {
                let cell = rows.last_mut().and_then(|row| row.last_mut());
                cell.expect("a cell").push_str(&read(text));
            }
            _ => {}
        }
    }
    rows
}

/// The ids of the page, in order.
pub fn ids(page: &str) -> Vec<String> {
    let id = |piece| match piece {
        Piece::Start(_, attributes) => attributes.into_iter().find(|(name, _)| *name == "id"),
        _ => None,
    };
    let ids = pieces(page).into_iter().filter_map(id);
    ids.map(|(_, value)| value.to_string()).collect()
}

/// All text of the page, as it is read.
pub fn text(page: &str) -> String {
    let texts = pieces(page).into_iter().map(|piece| match piece {
        Piece::Text(text) => read(text),
        _ => String::new(),
    });
    texts.collect()
}
