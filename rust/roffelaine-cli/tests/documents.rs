//! What the documents say is what the command has.

mod support;

use roffelaine::REFUSALS;
use support::{repository, run};

fn document(path: &str) -> String {
    std::fs::read_to_string(repository(path)).expect("a document")
}

#[test]
fn readme_has_the_table_of_refusals() {
    let readme = document("README.md");
    let (_, table) = readme
        .split_once("| number | means | place |\n|---|---|---|\n")
        .expect("a table");
    let rows: Vec<&str> = table
        .lines()
        .take_while(|line| line.starts_with('|'))
        .collect();
    let expected: Vec<String> = REFUSALS
        .iter()
        .map(|each| format!("| {} | {} | {} |", each.number, each.words, each.place))
        .collect();
    assert_eq!(rows, expected);
}

/// The lines of a day in the help, without what they mean.
fn day_lines(help: &str) -> Vec<&str> {
    let (_, lines) = help
        .split_once("# starts a comment anywhere.\n")
        .expect("the lines of a day");
    let lines = lines.lines().take_while(|line| !line.is_empty());
    lines
        .map(|line| line.trim().split("  ").next().unwrap_or_default())
        .collect()
}

#[test]
fn readme_has_the_lines_of_a_day() {
    let (help, readme) = (run(&["--help"]).out, document("README.md"));
    let lines = day_lines(&help);
    assert_eq!(lines.len(), 21);
    for line in lines {
        let in_readme = |text: &str| text.lines().any(|each| each.trim().starts_with(line));
        assert!(in_readme(&readme), "{line:?} is not in the README");
    }
}

#[test]
fn readme_has_the_commands() {
    let (help, readme) = (run(&["--help"]).out, document("README.md"));
    for line in help
        .lines()
        .filter(|line| line.starts_with("  roffelaine "))
    {
        if !line.contains("--help") && !line.contains("--version") {
            assert!(
                readme.contains(line.trim()),
                "{line:?} is not in the README"
            );
        }
    }
}

#[test]
fn the_help_fits_a_terminal_of_120_columns() {
    for line in run(&["--help"]).out.lines() {
        assert!(line.len() <= 120, "{line:?}");
    }
}
