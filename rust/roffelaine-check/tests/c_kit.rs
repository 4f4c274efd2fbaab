//! The kit for C and C++: `include/`, `examples/day.c`, the Makefile and the man
//! page. Each program of `tests/c_kit` is compiled with the warnings as errors
//! and run; what it prints is compared with what the paper says by hand.
//!
//! `cc` has to be there. What else is missing is said on standard error, and what
//! needs it is left out.

#[path = "c_kit/expected.rs"]
mod expected;
#[path = "c_kit/tools.rs"]
mod tools;

use std::collections::{BTreeMap, BTreeSet};
use std::path::Path;
use std::process::Command;
use tools::{
    all_compilers, archive, c_compilers, cplusplus_compilers, is_there, root, run, scratch, text_of,
};

const PROGRAMS: &str = "rust/roffelaine-check/tests/c_kit";
/// The paper's list, as text.
const LIST: &str = "crates/slips/stdin";
const EXAMPLE: &str = "examples/day.c";

fn header() -> String {
    text_of("include/roffelaine.h")
}

/// The word behind a macro's name in the header.
fn defined(header: &str, name: &str) -> String {
    let start = format!("#define ROFFELAINE_{name} ");
    let rest = header.lines().find_map(|line| line.strip_prefix(&start));
    let word = rest.and_then(|rest| rest.split_whitespace().next());
    word.unwrap_or_else(|| panic!("{name}")).to_string()
}

/// The version of the workspace.
fn version() -> String {
    let manifest = text_of("rust/Cargo.toml");
    let version = manifest
        .lines()
        .find_map(|line| line.strip_prefix("version = "));
    version.expect("a version").trim_matches('"').to_string()
}

#[test]
fn the_version_is_that_of_the_workspace() {
    let (header, version) = (header(), version());
    assert_eq!(defined(&header, "VERSION"), format!("\"{version}\""));
    let parts =
        ["MAJOR", "MINOR", "PATCH"].map(|part| defined(&header, &format!("VERSION_{part}")));
    assert_eq!(parts.join("."), version);
}

/// The names of the fields, each with the longest value in its range.
const LONGEST_FIELDS: [(&str, &str); 20] = [
    ("Fundid1", "999995"),
    ("CreationRedemptionUnit", "99999999"),
    ("MaxCashRatio", "1.00000"),
    ("Publish", "1"),
    ("CreationRedemption", "3"),
    ("Recordnum", "300"),
    ("EstimateCashComponent", "99999999.99"),
    ("TradingDay", "99991231"),
    ("PreTradingDay", "99991231"),
    ("CashComponent", "-9999999.99"),
    ("NAVperCU", "999999999.99"),
    ("NAV", "999.9999"),
    ("CreationLimit", "999999990000"),
    ("RedemptionLimit", "999999990000"),
    ("CreationLimitPerUser", "999999990000"),
    ("RedemptionLimitPerUser", "999999990000"),
    ("NetCreationLimit", "999999990000"),
    ("NetRedemptionLimit", "999999990000"),
    ("NetCreationLimitPerUser", "999999990000"),
    ("NetRedemptionLimitPerUser", "999999990000"),
];

#[test]
fn the_longest_text_follows_from_the_paper() {
    let line = |text: &str| text.len() + "\r\n".len();
    let fields = LONGEST_FIELDS.map(|(name, value)| line(&format!("{name}={value}")));
    let component = "000001|ABCDEFGH|99999999|3|1.00000|1.00000|99999999.999|";
    let length = line("[ETFABCDEFGH]")
        + fields.iter().sum::<usize>()
        + line("TAGTAG")
        + 300 * line(component)
        + line("ENDENDEND");
    assert_eq!(length.to_string(), defined(&header(), "LONGEST_TEXT"));
}

/// Compiles a program of the tests with each compiler and runs it on the
/// paper's list.
fn prints(compilers: &[tools::Compiler], program: &str, expected: &str) {
    let folder = scratch(program);
    for compiler in compilers {
        let built = compiler.compile_here(&format!("{PROGRAMS}/{program}"), &folder);
        let printed = run(Command::new(built).arg(root().join(LIST)));
        assert_eq!(
            printed, expected,
            "{} {:?}",
            compiler.command, compiler.language
        );
    }
}

#[test]
fn the_longest_text_is_written_and_read_and_no_digit_more() {
    prints(&c_compilers(), "longest_text.c", expected::LONGEST_TEXT);
}

#[test]
fn an_empty_run_may_be_null() {
    prints(&c_compilers(), "empty_runs.c", expected::EMPTY_RUNS);
}

#[test]
fn tests_alone_answer_as_the_order() {
    prints(&all_compilers(), "tests_alone.c", expected::TESTS_ALONE);
}

#[test]
fn an_empty_vector_is_an_empty_run() {
    prints(&cplusplus_compilers(), "vectors.cpp", expected::VECTORS);
}

/// The refusals of the library, each number with its words and what its place
/// counts: lines of the table such as `Total = 4, "words", "place";`.
fn refusals() -> BTreeMap<u64, (String, String)> {
    let table = text_of("rust/roffelaine/src/refusal.rs");
    let (_, table) = table.split_once("\nrefusals! {").expect("the table");
    let (table, _) = table.split_once("\n}").expect("the end of the table");
    let rows = table
        .lines()
        .filter_map(|line| line.split_once(" = ")?.1.strip_suffix("\";"));
    let row = |row: &str| {
        let (number, quoted) = row.split_once(", \"").expect("words");
        let (words, place) = quoted.split_once("\", \"").unwrap_or((quoted, ""));
        let number = number.parse().expect("a number");
        (number, (words.to_string(), place.to_string()))
    };
    rows.map(row).collect()
}

#[test]
fn the_helpers_give_reasons_places_and_fields() {
    let mut refusals = refusals();
    assert_eq!(refusals.len(), 21);
    let words = |words: &str| (words.to_string(), String::new());
    refusals.insert(0, words("accepted"));
    refusals.insert(22, words("there is no such refusal"));
    let lines = refusals
        .iter()
        .map(|(number, (words, place))| format!("{number}|{words}|{place}\n"));
    let expected = lines.collect::<String>() + expected::UTILITIES;
    prints(&all_compilers(), "utilities.c", &expected);
}

#[test]
fn the_example_prints_the_paper_day() {
    let folder = scratch("example");
    for compiler in all_compilers() {
        let built = compiler.compile_here(EXAMPLE, &folder);
        assert_eq!(run(&mut Command::new(built)), expected::EXAMPLE);
    }
}

/// What every program has from the C library.
const FROM_OUTSIDE: [&str; 2] = ["memcpy", "memset"];

#[test]
fn the_archive_needs_no_other_name_from_outside() {
    if is_there("nm", "the names that the archive needs") {
        let listed = run(Command::new("nm").arg("-u").arg(archive()));
        // a kind and a name; a line that names a file of the archive has no blank
        let names = listed
            .lines()
            .filter_map(|line| line.trim().split_once(' '));
        let names = names.map(|(_, name)| name);
        let others: Vec<&str> = names.filter(|name| !FROM_OUTSIDE.contains(name)).collect();
        assert_eq!(others, Vec::<&str>::new());
    }
}

/// `make` in the repository, in an environment that names no folders.
fn make(target: &str, words: &[&str]) {
    let mut command = Command::new("make");
    let folders = ["BINDIR", "LIBDIR", "INCLUDEDIR", "MANDIR"];
    for variable in folders.iter().chain(&["MAKEFLAGS", "MFLAGS", "LDFLAGS"]) {
        command.env_remove(variable);
    }
    // The archive is taken as it is: the tests run on it.
    command.args(["-o", "crates/c_interface/out/libc_interface.a"]);
    run(command.arg("-C").arg(root()).arg(target).args(words));
}

/// The files and links below a folder, by their paths from it.
fn files(folder: &Path) -> BTreeSet<String> {
    let mut files = BTreeSet::new();
    let mut folders = vec![folder.to_path_buf()];
    while let Some(next) = folders.pop() {
        for entry in std::fs::read_dir(next).expect("a folder") {
            let entry = entry.expect("an entry");
            if entry.file_type().expect("a kind").is_dir() {
                folders.push(entry.path());
            } else {
                let path = entry.path();
                let path = path.strip_prefix(folder).expect("below the folder");
                files.insert(path.to_str().expect("text").to_string());
            }
        }
    }
    files
}

fn installed_files() -> BTreeSet<String> {
    let shared = format!("lib/libroffelaine.so.{}", version());
    let files = [
        "bin/roffelaine",
        "include/roffelaine.h",
        "include/roffelaine_util.h",
        "lib/libroffelaine.a",
        "lib/libroffelaine.so",
        "lib/libroffelaine.so.0.6",
        &shared,
        "lib/pkgconfig/roffelaine.pc",
        "share/man/man1/roffelaine.1",
    ];
    files.map(str::to_string).into()
}

/// What `pkg-config` says of the library that was installed at a prefix.
fn pkg_config(prefix: &Path, words: &[&str]) -> String {
    let mut command = Command::new("pkg-config");
    command.env("PKG_CONFIG_LIBDIR", prefix.join("lib/pkgconfig"));
    for variable in ["PKG_CONFIG_PATH", "PKG_CONFIG_SYSROOT_DIR"] {
        command.env_remove(variable);
    }
    let said = run(command.args(words).arg("roffelaine"));
    said.trim_end().to_string()
}

/// The example, built with these flags and run with the installed library.
fn example_prints(prefix: &Path, folder: &Path, flags: &[&str]) {
    for compiler in all_compilers() {
        let built = compiler.compile(EXAMPLE, folder, flags);
        let mut command = Command::new(built);
        command.env("LD_LIBRARY_PATH", prefix.join("lib"));
        assert_eq!(run(&mut command), expected::EXAMPLE);
    }
}

/// The example with the shared library, by the flags of `pkg-config`, and with
/// the archive.
fn builds_the_example(prefix: &Path, folder: &Path) {
    let at = prefix.to_str().expect("text");
    if is_there("pkg-config", "the example is not built by its flags") {
        let flags = pkg_config(prefix, &["--cflags", "--libs"]);
        assert_eq!(flags, format!("-I{at}/include -L{at}/lib -lroffelaine"));
        assert_eq!(pkg_config(prefix, &["--modversion"]), version());
        let flags: Vec<&str> = flags.split(' ').collect();
        example_prints(prefix, folder, &flags);
    }
    let (headers, archive) = (
        format!("-I{at}/include"),
        format!("{at}/lib/libroffelaine.a"),
    );
    example_prints(prefix, folder, &[&headers, &archive]);
}

/// The names of the header's functions.
fn functions() -> BTreeSet<String> {
    let header = header();
    let names = header
        .lines()
        .filter_map(|line| line.strip_prefix("uint64_t ")?.strip_suffix('('));
    names.map(str::to_string).collect()
}

/// The shared library shows the header's functions alone, and is asked for by
/// the name that stays.
fn shows_the_calls_alone(prefix: &Path) {
    let link = |name: &str| std::fs::read_link(prefix.join("lib").join(name)).expect("a link");
    let file = format!("libroffelaine.so.{}", version());
    assert_eq!(link("libroffelaine.so"), Path::new("libroffelaine.so.0.6"));
    assert_eq!(link("libroffelaine.so.0.6"), Path::new(&file));
    let library = prefix.join("lib").join(file);
    if is_there("nm", "the names of the shared library") {
        let mut command = Command::new("nm");
        let listed = run(command.args(["-D", "--defined-only"]).arg(&library));
        let names = listed
            .lines()
            .filter_map(|line| line.split_whitespace().last());
        let names: BTreeSet<String> = names.map(str::to_string).collect();
        assert_eq!(names.len(), 14);
        assert_eq!(names, functions());
    }
    if is_there("readelf", "the soname of the shared library") {
        let said = run(Command::new("readelf").arg("-d").arg(&library));
        assert!(said.contains("soname: [libroffelaine.so.0.6]"), "{said}");
        assert!(!said.contains("TEXTREL"), "{said}");
    }
}

const MAN_PAGE: &str = "man/roffelaine.1";

/// The command runs the day of the man page's example on the paper's list.
fn runs_the_day_of_the_man_page(command: &Path, folder: &Path) {
    let page = text_of(MAN_PAGE);
    let day = page.split_once(".Bd -literal -offset indent\n");
    let day = day.and_then(|(_, rest)| rest.split_once(".Ed"));
    let file = folder.join("day.txt");
    std::fs::write(&file, text_of(LIST) + day.expect("a day").0).expect("a file");
    let printed = run(Command::new(command).arg("rehearse").arg(file));
    assert!(printed.contains("6 of 6 expectations met"), "{printed}");
}

/// The man page has each option and each line of a day that `--help` has: lines
/// that start with two blanks, a name, and arguments in capitals.
fn man_page_has_all_that_the_command_takes(command: &Path) {
    let (page, help) = (text_of(MAN_PAGE), run(Command::new(command).arg("--help")));
    let lines = help.lines().filter_map(|line| line.strip_prefix("  "));
    let lines = lines.filter(|line| !line.starts_with("roffelaine "));
    let mut count = 0;
    for line in lines {
        let (usage, _) = line.split_once("  ").unwrap_or((line, ""));
        let is_name = |word: &&str| !word.contains(|each: char| each.is_uppercase());
        let name: Vec<&str> = usage.split(' ').take_while(is_name).collect();
        let item = match name.join(" ") {
            name if name.starts_with('-') => format!("\n.It Fl {}", &name[1..]),
            name => format!("\n.It Cm {name}"),
        };
        assert!(page.contains(&item), "{line}");
        count += 1;
    }
    assert!(count >= 20, "{help}");
}

/// Below another folder, as packages are made: the paths in what is installed
/// are those of the prefix. Then nothing is left of it.
fn installs_below_and_uninstalls(folder: &Path) {
    let (staged, prefix) = (folder.join("staged"), "PREFIX=/srv/roffelaine");
    let below = format!("DESTDIR={}", staged.display());
    make("install", &[prefix, &below]);
    let installed = staged.join("srv/roffelaine");
    assert_eq!(files(&installed), installed_files());
    let module = std::fs::read_to_string(installed.join("lib/pkgconfig/roffelaine.pc"));
    let module = module.expect("a file");
    let start = "prefix=/srv/roffelaine\nlibdir=${prefix}/lib\nincludedir=${prefix}/include\n";
    assert!(module.starts_with(start), "{module}");
    make("uninstall", &[prefix, &below]);
    assert_eq!(files(&staged), BTreeSet::new());
}

#[test]
fn what_is_installed_is_whole_and_goes_again() {
    if !is_there("make", "nothing is installed") {
        return;
    }
    let folder = scratch("install");
    let prefix = folder.join("usr");
    make(
        "install",
        &[&format!("PREFIX={}", prefix.display()), "DESTDIR="],
    );
    assert_eq!(files(&prefix), installed_files());
    builds_the_example(&prefix, &folder);
    shows_the_calls_alone(&prefix);
    let command = prefix.join("bin/roffelaine");
    let said = run(Command::new(&command).arg("--version"));
    assert_eq!(said, format!("roffelaine {}\n", version()));
    runs_the_day_of_the_man_page(&command, &folder);
    man_page_has_all_that_the_command_takes(&command);
    installs_below_and_uninstalls(&folder);
}

#[test]
fn the_man_page_is_well_formed() {
    if is_there("mandoc", "the man page is not checked by it") {
        let mut command = Command::new("mandoc");
        let said = run(command.args(["-Tlint", "-Wall"]).arg(root().join(MAN_PAGE)));
        assert_eq!(said, "");
    }
}
