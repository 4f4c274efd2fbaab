//! Compilers and other commands that the tests of the C kit run, and the folders
//! that they work in.

use std::collections::BTreeSet;
use std::ffi::OsStr;
use std::io::Write;
use std::path::{Path, PathBuf};
use std::process::Command;
use std::sync::Mutex;

/// The repository.
pub fn root() -> PathBuf {
    let crate_folder = Path::new(env!("CARGO_MANIFEST_DIR"));
    let root = crate_folder.join("../..");
    root.canonicalize().expect("the repository")
}

pub fn text_of(path: &str) -> String {
    let path = root().join(path);
    std::fs::read_to_string(&path).unwrap_or_else(|error| panic!("{path:?}: {error}"))
}

/// The archive of the proved library.
pub fn archive() -> PathBuf {
    let named = std::env::var_os("ROFFELAINE_ARCHIVE").map(PathBuf::from);
    named.unwrap_or_else(|| root().join("crates/c_interface/out/libc_interface.a"))
}

/// An empty folder for one test.
pub fn scratch(name: &str) -> PathBuf {
    let folder = Path::new(env!("CARGO_TARGET_TMPDIR"))
        .join("c_kit")
        .join(name);
    if folder.exists() {
        std::fs::remove_dir_all(&folder).expect("an old folder removed");
    }
    std::fs::create_dir_all(&folder).expect("a folder");
    folder
}

/// What a command says of its version, if it says one; nothing where there is no
/// such command.
fn version(command: &str) -> Option<String> {
    let said = Command::new(command).arg("--version").output().ok()?;
    let said = String::from_utf8_lossy(&said.stdout).into_owned();
    // the first word is the name by which it was called
    Some(said.split_once(' ').unwrap_or_default().1.to_string())
}

/// Whether there is a command; where there is none, says what is left out.
pub fn is_there(command: &str, left_out: &str) -> bool {
    let found = version(command).is_some();
    if !found {
        skipped(format!("no {command} here: {left_out}"));
    }
    found
}

/// Says once why something is left out, past the capture of a test's output.
fn skipped(why: String) {
    static SAID: Mutex<BTreeSet<String>> = Mutex::new(BTreeSet::new());
    let mut said = SAID.lock().expect("what was said");
    if !said.contains(&why) {
        writeln!(std::io::stderr(), "SKIPPED, {why}").expect("standard error");
        said.insert(why);
    }
}

/// The compilers among these names, each once.
fn compilers(names: [&'static str; 3]) -> Vec<&'static str> {
    let mut versions = Vec::new();
    let mut found = Vec::new();
    for name in names {
        match version(name) {
            None => skipped(format!("no {name} here: nothing is compiled with it")),
            Some(version) if versions.contains(&version) => {}
            Some(version) => {
                versions.push(version);
                found.push(name);
            }
        }
    }
    found
}

/// A compiler with the language that it is to take a source for.
#[derive(Clone, Copy)]
pub struct Compiler {
    pub command: &'static str,
    pub language: &'static [&'static str],
}

const C99: &[&str] = &["-std=c99", "-x", "c"];
const C_PLUS_PLUS: [&[&str]; 2] = [&["-std=c++11", "-x", "c++"], &["-std=c++17", "-x", "c++"]];

/// The compilers of C, of which `cc` has to be there.
pub fn c_compilers() -> Vec<Compiler> {
    let found = compilers(["cc", "gcc", "clang"]);
    assert!(found.contains(&"cc"), "no cc here");
    let compiler = |command| Compiler {
        command,
        language: C99,
    };
    found.into_iter().map(compiler).collect()
}

/// The compilers of C++, in two of its versions; there may be none.
pub fn cplusplus_compilers() -> Vec<Compiler> {
    let both = |command| {
        C_PLUS_PLUS.map(|language: &'static [&'static str]| Compiler { command, language })
    };
    let found = compilers(["c++", "g++", "clang++"]);
    found.into_iter().flat_map(both).collect()
}

pub fn all_compilers() -> Vec<Compiler> {
    let mut all = c_compilers();
    all.extend(cplusplus_compilers());
    all
}

/// Warnings are errors.
const STRICT: [&str; 5] = ["-pedantic", "-Wall", "-Wextra", "-Werror", "-O2"];

impl Compiler {
    /// Compiles a source of the repository into a folder, strictly; the words
    /// stand behind the source, as libraries must.
    pub fn compile<W: AsRef<OsStr>>(&self, source: &str, folder: &Path, words: &[W]) -> PathBuf {
        let program = folder.join("program");
        let mut command = Command::new(self.command);
        command.args(self.language).args(STRICT);
        command.arg(root().join(source)).args(["-x", "none"]);
        run(command.args(words).arg("-o").arg(&program));
        program
    }

    /// Compiles a source against the repository's headers and archive.
    pub fn compile_here(&self, source: &str, folder: &Path) -> PathBuf {
        let mut headers = std::ffi::OsString::from("-I");
        headers.push(root().join("include"));
        self.compile(source, folder, &[headers, archive().into_os_string()])
    }
}

/// Runs a command that has to succeed; what it writes to standard output.
pub fn run(command: &mut Command) -> String {
    let done = command
        .output()
        .unwrap_or_else(|error| panic!("{command:?}: {error}"));
    let text = |bytes: Vec<u8>| String::from_utf8(bytes).expect("text");
    let (out, err) = (text(done.stdout), text(done.stderr));
    assert!(
        done.status.success(),
        "{command:?}: {}\n{out}{err}",
        done.status
    );
    out
}
