//! Links the archive of the proved library.

use std::env;
use std::path::{Path, PathBuf};
use std::process::ExitCode;

/// Names the archive where it does not stand in the repository.
const VARIABLE: &str = "ROFFELAINE_ARCHIVE";
/// Where the repository has it, from this crate.
const IN_REPOSITORY: &str = "../../crates/c_interface/out/libc_interface.a";

fn main() -> ExitCode {
    println!("cargo:rerun-if-env-changed={VARIABLE}");
    let archive = archive_path();
    println!("cargo:rerun-if-changed={}", archive.display());
    match link(&archive) {
        Ok(()) => ExitCode::SUCCESS,
        Err(why) => {
            eprintln!("{why}");
            ExitCode::FAILURE
        }
    }
}

fn archive_path() -> PathBuf {
    env::var_os(VARIABLE).map_or_else(
        || Path::new(env!("CARGO_MANIFEST_DIR")).join(IN_REPOSITORY),
        PathBuf::from,
    )
}

/// Says what to link. The archive needs memcpy and memset besides, which
/// every Rust program has from the C library.
fn link(archive: &Path) -> Result<(), String> {
    let target = env::var("TARGET").unwrap_or_default();
    if !target.starts_with("x86_64-") || !target.contains("linux") {
        return Err(format!("the archive is for x86-64 Linux, not {target}"));
    }
    let folder = archive
        .canonicalize()
        .map_err(|error| missing(archive, &error))?;
    let (folder, name) = (folder.parent(), archive.file_name());
    let name = name.and_then(|name| name.to_str()?.strip_prefix("lib")?.strip_suffix(".a"));
    let (Some(folder), Some(name)) = (folder, name) else {
        return Err(format!("{}: not an archive lib*.a", archive.display()));
    };
    println!("cargo:rustc-link-search=native={}", folder.display());
    println!("cargo:rustc-link-lib=static={name}");
    Ok(())
}

fn missing(archive: &Path, error: &std::io::Error) -> String {
    format!(
        "{}: {error}\n\
         The proved archive is not there. Run `scripts/prove c_interface` in the root of\n\
         the repository, or let {VARIABLE} name the archive libc_interface.a.",
        archive.display()
    )
}
