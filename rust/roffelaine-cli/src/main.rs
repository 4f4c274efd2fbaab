//! The command `roffelaine`: rehearses an ETF's day on the proved day book.
#![forbid(unsafe_code)]

mod args;
mod csv;
mod flag_rows;
mod html;
mod input;
mod json;
mod list_command;
mod names;
mod positions;
mod posting;
mod reasons;
mod reconcile;
mod rehearse;
mod said;
#[cfg(test)]
mod sample;
mod session;
mod statement;
mod text;

use args::{request, Request, HELP};
use std::io::{self, Write};
use std::process::ExitCode;

/// Something was not understood, not expected or refused.
const NOT_CLEAN: u8 = 1;
/// Usage and files.
const UNUSABLE: u8 = 2;

fn main() -> ExitCode {
    let asked = match request(std::env::args_os().skip(1)) {
        Ok(asked) => asked,
        Err(why) => {
            eprintln!("roffelaine: {why}\nroffelaine --help says how it is used");
            return ExitCode::from(UNUSABLE);
        }
    };
    match answer(&asked) {
        Ok(true) => ExitCode::SUCCESS,
        Ok(false) => ExitCode::from(NOT_CLEAN),
        Err(why) => {
            if !why.is_empty() {
                eprintln!("roffelaine: {why}");
            }
            ExitCode::from(UNUSABLE)
        }
    }
}

/// Does what is asked; whether all was clean, or why it could not be done.
fn answer(asked: &Request) -> Result<bool, String> {
    let mut out = io::BufWriter::with_capacity(1 << 16, io::stdout().lock());
    let clean = match asked {
        Request::Help => write!(out, "{HELP}").map(|()| true).map_err(output_error),
        Request::Version => {
            let version = env!("CARGO_PKG_VERSION");
            let written = writeln!(out, "roffelaine {version}");
            written.map(|()| true).map_err(output_error)
        }
        Request::Refusals => refusals(&mut out).map(|()| true).map_err(output_error),
        Request::Rehearse {
            day,
            form,
            strict,
            crlf,
        } => rehearse::run(&mut out, day, *form, *strict, *crlf),
        Request::List { file, crlf, output } => {
            list_command::run(&mut out, file, *crlf, output.as_deref())
        }
        Request::Reconcile {
            day,
            positions,
            crlf,
        } => reconcile::run(&mut out, day, positions, *crlf),
    }?;
    out.flush().map_err(output_error)?;
    Ok(clean)
}

/// Why the output could not be written; nothing where nobody reads on.
fn output_error(error: io::Error) -> String {
    match error.kind() {
        io::ErrorKind::BrokenPipe => String::new(),
        _ => format!("standard output: {error}"),
    }
}

/// Every refusal with its words.
fn refusals(out: &mut impl Write) -> io::Result<()> {
    for meaning in roffelaine::REFUSALS {
        write!(out, "{:>2} {}", meaning.number, meaning.words)?;
        match meaning.place {
            "" => writeln!(out)?,
            place => writeln!(out, " (place: {place})")?,
        }
    }
    Ok(())
}
