//! The command line.

use std::ffi::OsString;

/// What the command is asked for.
#[derive(Clone, Debug, PartialEq, Eq)]
pub enum Request {
    Rehearse {
        day: OsString,
        form: Form,
        strict: bool,
        crlf: bool,
    },
    List {
        file: OsString,
        crlf: bool,
        output: Option<OsString>,
    },
    Reconcile {
        day: OsString,
        positions: OsString,
        crlf: bool,
    },
    Refusals,
    Help,
    Version,
}

/// The form that a rehearsal is printed in.
#[derive(Clone, Copy, Debug, Default, PartialEq, Eq)]
pub enum Form {
    #[default]
    Text,
    Csv,
    Json,
    Html,
}

/// What `--help` says.
pub const HELP: &str = include_str!("help.txt");

/// The options that were given, and the rest.
#[derive(Default)]
struct Given {
    files: Vec<OsString>,
    form: Option<Form>,
    strict: bool,
    crlf: bool,
    output: Option<OsString>,
    help: bool,
}

/// What the words behind the command's name ask for, or why they ask for
/// nothing.
pub fn request(words: impl IntoIterator<Item = OsString>) -> Result<Request, String> {
    let mut words = words.into_iter();
    let Some(first) = words.next() else {
        return Err("what is to be done is missing".to_string());
    };
    let command = first.to_string_lossy().into_owned();
    let given = Given::of(words)?;
    if given.help || matches!(command.as_str(), "--help" | "-h" | "help") {
        return Ok(Request::Help);
    }
    match command.as_str() {
        "--version" | "-V" => given.allow("", &[]).map(|_| Request::Version),
        "refusals" => given.allow("refusals", &[]).map(|_| Request::Refusals),
        "rehearse" => given.rehearse(),
        "list" => given.list(),
        "reconcile" => given.reconcile(),
        other => Err(format!("{other:?} is no command")),
    }
}

impl Given {
    fn of(mut words: impl Iterator<Item = OsString>) -> Result<Self, String> {
        let mut given = Given::default();
        while let Some(word) = words.next() {
            match word.to_string_lossy().as_ref() {
                "--csv" => given.form(Form::Csv)?,
                "--json" => given.form(Form::Json)?,
                "--html" => given.form(Form::Html)?,
                "--strict" => given.strict = true,
                "--crlf" => given.crlf = true,
                "--help" | "-h" => given.help = true,
                "-o" => {
                    let output = words.next().ok_or("-o: a file is missing")?;
                    given.output = Some(output);
                }
                "--" => given.files.extend(words.by_ref()),
                option if option.starts_with('-') && option != "-" => {
                    return Err(format!("{option:?} is no option"));
                }
                _ => given.files.push(word),
            }
        }
        Ok(given)
    }

    fn form(&mut self, form: Form) -> Result<(), String> {
        match self.form.replace(form) {
            Some(before) if before != form => {
                Err("one of --csv, --json and --html is enough".to_string())
            }
            _ => Ok(()),
        }
    }

    /// The files where they are as many as are named, and no option was given
    /// that the command has not.
    fn allow(&self, options: &str, files: &[&str]) -> Result<Vec<OsString>, String> {
        let given = [
            ("--csv, --json or --html", self.form.is_some(), "form"),
            ("--strict", self.strict, "strict"),
            ("--crlf", self.crlf, "crlf"),
            ("-o", self.output.is_some(), "output"),
        ];
        for (name, is_given, key) in given {
            if is_given && !options.contains(key) {
                return Err(format!("{name} is no option here"));
            }
        }
        if let Some(missing) = files.get(self.files.len()) {
            return Err(format!("{missing} is missing"));
        }
        match self.files.get(files.len()) {
            Some(more) => Err(format!("{more:?} is one file too many")),
            None => Ok(self.files.clone()),
        }
    }

    fn rehearse(self) -> Result<Request, String> {
        let mut files = self.allow("form strict crlf", &["DAY"])?;
        Ok(Request::Rehearse {
            day: files.remove(0),
            form: self.form.unwrap_or_default(),
            strict: self.strict,
            crlf: self.crlf,
        })
    }

    fn list(self) -> Result<Request, String> {
        let mut files = self.allow("crlf output", &["FILE"])?;
        if self.output.is_some() && !self.crlf {
            return Err("-o writes what --crlf mends; give --crlf too".to_string());
        }
        if self.output.as_deref().is_some_and(|output| output == "-") {
            return Err("-o: a file, not -".to_string());
        }
        Ok(Request::List {
            file: files.remove(0),
            crlf: self.crlf,
            output: self.output,
        })
    }

    fn reconcile(self) -> Result<Request, String> {
        let mut files = self.allow("crlf", &["DAY", "POSITIONS.csv"])?;
        Ok(Request::Reconcile {
            day: files.remove(0),
            positions: files.remove(0),
            crlf: self.crlf,
        })
    }
}

#[cfg(test)]
mod tests {
    use super::*;

    fn asked(words: &str) -> Result<Request, String> {
        request(
            words
                .split(' ')
                .filter(|word| !word.is_empty())
                .map(OsString::from),
        )
    }

    #[test]
    fn commands_take_their_options_anywhere() {
        assert_eq!(
            asked("rehearse --strict - --json"),
            Ok(Request::Rehearse {
                day: "-".into(),
                form: Form::Json,
                strict: true,
                crlf: false
            })
        );
        assert_eq!(
            asked("list a --crlf -o b"),
            Ok(Request::List {
                file: "a".into(),
                crlf: true,
                output: Some("b".into())
            })
        );
        for words in ["--help", "-h", "help", "rehearse --help", "list x -h"] {
            assert_eq!(asked(words), Ok(Request::Help), "{words:?}");
        }
        assert_eq!(asked("refusals"), Ok(Request::Refusals));
    }

    #[test]
    fn what_is_not_asked_for_is_said() {
        let faults = [
            ("", "what is to be done is missing"),
            ("rehears x", "\"rehears\" is no command"),
            ("rehearse", "DAY is missing"),
            ("rehearse a b", "\"b\" is one file too many"),
            ("rehearse a --xml", "\"--xml\" is no option"),
            (
                "rehearse a --csv --html",
                "one of --csv, --json and --html is enough",
            ),
            ("reconcile a", "POSITIONS.csv is missing"),
            ("reconcile a b --strict", "--strict is no option here"),
            ("list a -o", "-o: a file is missing"),
            (
                "list a -o b",
                "-o writes what --crlf mends; give --crlf too",
            ),
            ("list a --crlf -o -", "-o: a file, not -"),
            ("refusals x", "\"x\" is one file too many"),
        ];
        for (words, why) in faults {
            assert_eq!(asked(words), Err(why.to_string()), "{words:?}");
        }
    }
}
