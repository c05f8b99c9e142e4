//! `second`: answers, listings, notation, cases and comparison for bundles of document 01.

use notation::{assemble_all, line_and_column, Source, Spare};
use second::answers::{answers, apply_listing, RESULT_ROWS, WORKING_ROWS};
use second::cases::Cases;
use second::{bundles, cases, compare, splits};
use std::fmt::Write as _;
use std::io::{Read, Write};
use std::path::Path;
use std::process::ExitCode;

/// One command: its word, what goes with it, and what it does, in lines.
struct Command {
    word: &'static str,
    arguments: &'static str,
    does: &'static [&'static str],
}

const COMMANDS: [Command; 9] = [
    Command {
        word: "apply",
        arguments: "",
        does: &["the listing of the program apply, for a bundle from standard input"],
    },
    Command {
        word: "answers",
        arguments: "[WORK RESULT]",
        does: &[
            "every question's reply to a bundle from standard input,",
            "with so many working and result rows lent (6144 and 8192 if not said)",
        ],
    },
    Command {
        word: "assemble",
        arguments: "",
        does: &["the bundle of a text in the notation, from standard input"],
    },
    Command {
        word: "list",
        arguments: "",
        does: &["the text of a bundle from standard input, in the notation"],
    },
    Command {
        word: "cases",
        arguments: "[--unfit] SEED COUNT DIR",
        does: &[
            "writes random and damaged bundles, the same for a seed, and counts their answers;",
            "with --unfit the forest of every other one is one fault away from type A, at every depth",
        ],
    },
    Command {
        word: "faults",
        arguments: "DIR",
        does: &["writes bundles with one fault each, and bundles at the edge of each rule"],
    },
    Command {
        word: "selfcheck",
        arguments: "SEED COUNT",
        does: &["holds the same cases against what is promised of passed scripts, and against more fuel"],
    },
    Command {
        word: "splits",
        arguments: "SEED COUNT",
        does: &["splits so many random descriptions in two, runs both halves and the whole, and compares them"],
    },
    Command {
        word: "compare",
        arguments: "[--apply] [--only WORD,WORD...] PROGRAM DIR",
        does: &[
            "compares the answers of another program to the bundles of a folder;",
            "PROGRAM is a path, or a path and its first arguments in one word, with blanks between;",
            "--apply compares the listing of apply; --only compares the lines of these questions alone;",
            "ends with 0 if nothing differs, 1 if something does, 2 if it cannot be done",
        ],
    },
];

/// Why there is no result.
enum Trouble {
    /// The words are not understood.
    Usage(String),
    /// It was tried and failed, for these reasons.
    Failed(Vec<String>),
}

impl From<String> for Trouble {
    fn from(message: String) -> Trouble {
        Trouble::Failed(vec![message])
    }
}

fn main() -> ExitCode {
    let args: Vec<String> = std::env::args().skip(1).collect();
    let words: Vec<&str> = args.iter().map(String::as_str).collect();
    match go(&words) {
        Ok(status) => ExitCode::from(status),
        Err(Trouble::Usage(message)) => {
            eprintln!("second: {message}");
            ExitCode::from(2)
        }
        Err(Trouble::Failed(messages)) => {
            messages
                .iter()
                .for_each(|message| eprintln!("second: {message}"));
            ExitCode::FAILURE
        }
    }
}

fn go(words: &[&str]) -> Result<u8, Trouble> {
    if words.iter().any(|word| ["--help", "-h"].contains(word)) {
        return print(help(words[0])?.as_bytes());
    }
    match words {
        ["apply"] => print(apply_listing(&input()?).as_bytes()),
        ["answers"] => print(answers(&input()?, WORKING_ROWS, RESULT_ROWS).as_bytes()),
        ["answers", work, result] => {
            let (work, result) = (number(work)?, number(result)?);
            print(answers(&input()?, work, result).as_bytes())
        }
        ["assemble"] => assemble(),
        ["list"] => list(),
        ["cases", "--unfit", seed, count, directory] => {
            write_cases(Cases::half_unfit(number(seed)?), count, directory)
        }
        ["cases", seed, count, directory] => {
            write_cases(Cases::new(number(seed)?), count, directory)
        }
        ["faults", directory] => {
            cases::write_faults(Path::new(directory))?;
            Ok(0)
        }
        ["selfcheck", seed, count] => {
            let report = cases::self_check(number(seed)?, number(count)?)?;
            print(report.as_bytes())
        }
        ["splits", seed, count] => {
            let tally = splits::compare(number(seed)?, number(count)?)?;
            print(tally.to_string().as_bytes())
        }
        ["compare", rest @ ..] => {
            let report = compare::compare(rest).map_err(Trouble::Usage)?;
            print(report.text.as_bytes())?;
            Ok(u8::from(report.differences > 0))
        }
        _ => Err(not_understood(words)),
    }
}

fn write_cases(cases: Cases, count: &str, directory: &str) -> Result<u8, Trouble> {
    let histogram = cases::write_cases(cases, number(count)?, Path::new(directory))?;
    print(histogram.to_string().as_bytes())
}

fn not_understood(words: &[&str]) -> Trouble {
    let known = words.first().and_then(|word| command(word));
    Trouble::Usage(match (known, words) {
        (Some(known), _) => format!("usage: {}", usage(known)),
        (None, [word, ..]) => format!("there is no command {word:?}; `second --help` has them all"),
        (None, []) => "say what to do; `second --help` has all commands".into(),
    })
}

fn command(word: &str) -> Option<&'static Command> {
    COMMANDS.iter().find(|command| command.word == word)
}

fn usage(command: &Command) -> String {
    let line = format!("second {} {}", command.word, command.arguments);
    line.trim_end().into()
}

/// What `--help` prints, for one command or for all.
fn help(word: &str) -> Result<String, Trouble> {
    let shown = match command(word) {
        Some(command) => std::slice::from_ref(command),
        None if ["--help", "-h"].contains(&word) => &COMMANDS,
        None => return Err(not_understood(&[word])),
    };
    let mut text = String::from("usage:\n");
    for command in shown {
        // A string takes all.
        let _ = writeln!(text, "  {}", usage(command));
        for line in command.does {
            let _ = writeln!(text, "      {line}");
        }
    }
    Ok(text)
}

fn assemble() -> Result<u8, Trouble> {
    let bytes = input()?;
    let source = Source {
        name: "standard input",
        bytes: &bytes,
    };
    let assembled = assemble_all(&[source], Spare::default()).map_err(|faults| {
        let told = faults.iter().map(|fault| {
            let (line, column) = line_and_column(&bytes, fault.place.start);
            format!("line {line}, column {column}: {fault}")
        });
        Trouble::Failed(told.collect())
    })?;
    print(&bundles::to_bundle(&assembled.sheet))
}

fn list() -> Result<u8, Trouble> {
    let refused = |refusal| format!("the bundle is refused: {refusal:?}");
    let sheet = bundles::read(&input()?).map_err(refused)?;
    print(notation::list(&sheet).as_bytes())
}

fn number<T: std::str::FromStr>(word: &str) -> Result<T, Trouble> {
    word.parse()
        .map_err(|_| Trouble::Usage(format!("not a number: {word:?}")))
}

fn input() -> Result<Vec<u8>, String> {
    let mut bytes = Vec::new();
    let read = std::io::stdin().read_to_end(&mut bytes);
    read.map_err(|error| format!("standard input: {error}"))?;
    Ok(bytes)
}

fn print(bytes: &[u8]) -> Result<u8, Trouble> {
    let mut out = std::io::stdout().lock();
    let written = out.write_all(bytes).and_then(|()| out.flush());
    written.map_err(|error| format!("standard output: {error}"))?;
    Ok(0)
}
