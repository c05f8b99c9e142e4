//! The command line, by clap: the verbs, their options and help. The completions and the manual are made of the same.

use crate::Trouble;
use clap::builder::PossibleValuesParser;
use clap::{value_parser, Arg, ArgAction, ArgMatches, Command};
use clap_complete::Shell;
use std::ffi::OsString;
use std::path::PathBuf;

/// How a result is written.
#[derive(Clone, Copy, Debug, PartialEq, Eq)]
pub enum Form {
    Text,
    Rows,
    Bundle,
}

/// What is asked.
#[derive(Debug, PartialEq, Eq)]
pub enum Verb {
    Check,
    Fit { type_name: Option<String> },
    Run(Form),
    Apply(Form),
    Diff,
    Assemble,
    List,
    Explain { refusal: String },
    Completions(Shell),
    Manual,
}

/// The whole command line.
#[derive(Debug, PartialEq, Eq)]
pub struct Line {
    pub verb: Verb,
    pub files: Vec<PathBuf>,
    pub output: Option<PathBuf>,
    /// How many rows are lent, if not as many as `apply` always lends.
    pub work_rows: Option<u16>,
    pub result_rows: Option<u16>,
}

const ABOUT: &str = "Edits descriptions by scripts that are checked first; every verdict comes from proved code.";

const AFTER: &str = "\
Script, types and description may stand in separate files, in any order; `-`, or no file, is standard input.
A bundle is taken wherever text is. Standard output has the result alone, standard error all messages.

Exit status: 0 done, 1 refused, 2 usage, input or output failure.

The notation: docs/NOTATION.md. The refusals: `chukelowa explain N`, docs/REFUSALS.md.";

pub fn command() -> Command {
    let version = match archive::PROVED {
        true => concat!(env!("CARGO_PKG_VERSION"), " (with the archive that was proved)"),
        false => concat!(
            env!("CARGO_PKG_VERSION"),
            " (with an archive that was compiled and not proved: `.ci/run` proves it)"
        ),
    };
    let verb = |name, about: &'static str| Command::new(name).about(about).version(version);
    let edit = |name, about| verb(name, about).args([files(), output(), rows(), bundle(), work_rows(), result_rows()]);
    Command::new("chukelowa")
        .about(ABOUT)
        .version(version)
        .after_help(AFTER)
        .subcommand_required(true)
        .subcommand_value_name("VERB")
        .subcommand_help_heading("Verbs")
        .arg_required_else_help(true)
        .subcommands([
            verb("check", "Does the script take every description of type A (`from`) into one of type B (`to`)?")
                .args([files(), work_rows()]),
            edit(
                "apply",
                "Check, fit against A, run: the edited description, as text that the next script takes as it is",
            ),
            verb("fit", "Is the description of type A, or of the type that is named?").args([files(), type_name()]),
            edit("run", "The edit without the check, to try a thing"),
            verb("diff", "What apply changes: the description before and after, as a unified diff").args([
                files(),
                output(),
                work_rows(),
                result_rows(),
            ]),
            verb("assemble", "Text to bundle").args([files(), output()]),
            verb("list", "Bundle to text").args([files(), output()]),
            verb("explain", "A refusal in words, with a small example").arg(refusal()),
            verb("completions", "The completions of this command for a shell").arg(shell()),
            verb("manual", "The manual page, for man: chukelowa manual > chukelowa.1"),
        ])
}

fn files() -> Arg {
    Arg::new("files")
        .value_name("FILE")
        .num_args(0..)
        .value_parser(value_parser!(PathBuf))
        .help("Script, types and description, as text or bundle, in any order; `-` or none is standard input")
}

fn output() -> Arg {
    Arg::new("output")
        .short('o')
        .long("output")
        .value_name("FILE")
        .value_parser(value_parser!(PathBuf))
        .help("Write the result to this file; `-` is standard output")
}

fn rows() -> Arg {
    let help = "Write the listing: a line for each part with its units, then the result's rows as numbers";
    Arg::new("rows").long("rows").action(ArgAction::SetTrue).conflicts_with("bundle").help(help)
}

fn bundle() -> Arg {
    let help = "Write a bundle that holds the edited description";
    Arg::new("bundle").long("bundle").action(ArgAction::SetTrue).help(help)
}

fn type_name() -> Arg {
    let help = "A type name, `A` (from), `B` (to), or the number of a type row";
    Arg::new("type").long("type").value_name("T").help(help)
}

fn work_rows() -> Arg {
    lent("work-rows", "Lend so many working rows, as a caller in C may [default: 6144, always enough]")
}

fn result_rows() -> Arg {
    lent("result-rows", "Lend so many rows for the result [default: 8192]")
}

fn lent(name: &'static str, help: &'static str) -> Arg {
    Arg::new(name).long(name).value_name("N").value_parser(value_parser!(u16)).help(help)
}

fn refusal() -> Arg {
    Arg::new("refusal").value_name("N").required(true).help("A number from 1 to 13, or a refusal's name")
}

fn shell() -> Arg {
    Arg::new("shell")
        .value_name("SHELL")
        .required(true)
        .value_parser(PossibleValuesParser::new(["bash", "elvish", "fish", "powershell", "zsh"]))
        .help("The shell")
}

/// The command line in these words; of help and version the text that is wanted.
pub fn parse(words: Vec<OsString>) -> Result<Result<Line, String>, Trouble> {
    use clap::error::ErrorKind::{DisplayHelp, DisplayVersion};
    match command().try_get_matches_from(words) {
        Ok(matches) => Ok(Ok(line(&matches))),
        Err(error) if [DisplayHelp, DisplayVersion].contains(&error.kind()) => Ok(Err(error.to_string())),
        Err(error) => Err(Trouble::Usage(error.to_string())),
    }
}

fn line(matches: &ArgMatches) -> Line {
    let (verb, matches) = matches.subcommand().expect("clap asks for a verb");
    let text = |name: &str| matches.get_one::<String>(name).cloned();
    let verb = match verb {
        "check" => Verb::Check,
        "fit" => Verb::Fit { type_name: text("type") },
        "run" => Verb::Run(form(matches)),
        "apply" => Verb::Apply(form(matches)),
        "diff" => Verb::Diff,
        "assemble" => Verb::Assemble,
        "list" => Verb::List,
        "explain" => Verb::Explain { refusal: text("refusal").expect("clap asks for it") },
        "completions" => {
            Verb::Completions(text("shell").expect("clap asks for it").parse().expect("a shell of the list"))
        }
        _ => Verb::Manual,
    };
    // A verb that has no such argument has none of its values.
    let one = |name: &str| matches.try_get_one::<PathBuf>(name).ok().flatten().cloned();
    let number = |name: &str| matches.try_get_one::<u16>(name).ok().flatten().copied();
    let files = matches.try_get_many::<PathBuf>("files").ok().flatten();
    Line {
        verb,
        files: files.map_or(Vec::new(), |files| files.cloned().collect()),
        output: one("output").filter(|path| path.as_os_str() != "-"),
        work_rows: number("work-rows"),
        result_rows: number("result-rows"),
    }
}

fn form(matches: &ArgMatches) -> Form {
    match (matches.get_flag("rows"), matches.get_flag("bundle")) {
        (true, _) => Form::Rows,
        (_, true) => Form::Bundle,
        _ => Form::Text,
    }
}
