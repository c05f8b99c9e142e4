//! `chukelowa`: scripts that edit a description, checked and run. Every verdict is a proved call's; this adds
//! text in and text out.

mod bytes;
mod calls;
mod copies;
mod diff;
mod forest;
mod inputs;
mod limits;
mod line;
mod manual;
mod messages;
mod parts;
mod refusals;
mod rules;
mod shape;
mod told;
mod unfit;
mod verbs;

use std::io::Write;
use std::process::ExitCode;

/// Why there is no result.
#[derive(Debug)]
pub enum Trouble {
    /// Exit status 1: a call, or the notation, refused what was asked.
    Refused(String),
    /// Exit status 2: input or output.
    Failed(String),
    /// Exit status 2: the command line, in clap's words.
    Usage(String),
}

impl Trouble {
    /// Reading or writing failed there, in the system's words without its number.
    fn at(name: &str, error: &std::io::Error) -> Trouble {
        let error = error.to_string();
        let words = error.split(" (os error").next().unwrap_or_default();
        Trouble::Failed(format!("{name}: {words}"))
    }
}

fn main() -> ExitCode {
    let words: Vec<_> = std::env::args_os().collect();
    let trouble = match calls::on_a_deep_stack(move || verbs::go(words)) {
        Ok(()) => return ExitCode::SUCCESS,
        Err(trouble) => trouble,
    };
    let (status, message) = match trouble {
        Trouble::Refused(message) => (1, message),
        Trouble::Failed(message) => (2, format!("chukelowa: {message}")),
        Trouble::Usage(message) => (2, message.trim_end().into()),
    };
    // Where even standard error is closed, the exit status is all that is left to say.
    let _ = writeln!(std::io::stderr(), "{message}");
    ExitCode::from(status)
}
