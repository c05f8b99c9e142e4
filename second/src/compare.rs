//! `second compare`: another program's answers against this one's, case by case.

mod shrink;

use crate::answers::{answers, apply_listing, RESULT_ROWS, WORKING_ROWS};
use crate::notation;
use crate::{bundles, tables::Sheet};
use std::ffi::OsStr;
use std::fmt::Write;
use std::io::{Read, Write as _};
use std::path::{Path, PathBuf};
use std::process::{Child, Command, Stdio};
use std::sync::mpsc;
use std::time::Duration;

const USAGE: &str = "usage: second compare [--apply] [--only WORD,WORD...] PROGRAM DIR";

/// The first words of the lines of `answers`, and those of the listing of `apply`.
const QUESTIONS: [&str; 5] = ["read", "check", "fit", "run", "apply"];
const LISTED: [&str; 4] = ["load", "check", "fit", "run"];

/// A program that gives no answer for so long is ended.
const PATIENCE: Duration = Duration::from_secs(20);
/// How often the program is started to make the first difference smaller.
const SHRINKING_STARTS: usize = 4_000;
/// How many lines of an answer are shown.
const SHOWN_LINES: usize = 40;

/// How many cases differ, and what is to be said of it.
pub struct Report {
    pub differences: usize,
    pub text: String,
}

/// Compares as the words say, or says in a line why not.
pub fn compare(words: &[&str]) -> Result<Report, String> {
    Comparison::of(words)?.report()
}

/// What is compared with what.
struct Comparison {
    /// The program's path and first arguments.
    program: Vec<String>,
    directory: PathBuf,
    /// The listing of `apply` is compared and not the answers to all questions.
    apply: bool,
    /// The questions whose lines are compared; none means all.
    only: Vec<String>,
}

/// One bundle and the rows lent with it.
struct Case {
    name: String,
    bundle: Vec<u8>,
    work: usize,
    result: usize,
}

/// The compared lines of both programs where they are not the same.
struct Difference {
    own: Vec<String>,
    theirs: Vec<String>,
}

impl Comparison {
    fn of(words: &[&str]) -> Result<Comparison, String> {
        let mut apply = false;
        let mut only = Vec::new();
        let mut places = Vec::new();
        let mut words = words.iter();
        while let Some(word) = words.next() {
            match *word {
                "--apply" => apply = true,
                "--only" => only.extend(words.next().ok_or(USAGE)?.split(',').map(str::to_string)),
                flag if flag.starts_with("--") => {
                    return Err(format!("there is no {flag}; {USAGE}"))
                }
                place => places.push(place),
            }
        }
        let [program, directory] = places[..] else {
            return Err(USAGE.into());
        };
        check_only(&only, if apply { &LISTED } else { &QUESTIONS })?;
        Ok(Comparison {
            program: program.split_whitespace().map(str::to_string).collect(),
            directory: directory.into(),
            apply,
            only,
        })
    }

    fn report(&self) -> Result<Report, String> {
        let paths = bundles_in(&self.directory)?;
        let mut different = Vec::new();
        let mut first = None;
        for path in &paths {
            let case = Case::at(path)?;
            if let Some(difference) = self.difference(&case)? {
                different.push(case.name.clone());
                first.get_or_insert((case, difference));
            }
        }
        let differences = different.len();
        let mut text = format!("{} cases, {differences} different\n", paths.len());
        if let Some((case, difference)) = first {
            different.truncate(SHOWN_LINES);
            push_line(
                &mut text,
                format_args!("different: {}", different.join(" ")),
            );
            self.explain(&mut text, case, difference)?;
        }
        Ok(Report { differences, text })
    }

    /// Runs the program on a case; what differs, if anything does.
    fn difference(&self, case: &Case) -> Result<Option<Difference>, String> {
        let running = Running::start(self.command(case)?, &case.bundle)?;
        let own = self.compared(&self.own_answer(case));
        let (printed, fault) = running.end();
        let mut theirs = self.compared(&printed);
        theirs.extend(fault);
        Ok((own != theirs).then_some(Difference { own, theirs }))
    }

    fn command(&self, case: &Case) -> Result<Command, String> {
        let [path, first_arguments @ ..] = &self.program[..] else {
            return Err(USAGE.into());
        };
        let mut command = Command::new(path);
        command.args(first_arguments);
        if !self.apply {
            command.args([case.work.to_string(), case.result.to_string()]);
        }
        Ok(command)
    }

    fn own_answer(&self, case: &Case) -> String {
        if self.apply {
            apply_listing(&case.bundle)
        } else {
            answers(&case.bundle, case.work, case.result)
        }
    }

    /// The lines to compare, line ends included. A line that begins with a number belongs to the
    /// question above it.
    fn compared(&self, answer: &str) -> Vec<String> {
        let mut wanted = true;
        let is_compared = |line: &&str| {
            if !line.starts_with(|first: char| first.is_ascii_digit()) {
                let question = line.split_whitespace().next().unwrap_or_default();
                wanted = self.only.is_empty() || self.only.iter().any(|word| word == question);
            }
            wanted
        };
        let lines = answer.split_inclusive('\n').filter(is_compared);
        lines.map(str::to_string).collect()
    }

    /// Describes a difference, in a case as small as can be found.
    fn explain(&self, text: &mut String, case: Case, difference: Difference) -> Result<(), String> {
        push_line(text, format_args!("\nthe first, {}:", case.name));
        let Ok(sheet) = bundles::read(&case.bundle) else {
            push_line(
                text,
                format_args!("a bundle that is refused, so it is not made smaller"),
            );
            difference.show(text);
            return Ok(());
        };
        let (sheet, difference) = self.smallest(sheet, &case, difference)?;
        push_line(
            text,
            format_args!(
                "lent {} and {} rows, made smaller:\n",
                case.work, case.result
            ),
        );
        text.push_str(&notation::list(&sheet));
        difference.show(text);
        Ok(())
    }

    fn smallest(
        &self,
        sheet: Sheet,
        case: &Case,
        first: Difference,
    ) -> Result<(Sheet, Difference), String> {
        let mut last = Ok(first);
        let sheet = shrink::shrunk(sheet, SHRINKING_STARTS, |sheet| {
            let smaller = Case {
                bundle: bundles::to_bundle(sheet),
                name: case.name.clone(),
                ..*case
            };
            match self.difference(&smaller) {
                Ok(Some(difference)) => {
                    last = Ok(difference);
                    true
                }
                Ok(None) => false,
                Err(message) => {
                    last = Err(message);
                    false
                }
            }
        });
        Ok((sheet, last?))
    }
}

impl Case {
    /// The case whose bundle is at `path`, with its lent rows if a file beside it names them.
    fn at(path: &Path) -> Result<Case, String> {
        let failed = |error: std::io::Error| format!("{}: {error}", path.display());
        let bundle = std::fs::read(path).map_err(failed)?;
        let args = path.with_extension("args");
        let (work, result) = if args.exists() {
            let line = std::fs::read_to_string(&args).map_err(failed)?;
            lent_rows(&line).ok_or(format!("{}: expected WORK RESULT", args.display()))?
        } else {
            (WORKING_ROWS, RESULT_ROWS)
        };
        let name = path
            .file_stem()
            .unwrap_or_default()
            .to_string_lossy()
            .into();
        Ok(Case {
            name,
            bundle,
            work,
            result,
        })
    }
}

fn lent_rows(line: &str) -> Option<(usize, usize)> {
    let (work, result) = line.trim().split_once(' ')?;
    Some((work.parse().ok()?, result.trim().parse().ok()?))
}

/// The bundles of a folder, in the order of their names.
fn bundles_in(directory: &Path) -> Result<Vec<PathBuf>, String> {
    let failed = |error: std::io::Error| format!("{}: {error}", directory.display());
    let mut paths = Vec::new();
    for entry in std::fs::read_dir(directory).map_err(failed)? {
        let path = entry.map_err(failed)?.path();
        if path.extension() == Some(OsStr::new("bundle")) {
            paths.push(path);
        }
    }
    paths.sort();
    if paths.is_empty() {
        return Err(format!(
            "{}: there is no case, no file *.bundle",
            directory.display()
        ));
    }
    Ok(paths)
}

/// Refuses a word that begins no line, with which nothing would be compared.
fn check_only(only: &[String], known: &[&str]) -> Result<(), String> {
    match only.iter().find(|word| !known.contains(&word.as_str())) {
        Some(word) => Err(format!(
            "--only {word:?} is unknown; there are {}",
            known.join(", ")
        )),
        None => Ok(()),
    }
}

/// A started program that is being handed a bundle.
struct Running {
    child: Child,
    printed: mpsc::Receiver<Vec<u8>>,
}

impl Running {
    fn start(mut command: Command, bundle: &[u8]) -> Result<Running, String> {
        command.stdin(Stdio::piped()).stdout(Stdio::piped());
        let child = command.spawn();
        let mut child = child.map_err(|error| format!("{command:?} cannot be started: {error}"))?;
        let mut input = child.stdin.take().expect("standard input is piped");
        let mut output = child.stdout.take().expect("standard output is piped");
        let (sender, printed) = mpsc::channel();
        let bundle = bundle.to_vec();
        std::thread::spawn(move || {
            // A program that does not read or print to its end is judged by what it printed, and
            // nobody waits for one whose time is over.
            let _ = input.write_all(&bundle);
            drop(input);
            let mut bytes = Vec::new();
            let _ = output.read_to_end(&mut bytes);
            let _ = sender.send(bytes);
        });
        Ok(Running { child, printed })
    }

    /// What the program printed, and a line more if it did not end by itself.
    fn end(mut self) -> (String, Option<String>) {
        let printed = self.printed.recv_timeout(PATIENCE);
        if printed.is_err() {
            // It may have ended in this moment, which is too late all the same.
            let _ = self.child.kill();
        }
        let status = self.child.wait();
        let fault = match printed {
            Err(_) => Some("(no end)\n"),
            Ok(_) if status.is_ok_and(|status| status.code().is_some()) => None,
            Ok(_) => Some("(ended by a signal)\n"),
        };
        let printed = String::from_utf8_lossy(&printed.unwrap_or_default()).into();
        (printed, fault.map(str::to_string))
    }
}

impl Difference {
    fn show(&self, text: &mut String) {
        let same = self
            .own
            .iter()
            .zip(&self.theirs)
            .take_while(|(own, theirs)| own == theirs);
        let place = same.count();
        push_line(text, format_args!("\nline {} differs:", place + 1));
        for (whose, lines) in [("second ", &self.own), ("program", &self.theirs)] {
            let line = lines.get(place).map_or("(no line)", |line| line.trim_end());
            push_line(text, format_args!("  {whose}: {line}"));
        }
        for (whose, lines) in [("second", &self.own), ("program", &self.theirs)] {
            push_line(text, format_args!("\n{whose} answers:"));
            lines
                .iter()
                .take(SHOWN_LINES)
                .for_each(|line| text.push_str(line));
            if lines.len() > SHOWN_LINES {
                push_line(
                    text,
                    format_args!("and {} lines more", lines.len() - SHOWN_LINES),
                );
            }
        }
    }
}

fn push_line(text: &mut String, words: std::fmt::Arguments) {
    writeln!(text, "{words}").expect("a string takes all");
}
