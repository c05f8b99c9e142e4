//! What each verb does.

use crate::calls::{self, Lent, Rows};
use crate::inputs::{load, read_all, Work};
use crate::line::{self, Form, Line, Verb};
use crate::refusals::{self, Refusal};
use crate::told::{told, Question};
use crate::{copies, diff, forest, manual, Trouble};
use archive::Reply;
use clap_complete::Shell;
use notation::limits::FOREST_ROWS;
use notation::{bundles, Spare};
use std::ffi::OsString;
use std::fmt::Write as _;
use std::io::Write;

pub fn go(words: Vec<OsString>) -> Result<(), Trouble> {
    let line = match line::parse(words)? {
        Ok(line) => line,
        Err(help) => return print(help.as_bytes()),
    };
    match &line.verb {
        Verb::Check => check(&line),
        Verb::Fit { type_name } => fit(&line, type_name.as_deref()),
        Verb::Run(form) => run(&line, *form),
        Verb::Apply(form) => apply(&line, *form),
        Verb::Diff => changed(&line),
        Verb::Assemble => put(&line, &work(&line, Spare::default())?.bundle),
        Verb::List => put(&line, listed(&work(&line, Spare::default())?).as_bytes()),
        Verb::Explain { refusal } => explain(refusal),
        Verb::Completions(shell) => completions(*shell),
        Verb::Manual => print(manual::page(&line::command()).as_bytes()),
    }
}

fn work(line: &Line, spare: Spare) -> Result<Work, Trouble> {
    load(read_all(&line.files)?, spare)
}

fn lent(line: &Line) -> Lent {
    let always = Lent::default();
    Lent { work: line.work_rows.unwrap_or(always.work), result: line.result_rows.unwrap_or(always.result) }
}

fn refused(line: &Line, work: &Work, question: Question, reply: Reply) -> Trouble {
    Trouble::Refused(told(work, question, lent(line), reply))
}

fn check(line: &Line) -> Result<(), Trouble> {
    let work = work(line, Spare::default())?;
    let reply = calls::check(&work.bundle, lent(line));
    if reply.number != 0 {
        return Err(refused(line, &work, Question::Check, reply));
    }
    let (units, fuel) = (reply.check_units, work.sheet.check_fuel);
    print(format!("done: the script takes `from` into `to` ({units} of {fuel} units)\n").as_bytes())
}

/// A fit needs no script, and where another type is named no `from`.
fn fit(line: &Line, type_name: Option<&str>) -> Result<(), Trouble> {
    let work = work(line, Spare { script: true, types: type_name.is_some() })?;
    let (type_row, what) = match type_name {
        None => (work.sheet.a, "`from`".into()),
        Some(name) => (type_row(&work, name)?, format!("type `{name}`")),
    };
    let reply = calls::fit(&work.bundle, type_row);
    if reply.number != 0 {
        return Err(refused(line, &work, Question::Fit { type_row }, reply));
    }
    print(format!("done: the description is of {what}\n").as_bytes())
}

/// A type's row by its name, that of A or B, or a row's own number.
fn type_row(work: &Work, name: &str) -> Result<u16, Trouble> {
    let named = work.names.types.iter().position(|held| held == name);
    match (named, name, name.parse()) {
        (Some(number), ..) => Ok(work.sheet.names[number]),
        (_, "A" | "from", _) => Ok(work.sheet.a),
        (_, "B" | "to", _) => Ok(work.sheet.b),
        (.., Ok(row)) => Ok(row),
        _ => {
            let names: Vec<&str> = ["A", "B"].into_iter().chain(work.names.types.iter().map(String::as_str)).collect();
            let names = names.join(", ");
            Err(Trouble::Failed(format!("--type {name}: there is no such type; there are {names}")))
        }
    }
}

/// A run needs no types.
fn run(line: &Line, form: Form) -> Result<(), Trouble> {
    let work = work(line, Spare { types: true, script: false })?;
    let (reply, rows) = calls::run(&work.bundle, lent(line)).map_err(|it| refused(line, &work, Question::Run, it))?;
    edited(line, form, &work, format!("run 0 {} {}\n", reply.run_units, reply.root), rows)
}

fn apply(line: &Line, form: Form) -> Result<(), Trouble> {
    let work = work(line, Spare::default())?;
    let (reply, rows) = applied(line, &work)?;
    let Reply { check_units, run_units, root, .. } = reply;
    edited(line, form, &work, format!("check 0 {check_units}\nfit 0 0\nrun 0 {run_units} {root}\n"), rows)
}

fn applied(line: &Line, work: &Work) -> Result<(Reply, Rows), Trouble> {
    calls::apply(&work.bundle, lent(line)).map_err(|it| refused(line, work, Question::Apply, it))
}

/// Writes a result in the form asked for.
fn edited(line: &Line, form: Form, work: &Work, mut listing: String, rows: Rows) -> Result<(), Trouble> {
    match form {
        Form::Text => {
            if rows.len() > FOREST_ROWS {
                let count = rows.len();
                warn(&format!(
                    "the result has {count} rows, and a description that a script takes at most {FOREST_ROWS}"
                ));
            }
            let root = rows.len() as u16;
            put(line, forest::description(&rows, root, &work.sheet.pool, &work.names).as_bytes())
        }
        Form::Rows => {
            for (number, [kind, p, q, next]) in (1..).zip(&rows) {
                let _ = writeln!(listing, "{number} {kind} {p} {q} {next}");
            }
            put(line, listing.as_bytes())
        }
        Form::Bundle => {
            let sheet = copies::description(&work.sheet, rows);
            let bundle = calls::write(&bundles::encode(&sheet));
            put(
                line,
                &bundle
                    .map_err(|reply| Trouble::Refused(refusals::of_tables("the result as a bundle", &sheet, reply)))?,
            )
        }
    }
}

/// The description before and after.
fn changed(line: &Line) -> Result<(), Trouble> {
    let work = work(line, Spare::default())?;
    let (_, rows) = applied(line, &work)?;
    let text = |rows: &[[u16; 4]], root| forest::trees(rows, root, &work.sheet.pool, &work.names);
    let old = text(&work.sheet.forest, work.sheet.root);
    let new = text(&rows, rows.len() as u16);
    put(line, diff::unified(&old, &new).as_bytes())
}

fn listed(work: &Work) -> String {
    notation::list_named(&work.sheet, &work.names)
}

fn explain(word: &str) -> Result<(), Trouble> {
    let by_name = refusals::ALL.iter().position(|it| it.name.eq_ignore_ascii_case(word)).map(|at| at + 1);
    let number = by_name.or(word.parse().ok()).filter(|number| (1..=refusals::ALL.len()).contains(number));
    let number = number.ok_or_else(|| Trouble::Failed(format!("`{word}` is no refusal: they go from 1 to 13")))?;
    let Refusal { name, given_if, what_to_do, example, asked_by } = &refusals::ALL[number - 1];
    let mut text = format!("{number} {name}\n\nGiven if {given_if}.\n\nWhat to do: {what_to_do}.\n");
    if !example.is_empty() {
        let _ = write!(text, "\nAn example, refused so by `chukelowa {asked_by}`:\n\n{}", indented(example));
    }
    print(text.as_bytes())
}

fn indented(text: &str) -> String {
    text.lines().map(|line| format!("    {line}").trim_end().to_string() + "\n").collect()
}

fn completions(shell: Shell) -> Result<(), Trouble> {
    let mut script = Vec::new();
    clap_complete::generate(shell, &mut line::command(), "chukelowa", &mut script);
    print(&script)
}

/// The result, to -o's file or standard output.
fn put(line: &Line, bytes: &[u8]) -> Result<(), Trouble> {
    match &line.output {
        None => print(bytes),
        Some(path) => std::fs::write(path, bytes).map_err(|error| Trouble::at(&path.display().to_string(), &error)),
    }
}

fn print(bytes: &[u8]) -> Result<(), Trouble> {
    let mut out = std::io::stdout().lock();
    let written = out.write_all(bytes).and_then(|()| out.flush());
    written.map_err(|error| Trouble::at("standard output", &error))
}

fn warn(message: &str) {
    let _ = writeln!(std::io::stderr(), "chukelowa: {message}");
}
