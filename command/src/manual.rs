//! The manual page, in roff, made of the command line that clap has.

use clap::{Arg, Command};
use std::fmt::Write;

/// `chukelowa.1`.
pub fn page(command: &Command) -> String {
    let mut page = String::new();
    let version = env!("CARGO_PKG_VERSION");
    let about = said(command.get_about());
    let _ = writeln!(page, ".TH CHUKELOWA 1 2026-11-16 \"chukelowa {version}\" \"User commands\"");
    let _ = writeln!(page, ".SH NAME\n{}", filled(&format!("chukelowa \\- {}", escaped(about.trim_end_matches('.')))));
    let verbs: Vec<String> = command.get_subcommands().map(synopsis).collect();
    let _ = writeln!(page, ".SH SYNOPSIS\n{}", verbs.join("\n.br\n"));
    let after = said(command.get_after_help());
    let paragraphs = after.split("\n\n").filter(|paragraph| !paragraph.starts_with("Exit status"));
    let paragraphs: Vec<String> = paragraphs.map(|paragraph| filled(&escaped(paragraph))).collect();
    let _ = writeln!(page, ".SH DESCRIPTION\n{}\n.SH VERBS", paragraphs.join("\n.PP\n"));
    for verb in command.get_subcommands() {
        let _ = writeln!(page, ".SS {}\n{}", escaped(verb.get_name()), filled(&escaped(&said(verb.get_about()))));
        for option in verb.get_arguments() {
            let _ = writeln!(page, ".TP\n{}\n{}", heading(option), filled(&escaped(&said(option.get_help()))));
        }
    }
    page + ENDING
}

const ENDING: &str = "\
.SH EXIT STATUS
.TP
.B 0
Done: standard output has the result.
.TP
.B 1
Refused, by a proved call or because a text is not in the notation.
.TP
.B 2
The command line, or reading or writing, failed.
.SH EXAMPLES
.nf
chukelowa apply machine.flux new\\-costs.flux \\-o machine\\-2.flux
chukelowa diff machine.flux new\\-costs.flux
chukelowa explain 9
.fi
";

fn synopsis(verb: &Command) -> String {
    let name = escaped(verb.get_name());
    let parts = verb.get_arguments().map(|option| match (option.is_positional(), option.is_required_set()) {
        (true, true) => value(option),
        (true, false) => format!("[{} ...]", value(option)),
        _ => format!("[{}]", heading(option)),
    });
    let parts: Vec<String> = parts.collect();
    filled(&format!("\\fBchukelowa {name}\\fR {}", parts.join(" ")))
}

fn heading(option: &Arg) -> String {
    let short = option.get_short().map(|c| format!("\\fB\\-{c}\\fR"));
    let long = option.get_long().map(|long| format!("\\fB\\-\\-{}\\fR", escaped(long)));
    let names: Vec<String> = short.into_iter().chain(long).collect();
    match (names.is_empty(), option.get_action().takes_values()) {
        (true, _) => value(option),
        (_, true) => format!("{} {}", names.join(", "), value(option)),
        _ => names.join(", "),
    }
}

fn value(option: &Arg) -> String {
    let names = option.get_value_names().unwrap_or_default();
    format!("\\fI{}\\fR", names.iter().map(|name| name.as_str()).collect::<Vec<_>>().join(" "))
}

fn said(text: Option<&clap::builder::StyledStr>) -> String {
    text.map_or(String::new(), |text| text.to_string())
}

/// Text in which roff finds nothing to do.
fn escaped(text: &str) -> String {
    text.replace('\\', "\\e").replace('-', "\\-").replace('`', "\\(ga")
}

/// Lines of ordinary length, none of which begins with a sign that is roff's.
fn filled(text: &str) -> String {
    const WIDTH: usize = 78;
    let mut lines: Vec<String> = Vec::new();
    for word in text.split_whitespace() {
        match lines.last_mut() {
            Some(line) if line.len() + 1 + word.len() <= WIDTH => {
                line.push(' ');
                line.push_str(word);
            }
            _ => lines.push(if word.starts_with(['.', '\'']) { format!("\\&{word}") } else { word.into() }),
        }
    }
    lines.join("\n")
}
