//! Messages with their places: file, line and column, the source line and a marker under it, by codespan-reporting.

use crate::inputs::File;
use codespan_reporting::diagnostic::{Diagnostic, Label};
use codespan_reporting::files::{Error, Files};
use codespan_reporting::term::{self, termcolor::NoColor, Chars, Config};
use notation::Place;
use std::ops::Range;

/// A place with what is said of it.
pub struct Mark {
    pub place: Place,
    pub said: String,
}

impl Mark {
    pub fn new(place: Place, said: impl Into<String>) -> Mark {
        Mark { place, said: said.into() }
    }
}

/// What is wrong, where (the first mark is the place, others go with it), and what to do.
#[derive(Default)]
pub struct Message {
    /// `8 Mismatch`; empty where no call refused.
    pub refusal: String,
    pub text: String,
    pub marks: Vec<Mark>,
    pub notes: Vec<String>,
}

/// The messages one after another, each with the lines that it is about.
pub fn shown(files: &[File], messages: &[Message]) -> String {
    let config = Config { chars: Chars::ascii(), ..Config::default() };
    let mut text = Vec::new();
    for message in messages {
        let lines = Lines(message.marks.iter().map(|mark| MarkedLine::of(files, mark.place)).collect());
        let diagnostic = diagnostic(message, &lines);
        let written = term::emit(&mut NoColor::new(&mut text), &config, &lines, &diagnostic);
        written.expect("every mark has its line, and memory takes what is written");
    }
    let text = String::from_utf8(text).expect("what is written is text");
    let lines: Vec<&str> = text.trim_end().lines().map(str::trim_end).collect();
    lines.join("\n")
}

fn diagnostic(message: &Message, lines: &Lines) -> Diagnostic<usize> {
    let label = |(at, mark): (usize, &Mark)| {
        let label = if at == 0 { Label::primary } else { Label::secondary };
        label(lines.first_alike(at), lines.0[at].mark.clone()).with_message(&mark.said)
    };
    let diagnostic = Diagnostic::error()
        .with_message(&message.text)
        .with_labels(message.marks.iter().enumerate().map(label).collect())
        .with_notes(message.notes.clone());
    match &*message.refusal {
        "" => diagnostic,
        refusal => diagnostic.with_code(refusal),
    }
}

/// Of a line so much is shown before a marker, and as much behind where it begins.
const WINDOW: usize = 70;
const LEFT_OUT: &str = "... ";

/// The line of a mark, as it is shown: a long one is cut about the mark.
struct MarkedLine {
    name: String,
    number: usize,
    text: String,
    /// The marked bytes of the text.
    mark: Range<usize>,
    /// The mark's column, in characters from 1.
    column: usize,
}

impl MarkedLine {
    fn is_same_line(&self, other: &MarkedLine) -> bool {
        (&self.name, self.number, &self.text) == (&other.name, other.number, &other.text)
    }
}

impl MarkedLine {
    fn of(files: &[File], place: Place) -> MarkedLine {
        let File { name, bytes, .. } = &files[place.file];
        let start = within_text(bytes, place.start);
        let line = line_about(bytes, start);
        let end = place.end.clamp(start, line.end);
        let (number, column) = notation::line_and_column(bytes, start);
        let part =
            |range: Range<usize>| String::from_utf8_lossy(&bytes[range]).trim_start_matches('\u{feff}').to_string();
        let (before, marked, after) = (part(line.start..start), part(start..end), part(end..line.end));
        let before = last_of(&before);
        let rest = first_of(&format!("{marked}{after}"));
        let mark = before.len()..before.len() + marked.len().min(rest.len());
        MarkedLine { name: name.clone(), number, text: without_controls(&(before + &rest)), mark, column }
    }
}

/// A place behind all text is shown behind its last sign.
fn within_text(bytes: &[u8], start: usize) -> usize {
    let rest_is_blank = bytes[start.min(bytes.len())..].iter().all(u8::is_ascii_whitespace);
    if rest_is_blank {
        start.min(bytes.trim_ascii_end().len())
    } else {
        start
    }
}

/// The line of a place, without its end.
fn line_about(bytes: &[u8], at: usize) -> Range<usize> {
    let start = bytes[..at].iter().rposition(|byte| *byte == b'\n').map_or(0, |end| end + 1);
    let end = bytes[at..].iter().position(|byte| *byte == b'\n').map_or(bytes.len(), |length| at + length);
    start..end
}

fn last_of(text: &str) -> String {
    let count = text.chars().count();
    if count <= WINDOW {
        return text.into();
    }
    LEFT_OUT.chars().chain(text.chars().skip(count - WINDOW)).collect()
}

fn first_of(text: &str) -> String {
    if text.chars().count() <= WINDOW {
        return text.into();
    }
    text.chars().take(WINDOW).chain(" ...".chars()).collect()
}

/// A control sign as blanks, as many as its bytes, so that the places stay.
fn without_controls(text: &str) -> String {
    let clean = |c: char| if c.is_control() && c != '\t' { " ".repeat(c.len_utf8()) } else { c.into() };
    text.chars().map(clean).collect()
}

/// A line for each mark.
struct Lines(Vec<MarkedLine>);

impl Lines {
    /// Marks of one line are shown under it together.
    fn first_alike(&self, mark: usize) -> usize {
        (0..mark).find(|other| self.0[*other].is_same_line(&self.0[mark])).unwrap_or(mark)
    }
}

impl<'a> Files<'a> for Lines {
    type FileId = usize;
    type Name = &'a str;
    type Source = &'a str;

    fn name(&'a self, mark: usize) -> Result<&'a str, Error> {
        Ok(&self.0[mark].name)
    }

    fn source(&'a self, mark: usize) -> Result<&'a str, Error> {
        Ok(&self.0[mark].text)
    }

    fn line_index(&'a self, _: usize, _: usize) -> Result<usize, Error> {
        Ok(0)
    }

    fn line_number(&'a self, mark: usize, _: usize) -> Result<usize, Error> {
        Ok(self.0[mark].number)
    }

    /// Counted from the mark: what stands before it may be left out.
    fn column_number(&'a self, mark: usize, _: usize, byte: usize) -> Result<usize, Error> {
        let MarkedLine { text, mark, column, .. } = &self.0[mark];
        let characters = |end: usize| text[..end].chars().count();
        Ok(column + characters(byte) - characters(mark.start))
    }

    fn line_range(&'a self, mark: usize, _: usize) -> Result<Range<usize>, Error> {
        Ok(0..self.0[mark].text.len())
    }
}
