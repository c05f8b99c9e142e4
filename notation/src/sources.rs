//! Several sources as one text: which comes first, and what is wrong before any word is read.

use crate::faults::{Fault, Place};
use crate::lexer::{tokens, Token};
use crate::parser::{begins_section, Assembled, Parser, Spare, SECTIONS};

/// A text by its name.
#[derive(Clone, Copy, Debug)]
pub struct Source<'a> {
    pub name: &'a str,
    pub bytes: &'a [u8],
}

/// At most so many faults are told.
const FAULTS: usize = 20;

pub fn assemble(sources: &[Source], spare: Spare) -> Result<Assembled, Vec<Fault>> {
    told(read(sources, spare))
}

/// The faults by their places, not too many.
fn told(read: Result<Assembled, Vec<Fault>>) -> Result<Assembled, Vec<Fault>> {
    read.map_err(|mut faults| {
        faults.sort_by_key(|fault| fault.place);
        faults.truncate(FAULTS);
        faults
    })
}

fn read(sources: &[Source], spare: Spare) -> Result<Assembled, Vec<Fault>> {
    let mut faults = Vec::new();
    let mut texts = Vec::new();
    for (file, source) in sources.iter().enumerate() {
        match std::str::from_utf8(source.bytes) {
            Ok(text) => texts.push(tokens(text, file, &mut faults)),
            Err(error) => return Err(not_utf_8(sources, file, error)),
        }
    }
    texts.sort_by_key(|tokens| rank(&sections(tokens)));
    Parser::new(texts.concat(), faults).read(spare)
}

/// Where each source from this one on is not UTF-8.
fn not_utf_8(sources: &[Source], first: usize, error: std::str::Utf8Error) -> Vec<Fault> {
    let fault = |file: usize, error: std::str::Utf8Error| {
        let start = error.valid_up_to();
        let place = Place {
            file,
            start,
            end: start + 1,
        };
        let byte = sources[file].bytes[start];
        let hint = format!("between quotes it is written \\x{byte:02x}");
        place
            .fault(format!("the byte {byte:#04x} here is not UTF-8"))
            .hint(hint)
    };
    let others = (first + 1..sources.len()).filter_map(|file| {
        let error = std::str::from_utf8(sources[file].bytes).err()?;
        Some(fault(file, error))
    });
    [fault(first, error)].into_iter().chain(others).collect()
}

/// The source with the script comes first, then those with types, then descriptions.
fn rank(sections: &[&str]) -> (bool, bool, bool) {
    let has = |word| sections.contains(&word);
    (!has("script"), !has("from"), has("forest"))
}

/// The sections that stand in a text, by their first words; none in what is not UTF-8.
pub fn outline(bytes: &[u8]) -> Vec<&'static str> {
    let text = std::str::from_utf8(bytes).unwrap_or_default();
    sections(&tokens(text, 0, &mut Vec::new()))
}

fn sections(tokens: &[(Token, Place)]) -> Vec<&'static str> {
    let mut sections = Vec::new();
    let mut in_head = false;
    for (at, (token, _)) in tokens.iter().enumerate() {
        let Some(word) = SECTIONS
            .into_iter()
            .find(|word| *token == Token::Word(word))
        else {
            continue;
        };
        if !begins_section(tokens, at) {
            continue;
        }
        // A procedure has a `from` of its own.
        if !(in_head && word == "from") {
            sections.push(word);
        }
        in_head = word == "procedure";
    }
    sections
}
