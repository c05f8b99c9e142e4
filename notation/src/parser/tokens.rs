//! The parser's hold on the tokens, and what it says where none fits.

use super::{Failed, Parsed, Parser};
use crate::drafts::{Mark, Origin};
use crate::faults::{shown, Place};
use crate::lexer::Token;

/// The words that begin sections.
pub const SECTIONS: [&str; 8] = [
    "labels",
    "type",
    "procedure",
    "pool",
    "from",
    "fuel",
    "script",
    "forest",
];

/// The other words that are never names: those that begin a part, and those that end an open one.
const RESERVED: [&str; 22] = [
    "text", "bool", "true", "false", "let", "if", "for", "children", "skip", "insert", "delete",
    "rename", "snapshot", "node", "left", "right", "iter", "in", "then", "else", "return", "to",
];

/// More than any sheet needs: 512 statements nested in one another and 512 queries in the last.
const NESTING: usize = 2_048;

impl<'a> Parser<'a> {
    pub(super) fn token(&self) -> &Token<'a> {
        &self.tokens[self.at].0
    }

    pub(super) fn place(&self) -> Place {
        self.tokens[self.at].1
    }

    /// Where the token at hand begins.
    pub(super) fn start(&self) -> usize {
        self.place().start
    }

    /// Where the last token taken ends; 0 if none is.
    pub(super) fn end(&self) -> usize {
        let last = self.at.checked_sub(1);
        last.map_or(0, |last| self.tokens[last].1.end)
    }

    pub(super) fn advance(&mut self) {
        self.at += 1;
        self.tried.clear();
    }

    pub(super) fn stands(&self, wanted: &str) -> bool {
        self.stands_at(self.at, wanted)
    }

    pub(super) fn stands_at(&self, at: usize, wanted: &str) -> bool {
        match self.tokens.get(at) {
            Some((Token::Word(word), _)) => *word == wanted,
            Some((Token::Sign(sign), _)) => *sign == wanted,
            _ => false,
        }
    }

    /// Takes the wanted word or sign if it stands here.
    pub(super) fn accept(&mut self, wanted: &'static str) -> bool {
        let stands = self.stands(wanted);
        if stands {
            self.advance();
        } else {
            self.tried.push(wanted);
        }
        stands
    }

    pub(super) fn expect(&mut self, wanted: &'static str) -> Parsed<()> {
        if self.accept(wanted) {
            return Ok(());
        }
        Err(self.unexpected())
    }

    /// As `accept`, for a word or sign that brings a row and may carry its mark.
    pub(super) fn introduced(&mut self, wanted: &'static str) -> Parsed<Option<Origin>> {
        let place = self.place();
        if !self.accept(wanted) {
            return Ok(None);
        }
        self.marked(place).map(Some)
    }

    /// The origin of a row whose sign stood at `sign`; its mark, if any, stands here.
    pub(super) fn marked(&mut self, sign: Place) -> Parsed<Origin> {
        let place = self.place();
        let mark = if self.stands("@") {
            self.advance();
            let row = self.number("a row number")?;
            Some(Mark { row, place })
        } else {
            None
        };
        let start = sign.start;
        Ok(Origin { sign, start, mark })
    }

    pub(super) fn number(&mut self, what: &'static str) -> Parsed {
        let Token::Number(number) = *self.token() else {
            return Err(self.expected(what));
        };
        self.advance();
        Ok(number)
    }

    /// A number of at most `last`; a higher one is told, and read as `last`.
    pub(super) fn number_up_to(&mut self, last: u16, what: &'static str) -> Parsed {
        let place = self.place();
        let number = self.number("a number")?;
        if number > last {
            let message = format!("{what} go from 0 to {last}, not {number}");
            self.faults.push(place.fault(message));
        }
        Ok(number.min(last))
    }

    pub(super) fn text_token(&mut self, what: &'static str) -> Parsed<Vec<u8>> {
        let Token::Text(bytes) = self.token() else {
            return Err(self.expected(what));
        };
        let bytes = bytes.clone();
        self.advance();
        Ok(bytes)
    }

    /// The word that stands here, with the mark after it.
    pub(super) fn opening(&mut self, what: &'static str) -> Parsed<(&'a str, Origin)> {
        let place = self.place();
        let Token::Word(word) = *self.token() else {
            return Err(self.expected(what));
        };
        self.advance();
        Ok((word, self.marked(place)?))
    }

    /// A word that may be a name. A word of the notation is told, and read as the name that it was meant to
    /// be if one of `follows` follows it.
    pub(super) fn name(&mut self, what: &'static str, follows: &[&str]) -> Parsed<&'a str> {
        let Token::Word(word) = *self.token() else {
            return Err(self.expected(what));
        };
        if is_reserved(word) {
            let meant = follows.iter().any(|sign| self.stands_at(self.at + 1, sign));
            if !meant {
                return Err(self.expected(what));
            }
            self.tell_reserved(word, self.place(), what);
        }
        self.advance();
        Ok(word)
    }

    /// Says that a word of the notation is no name.
    pub(super) fn tell_reserved(&mut self, word: &str, place: Place, what: &'static str) {
        let kept = if SECTIONS.contains(&word) {
            "begins a section"
        } else {
            "is a word of the notation"
        };
        let message = format!("`{word}` {kept}, so it cannot be the name of {what}");
        self.tell_once(place.fault(message).hint("any other name will do"));
    }

    pub(super) fn expected(&mut self, what: &'static str) -> Failed {
        self.tried.push(what);
        self.unexpected()
    }

    /// As `expected`, for the token numbered `at`.
    pub(super) fn expected_at(&mut self, at: usize, what: &'static str) -> Failed {
        self.at = at;
        self.expected(what)
    }

    /// Says what would have been taken here, unless the token before was blamed already.
    pub(super) fn unexpected(&mut self) -> Failed {
        let found = match self.token() {
            Token::Word(word) if SECTIONS.contains(word) => {
                format!("`{word}`, which begins a section")
            }
            Token::Word(word) if is_reserved(word) => format!("`{word}`, a word of the notation"),
            Token::Word(word) => shown(word),
            Token::Number(number) => format!("`{number}`"),
            Token::Text(_) => "a text".into(),
            Token::Sign(sign) => format!("`{sign}`"),
            Token::End => "the end".into(),
            Token::Bad => return self.blame(),
        };
        if self
            .blamed
            .is_none_or(|blamed| blamed != self.at && blamed + 1 != self.at)
        {
            let message = format!("expected {}, found {found}", alternatives(&self.tried));
            self.faults.push(self.place().fault(message));
        }
        self.blame()
    }

    fn blame(&mut self) -> Failed {
        self.blamed = Some(self.at);
        Failed
    }

    /// Reads a part that may hold itself, to a bounded depth.
    pub(super) fn nested<T>(&mut self, part: impl FnOnce(&mut Self) -> Parsed<T>) -> Parsed<T> {
        if self.nesting == NESTING {
            let message = format!("nested more than {NESTING} deep");
            let fault = self.place().fault(message);
            return Err(self.too_much(fault));
        }
        self.nesting += 1;
        let value = part(self);
        self.nesting -= 1;
        value
    }
}

pub fn is_reserved(word: &str) -> bool {
    RESERVED.contains(&word) || SECTIONS.contains(&word)
}

/// Does the word of this token begin a section? Before most signs, and before `in`, it is meant as a name.
pub fn begins_section(tokens: &[(Token, Place)], at: usize) -> bool {
    let Some((Token::Word(word), _)) = tokens.get(at) else {
        return false;
    };
    SECTIONS.contains(word)
        && match tokens.get(at + 1) {
            Some((Token::Sign(sign), _)) => {
                *sign == "(" && ["from", "script", "forest"].contains(word)
            }
            Some((Token::Word("in"), _)) => false,
            _ => true,
        }
}

/// `a, b or c`, each once; literal words and signs between back quotes.
fn alternatives(tried: &[&str]) -> String {
    let mut shown: Vec<String> = Vec::new();
    for what in tried {
        let what = if what.starts_with("a ") || what.starts_with("the ") {
            what.to_string()
        } else {
            format!("`{what}`")
        };
        if !shown.contains(&what) {
            shown.push(what);
        }
    }
    let last = shown.pop().unwrap_or_default();
    if shown.is_empty() {
        return last;
    }
    format!("{} or {last}", shown.join(", "))
}
