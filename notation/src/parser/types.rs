//! Types.

use super::tokens::is_reserved;
use super::{Parsed, Parser};
use crate::drafts::Origin;
use crate::faults::shown;

impl<'a> Parser<'a> {
    pub(super) fn types(&mut self) -> Parsed {
        self.nested(|parser| {
            parser.list("|", Self::branch, |parser, origin, left, right| {
                parser.add_type(origin, [6, left, right])
            })
        })
    }

    fn branch(&mut self) -> Parsed {
        self.list(",", Self::item, |parser, origin, left, right| {
            parser.add_type(origin, [5, left, right])
        })
    }

    /// A type with the stars, question marks and pluses after it.
    pub(super) fn item(&mut self) -> Parsed {
        let start = self.start();
        let mut row = self.atom()?;
        loop {
            if let Some(origin) = self.introduced("*")? {
                row = self.add_type(origin.from(start), [7, row, 0])?;
            } else if let Some(origin) = self.introduced("?")? {
                row = self.optional(origin.from(start), row)?;
            } else if let Some(origin) = self.introduced("+")? {
                row = self.repeated(origin.from(start), row)?;
            } else {
                return Ok(row);
            }
        }
    }

    /// `t?` is `t | ()`.
    fn optional(&mut self, origin: Origin, part: u16) -> Parsed {
        let empty = self.add_type(origin.unmarked(), [1, 0, 0])?;
        self.add_type(origin, [6, part, empty])
    }

    /// `t+` is `t, t*`, or just `t*` where `()` is of `t`, which says the same and is never tied by itself.
    fn repeated(&mut self, origin: Origin, part: u16) -> Parsed {
        if self.may_be_empty(part) {
            return self.add_type(origin, [7, part, 0]);
        }
        let copy = self.copied_type(part)?;
        let star = self.add_type(origin.unmarked(), [7, copy, 0])?;
        self.add_type(origin, [5, part, star])
    }

    /// Is `()` of the type at this row?
    fn may_be_empty(&self, row: u16) -> bool {
        let ([kind, p, q], _) = self.drafts.types.row(row);
        match kind {
            1 | 7 => true,
            5 => self.may_be_empty(p) && self.may_be_empty(q),
            6 => self.may_be_empty(p) || self.may_be_empty(q),
            _ => false,
        }
    }

    /// The rows of a type once more, written at the same places.
    fn copied_type(&mut self, row: u16) -> Parsed {
        let ([kind, p, q], written) = self.drafts.types.row(row);
        let copy = match kind {
            4 => [kind, p, self.copied_type(q)?],
            5 | 6 => [kind, self.copied_type(p)?, self.copied_type(q)?],
            7 => [kind, self.copied_type(p)?, q],
            _ => [kind, p, q],
        };
        let (sign, start) = (written.sign, written.whole.start);
        let mark = None;
        let origin = Origin { sign, start, mark };
        let added = self.drafts.types.add(origin, written.whole.end, copy);
        self.added(added)
    }

    fn atom(&mut self) -> Parsed {
        let at = self.at;
        if self.stands("(") {
            return self.grouped(Self::types, Self::empty_type);
        }
        let (word, origin) = self.opening("a type")?;
        match word {
            "text" => self.add_type(origin, [2, 0, 0]),
            "bool" => self.add_type(origin, [3, 0, 0]),
            _ if is_reserved(word) && !self.stands("[") => Err(self.expected_at(at, "a type")),
            _ => self.named_type(word, origin),
        }
    }

    /// A label with its content, or the use of a type name.
    pub(super) fn named_type(&mut self, word: &'a str, origin: Origin) -> Parsed {
        if !self.accept("[") {
            let name = self.type_number(word, origin);
            return self.add_type(origin, [8, name, 0]);
        }
        if is_reserved(word) {
            self.tell_reserved(word, origin.sign, "a label");
        }
        let label = self.label_number(word, origin.sign);
        let content = self.content(Self::types, Self::empty_type)?;
        self.add_type(origin, [4, label, content])
    }

    /// The number of a type name; 0 for one that is unknown, which is told.
    fn type_number(&mut self, word: &str, origin: Origin) -> u16 {
        if let Some(number) = self.names.get(word) {
            return *number;
        }
        let fault = origin
            .sign
            .fault(format!("unknown type name {}", shown(word)));
        let bare = shown(word).replace('`', "");
        self.tell_once(match word {
            "string" => fault.hint("the paper's `string` is written `text`"),
            "boolean" => fault.hint("the type of `true` and `false` is written `bool`"),
            "empty" => fault.hint("the empty type is written `()`"),
            _ => fault.hint(format!("a label is written `{bare}[...]`")),
        });
        0
    }

    fn empty_type(&mut self, origin: Origin) -> Parsed {
        self.add_type(origin, [1, 0, 0])
    }
}
