//! Queries.

use super::tokens::is_reserved;
use super::{Parsed, Parser};
use crate::drafts::Origin;
use crate::faults::{shown, Place};
use crate::lexer::Token;
use crate::tables::Variable;
use crate::words::Word;

/// The words whose last part ends at a comma, so that a list there needs brackets.
const OPEN_ENDED: [&str; 3] = ["let", "if", "for"];

impl<'a> Parser<'a> {
    pub(super) fn query(&mut self) -> Parsed {
        self.list(",", Self::listed, |parser, origin, left, right| {
            parser.add_query(origin, [2, left, right, 0])
        })
    }

    /// One part of a list. A comma after an open-ended one is told: it can be read in two ways.
    fn listed(&mut self) -> Parsed {
        let word = self.open_ended();
        let row = self.single()?;
        if let Some(word) = word.filter(|_| self.stands(",")) {
            let last = match word {
                "let" => "in",
                "if" => "else",
                _ => "return",
            };
            let message = format!("this comma, after `{word}`, can be read in two ways");
            let hint = format!("write `({word} ...), ...` or `{last} (..., ...)`");
            self.faults.push(self.place().fault(message).hint(hint));
        }
        Ok(row)
    }

    /// The open-ended word that stands here.
    fn open_ended(&self) -> Option<&'static str> {
        OPEN_ENDED.into_iter().find(|word| self.stands(word))
    }

    /// A query without a comma of its own.
    pub(super) fn single(&mut self) -> Parsed {
        self.nested(|parser| {
            if parser.open_ended().is_none() {
                return parser.same_query();
            }
            let (word, origin) = parser.opening("a query")?;
            let row = match word {
                "let" => parser.let_row()?,
                "if" => parser.if_query_row()?,
                _ => parser.for_row()?,
            };
            parser.add_query(origin, row)
        })
    }

    fn let_row(&mut self) -> Parsed<[u16; 4]> {
        let (variable, value) = self.let_binding()?;
        let body = self.within(variable, Variable::Forest, Self::single)?;
        Ok([8, value, body, 0])
    }

    /// `x = query in`, after `let`.
    pub(super) fn let_binding(&mut self) -> Parsed<((&'a str, Place), u16)> {
        let variable = self.binder("=")?;
        self.expect("=")?;
        let value = self.query()?;
        self.expect("in")?;
        Ok((variable, value))
    }

    fn if_query_row(&mut self) -> Parsed<[u16; 4]> {
        let condition = self.query()?;
        self.expect("then")?;
        let yes = self.query()?;
        self.expect("else")?;
        let no = self.single()?;
        Ok([9, condition, yes, no])
    }

    fn for_row(&mut self) -> Parsed<[u16; 4]> {
        let variable = self.binder("in")?;
        self.expect("in")?;
        let trees = self.query()?;
        self.expect("return")?;
        let body = self.within(variable, Variable::Tree, Self::single)?;
        Ok([13, trees, body, 0])
    }

    fn same_query(&mut self) -> Parsed {
        let start = self.start();
        let left = self.picked()?;
        let Some(origin) = self.introduced("=")? else {
            return Ok(left);
        };
        let right = self.picked()?;
        self.add_query(origin.from(start), [10, left, right, 0])
    }

    fn picked(&mut self) -> Parsed {
        let start = self.start();
        let mut row = self.primary()?;
        while let Some(origin) = self.introduced("::")? {
            let label = self.label()?;
            row = self.add_query(origin.from(start), [12, row, label, 0])?;
        }
        Ok(row)
    }

    fn primary(&mut self) -> Parsed {
        let at = self.at;
        if self.stands("(") {
            return self.grouped(Self::query, Self::empty_query);
        }
        if matches!(self.token(), Token::Text(_)) {
            return self.text_query();
        }
        let (word, origin) = self.opening("a query")?;
        match word {
            "true" => self.add_query(origin, [5, 0, 0, 0]),
            "false" => self.add_query(origin, [6, 0, 0, 0]),
            "children" => self.children_query(origin),
            _ if is_reserved(word) && !self.stands("[") => Err(self.expected_at(at, "a query")),
            _ => self.named_query(word, origin),
        }
    }

    fn text_query(&mut self) -> Parsed {
        let (origin, text) = self.text()?;
        let row = self.add_query(origin, [4, 0, 0, 0])?;
        self.drafts.texts.push((Word::Query, row, text));
        Ok(row)
    }

    fn children_query(&mut self, origin: Origin) -> Parsed {
        self.expect("(")?;
        let (name, place) = self.binder(")")?;
        let (number, kind) = self.variable(name, place).unwrap_or((0, Variable::Tree));
        if kind != Variable::Tree {
            let message = format!(
                "children needs a variable of `for`, and {} is none",
                shown(name)
            );
            let hint = "for each tree of it: `for t in ... return children(t)`";
            self.faults.push(place.fault(message).hint(hint));
        }
        self.expect(")")?;
        self.add_query(origin, [11, number, 0, 0])
    }

    /// A tree or a variable.
    fn named_query(&mut self, word: &'a str, origin: Origin) -> Parsed {
        if !self.accept("[") {
            let number = self
                .variable(word, origin.sign)
                .map_or(0, |(number, _)| number);
            return self.add_query(origin, [7, number, 0, 0]);
        }
        if is_reserved(word) {
            self.tell_reserved(word, origin.sign, "a label");
        }
        let label = self.label_number(word, origin.sign);
        let content = self.content(Self::query, Self::empty_query)?;
        self.add_query(origin, [3, label, content, 0])
    }

    fn empty_query(&mut self, origin: Origin) -> Parsed {
        self.add_query(origin, [1, 0, 0, 0])
    }
}
