//! Statements.

use super::tokens::{begins_section, is_reserved};
use super::{Call, Failed, Parsed, Parser, PARAMETERS};
use crate::drafts::Origin;
use crate::faults::{shown, Place};
use crate::lexer::Token;
use crate::tables::Variable;

/// What closes a statement that no bracket closes.
pub const NEXT_SECTION: &str = "the next section";

impl<'a> Parser<'a> {
    /// The statement of a script or a body, up to the end of its section.
    pub(super) fn main_statement(&mut self) -> Parsed {
        self.brackets_match = self.brackets_match();
        self.statement(NEXT_SECTION)
    }

    /// Has every bracket from here to the section's end its partner?
    fn brackets_match(&self) -> bool {
        let mut open = Vec::new();
        for at in self.at.. {
            match &self.tokens[at].0 {
                Token::Sign("(") => open.push(")"),
                Token::Sign("[") => open.push("]"),
                Token::Sign(sign @ (")" | "]")) if open.pop() != Some(*sign) => return false,
                Token::End => break,
                Token::Word(_) if begins_section(&self.tokens, at) => break,
                _ => {}
            }
        }
        open.is_empty()
    }

    /// Steps with `;` between them, up to what closes them. A step that fails is given up by itself.
    fn statement(&mut self, closer: &'static str) -> Parsed {
        let mut steps: Vec<(Origin, u16)> = Vec::new();
        loop {
            let (at, start, outside) = (self.at, self.start(), self.scope.len());
            let row = match self.closed_step(closer) {
                Ok(row) => row,
                Err(Failed) => {
                    self.scope.truncate(outside);
                    self.give_up_step(at, closer)?
                }
            };
            let Some(origin) = self.introduced(";")? else {
                let mut joined = steps.into_iter().rev();
                return joined.try_fold(row, |rest, (origin, first)| {
                    self.add_statement(origin, [2, first, rest, 0])
                });
            };
            steps.push((origin.from(start), row));
        }
    }

    /// A step with `;` or what closes the statement behind it.
    fn closed_step(&mut self, closer: &'static str) -> Parsed {
        let row = self.step()?;
        if self.stands(";") || self.stands(closer) {
            return Ok(row);
        }
        if closer == NEXT_SECTION && self.at_section_end() {
            return Ok(row);
        }
        self.tried.push(";");
        Err(self.expected(closer))
    }

    /// Passes over the rest of the step that began at the token numbered `first`, if brackets tell where it
    /// ends; 0 stands for its row.
    fn give_up_step(&mut self, first: usize, closer: &'static str) -> Parsed {
        if self.full || !self.brackets_match {
            return Err(Failed);
        }
        let failed = std::mem::replace(&mut self.at, first);
        let (mut open, mut ifs) = (0, 0);
        while !self.at_section_end() {
            match self.token() {
                Token::Sign("(" | "[") => open += 1,
                Token::Sign(")" | "]") if open == 0 => break,
                Token::Sign(")" | "]") => open -= 1,
                Token::Sign(";") if open == 0 && self.at >= failed => break,
                Token::Word("if") if open == 0 => ifs += 1,
                Token::Word("else") if open == 0 && ifs > 0 => ifs -= 1,
                Token::Word("else") if open == 0 && closer == "else" => break,
                _ => {}
            }
            self.advance();
        }
        Ok(0)
    }

    /// A statement without a semicolon of its own.
    fn step(&mut self) -> Parsed {
        self.nested(|parser| {
            if parser.stands("(") {
                parser.advance();
                let row = parser.statement(")")?;
                parser.expect(")")?;
                return Ok(row);
            }
            let at = parser.at;
            let (word, origin) = parser.opening("a statement")?;
            let row = parser.step_row(word, origin, at)?;
            parser.add_statement(origin, row)
        })
    }

    /// The row of the step that begins with `word`, the token numbered `at`.
    fn step_row(&mut self, word: &'a str, origin: Origin, at: usize) -> Parsed<[u16; 4]> {
        Ok(match word {
            "skip" => [1, 0, 0, 0],
            "if" => self.if_row()?,
            "insert" => [4, self.query()?, 0, 0],
            "delete" => [5, 0, 0, 0],
            "rename" => [6, self.label()?, 0, 0],
            "let" => {
                let (variable, value) = self.let_binding()?;
                let body = self.within(variable, Variable::Forest, Self::step)?;
                [7, value, body, 0]
            }
            "snapshot" => {
                let variable = self.binder("in")?;
                self.expect("in")?;
                let body = self.within(variable, Variable::Forest, Self::step)?;
                [8, body, 0, 0]
            }
            "text" => [9, 1, 0, self.tested_step()?],
            "node" => [9, 3, 0, self.tested_step()?],
            "children" => [10, self.bracketed()?, 0, 0],
            "left" => [11, self.bracketed()?, 0, 0],
            "right" => [12, self.bracketed()?, 0, 0],
            "iter" => [13, self.bracketed()?, 0, 0],
            _ if is_reserved(word) && !self.stands("?") => {
                return Err(self.expected_at(at, "a statement"));
            }
            _ if self.accept("?") => {
                if is_reserved(word) {
                    self.tell_reserved(word, origin.sign, "a label");
                }
                let label = self.label_number(word, origin.sign);
                [9, 2, label, self.step()?]
            }
            _ => self.call(word, origin)?,
        })
    }

    fn if_row(&mut self) -> Parsed<[u16; 4]> {
        let condition = self.query()?;
        self.expect("then")?;
        let yes = self.statement("else")?;
        self.expect("else")?;
        let no = self.step()?;
        Ok([3, condition, yes, no])
    }

    /// What follows `text` or `node` in a test.
    fn tested_step(&mut self) -> Parsed {
        self.expect("(")?;
        self.expect(")")?;
        self.expect("?")?;
        self.step()
    }

    fn bracketed(&mut self) -> Parsed {
        self.expect("[")?;
        let row = self.statement("]")?;
        self.expect("]")?;
        Ok(row)
    }

    /// The word at `place` begins no statement.
    fn no_statement(&mut self, word: &str, place: Place) -> Failed {
        let bare = shown(word).replace('`', "");
        let message = format!("`{bare}` begins no statement");
        let hint = match word {
            "INSERT" | "DELETE" | "RENAME" | "REPLACE" | "UPDATE" | "IF" | "LET" => {
                "the paper's language in capitals is written out in small words: docs/NOTATION.md"
                    .into()
            }
            _ => format!("a test is written `{bare}? ...`, a call `{bare}(...)`"),
        };
        self.tell_once(place.fault(message).hint(hint));
        Failed
    }

    fn call(&mut self, name: &'a str, origin: Origin) -> Parsed<[u16; 4]> {
        let place = origin.sign;
        if !self.accept("(") {
            return Err(self.no_statement(name, place));
        }
        let procedure = self.procedures.get(name).copied();
        let mut row = [14, procedure.unwrap_or(0), 0, 0];
        let mut arguments = 0;
        while !self.accept(")") {
            if arguments > 0 {
                self.expect(",")?;
            }
            if arguments == PARAMETERS {
                let message = "a call has at most two queries";
                self.faults.push(self.place().fault(message));
                return Err(Failed);
            }
            row[2 + arguments] = self.single()?;
            arguments += 1;
        }
        match procedure {
            Some(procedure) => self.calls.push(Call {
                place,
                name,
                procedure,
                arguments,
            }),
            None => self.tell_once(place.fault(format!("unknown procedure {}", shown(name)))),
        }
        Ok(row)
    }
}
