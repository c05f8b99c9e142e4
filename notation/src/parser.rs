//! From tokens to a sheet, by the grammar at the end of docs/NOTATION.md.
//!
//! Rows are added as soon as all their parts are read, so their natural numbers go by the order written,
//! parts before wholes; the forest alone is numbered from its end, as the results of a run are.
//!
//! A fault is told at once. What merely is unknown or too much is passed over; where no token fits, the
//! statement, or else the section, is given up, and the next one is read.

mod forest;
mod labels;
mod queries;
mod sections;
mod statements;
mod tokens;
mod types;

use crate::drafts::{Drafts, Origin, Text};
use crate::faults::{shown, Fault, Place};
use crate::lexer::Token;
use crate::limits::{LAST_LABEL, SCOPE};
use crate::places::{Names, Places};
use crate::tables::{Sheet, Variable};
use labels::Labels;
use std::collections::{BTreeMap, BTreeSet};
pub use tokens::{begins_section, SECTIONS};

/// A part that cannot be read; its fault has been told.
#[derive(Debug)]
struct Failed;

type Parsed<T = u16> = Result<T, Failed>;

const PARAMETERS: usize = 2;

/// What may be absent, because nobody will ask about it.
#[derive(Clone, Copy, Debug, Default, PartialEq, Eq)]
pub struct Spare {
    /// Without a script there is `skip`.
    pub script: bool,
    /// Without types there is `from () to ()`.
    pub types: bool,
}

/// What a text says.
#[derive(Clone, Debug, PartialEq, Eq)]
pub struct Assembled {
    pub sheet: Sheet,
    pub places: Places,
    pub names: Names,
}

/// A call, kept until all procedures and their parameters are known.
struct Call<'a> {
    place: Place,
    name: &'a str,
    procedure: u16,
    arguments: usize,
}

pub struct Parser<'a> {
    /// The tokens of all sources, each source's with an `End`.
    tokens: Vec<(Token<'a>, Place)>,
    at: usize,
    /// What would have been taken instead of the token at hand.
    tried: Vec<&'static str>,
    /// The token of the last fault, so that the next token is not blamed for it.
    blamed: Option<usize>,
    nesting: usize,
    /// The sections met that may stand only once.
    sections: Vec<&'static str>,
    /// Something stands where a section should begin, so no section is known to be absent.
    lost: bool,
    /// A limit is reached.
    full: bool,
    /// In the section at hand every bracket has its partner.
    brackets_match: bool,
    labels: Labels<'a>,
    names: BTreeMap<&'a str, u16>,
    procedures: BTreeMap<&'a str, u16>,
    scope: Vec<(&'a str, Variable)>,
    /// The variables that were in scope before.
    ended: BTreeSet<&'a str>,
    calls: Vec<Call<'a>>,
    drafts: Drafts,
    places: Places,
    faults: Vec<Fault>,
    /// What has been told once and is not told again.
    told: BTreeSet<String>,
}

/// What types, queries and statements share.
impl<'a> Parser<'a> {
    pub fn new(tokens: Vec<(Token<'a>, Place)>, faults: Vec<Fault>) -> Parser<'a> {
        Parser {
            tokens,
            at: 0,
            tried: Vec::new(),
            blamed: None,
            nesting: 0,
            sections: Vec::new(),
            lost: false,
            full: false,
            brackets_match: false,
            labels: Labels::default(),
            names: BTreeMap::new(),
            procedures: BTreeMap::new(),
            scope: Vec::new(),
            ended: BTreeSet::new(),
            calls: Vec::new(),
            drafts: Drafts::new(),
            places: Places::default(),
            faults,
            told: BTreeSet::new(),
        }
    }

    /// Tells a fault whose message has not been told yet.
    fn tell_once(&mut self, fault: Fault) {
        if self.told.insert(fault.message.clone()) {
            self.faults.push(fault);
        }
    }

    /// Tells that a limit is reached; the section is given up.
    fn too_much(&mut self, fault: Fault) -> Failed {
        self.tell_once(fault);
        self.full = true;
        Failed
    }

    fn add_type(&mut self, origin: Origin, row: [u16; 3]) -> Parsed {
        let added = self.drafts.types.add(origin, self.end(), row);
        self.added(added)
    }

    fn add_query(&mut self, origin: Origin, row: [u16; 4]) -> Parsed {
        let added = self.drafts.queries.add(origin, self.end(), row);
        self.added(added)
    }

    fn add_statement(&mut self, origin: Origin, row: [u16; 4]) -> Parsed {
        let added = self.drafts.statements.add(origin, self.end(), row);
        self.added(added)
    }

    fn added<T>(&mut self, added: Result<T, Fault>) -> Parsed<T> {
        added.map_err(|fault| self.too_much(fault))
    }

    /// Parts with a sign between each two, grouped to the right.
    fn list(
        &mut self,
        sign: &'static str,
        part: fn(&mut Self) -> Parsed,
        join: fn(&mut Self, Origin, u16, u16) -> Parsed,
    ) -> Parsed {
        let mut parts = Vec::new();
        loop {
            let start = self.start();
            let row = part(self)?;
            let Some(origin) = self.introduced(sign)? else {
                let mut rest = parts.into_iter().rev();
                return rest.try_fold(row, |right, (origin, left)| join(self, origin, left, right));
            };
            parts.push((origin.from(start), row));
        }
    }

    /// A part between round brackets, or `()`.
    fn grouped(
        &mut self,
        part: fn(&mut Self) -> Parsed,
        empty: fn(&mut Self, Origin) -> Parsed,
    ) -> Parsed {
        let open = self.place();
        self.expect("(")?;
        let close = self.place();
        if self.accept(")") {
            let origin = self.marked(open.to(close))?;
            return empty(self, origin);
        }
        let row = part(self)?;
        self.expect(")")?;
        Ok(row)
    }

    /// The content of a label, after its opening bracket.
    fn content(
        &mut self,
        part: fn(&mut Self) -> Parsed,
        empty: fn(&mut Self, Origin) -> Parsed,
    ) -> Parsed {
        let open = self.tokens[self.at - 1].1;
        let sign = open.to(self.place());
        if self.accept("]") {
            let start = sign.start;
            let mark = None;
            return empty(self, Origin { sign, start, mark });
        }
        let row = part(self)?;
        self.expect("]")?;
        Ok(row)
    }

    fn label(&mut self) -> Parsed {
        let place = self.place();
        let name = self.name("a label", &[])?;
        Ok(self.label_number(name, place))
    }

    /// The label's number; 0 for one that is unknown, which is told.
    fn label_number(&mut self, name: &'a str, place: Place) -> u16 {
        if let Some(number) = self.labels.number(name, place) {
            return number;
        }
        if !self.labels.broken && !tokens::is_reserved(name) {
            let message = match self.labels.declared_in(place.file) {
                true => format!("unknown label {}: no `labels` line names it", shown(name)),
                false => format!("more than {} labels", LAST_LABEL + 1),
            };
            self.tell_once(place.fault(message));
        }
        0
    }

    /// The variable's number and kind; none for one that is unknown, which is told.
    fn variable(&mut self, name: &str, place: Place) -> Option<(u16, Variable)> {
        let held = self.scope.iter().rposition(|(held, _)| *held == name);
        if let Some(number) = held {
            return Some((number as u16, self.scope[number].1));
        }
        let fault = place.fault(format!("unknown variable {}", shown(name)));
        let bare = shown(name).replace('`', "");
        self.tell_once(match () {
            _ if self.ended.contains(name) => {
                fault.hint("it is seen in one part only; round brackets make that part longer")
            }
            _ if self.labels.has(name) => {
                fault.hint(format!("the tree of label `{bare}` is written `{bare}[]`"))
            }
            _ => fault,
        });
        None
    }

    /// A new variable's name, which `follows` must follow; the variable is seen from `within` on.
    fn binder(&mut self, follows: &'static str) -> Parsed<(&'a str, Place)> {
        let place = self.place();
        Ok((self.name("a variable", &[follows])?, place))
    }

    /// Reads the part that sees one more variable.
    fn within(
        &mut self,
        (name, place): (&'a str, Place),
        kind: Variable,
        part: impl FnOnce(&mut Self) -> Parsed,
    ) -> Parsed {
        if self.scope.len() == SCOPE {
            let name = shown(name);
            self.tell_once(
                place.fault(format!("more than {SCOPE} variables in scope with {name}")),
            );
            return Err(Failed);
        }
        let outside = self.scope.len();
        self.scope.push((name, kind));
        let row = part(self);
        self.scope.truncate(outside);
        self.ended.insert(name);
        row
    }

    /// A text with its mark and place in the pool.
    fn text(&mut self) -> Parsed<(Origin, Text)> {
        let place = self.place();
        let bytes = self.text_token("a text")?;
        let origin = self.marked(place)?;
        let at = if self.stands("at") {
            self.advance();
            let place = self.place();
            Some((self.number("a pool offset")?, place))
        } else {
            None
        };
        Ok((origin, Text { bytes, place, at }))
    }
}
