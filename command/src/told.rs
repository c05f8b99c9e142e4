//! A refusal told with the places in the user's own files that it is about.

use crate::calls::{self, Lent};
use crate::inputs::Work;
use crate::limits::{self, Walk};
use crate::messages::{shown, Mark, Message};
use crate::parts::{self, Output, Passed};
use crate::refusals::{self, advised, message};
use crate::rules::{Rule, CHILDREN, CONDITION, INSERT, RENAME, SAME, TEST};
use crate::unfit;
use archive::Reply;
use notation::limits::FUEL;
use notation::{Place, Table};

/// The question that was asked.
#[derive(Clone, Copy, PartialEq, Eq)]
pub enum Question {
    Check,
    Fit { type_row: u16 },
    Run,
    Apply,
}

/// A refusal with the places in the user's files that it is about.
pub fn told(work: &Work, question: Question, lent: Lent, reply: Reply) -> String {
    let asked = Asked { work, question, lent, reply };
    shown(&work.files, &[asked.message()])
}

struct Asked<'a> {
    work: &'a Work,
    question: Question,
    lent: Lent,
    reply: Reply,
}

impl Asked<'_> {
    fn message(&self) -> Message {
        let Reply { number, a, b, .. } = self.reply;
        let row = u16::try_from(a).expect("a carried row is a word");
        match (number, row, b) {
            (2, ..) => self.no_such_type(),
            (3, name, _) => self.barren(name),
            (4, row, rival) => self.tie(row, u16::try_from(rival).expect("a carried row is a word")),
            (5, ..) => self.fuel(),
            (6, ..) => self.depth(),
            (7 | 9, 0, _) => self.output(),
            (7..=9, row, 1) => self.query_rule(row),
            (7..=9, row, _) => self.statement_rule(row),
            (10, tree, _) => self.unfit(tree),
            (11, row, 1) => self.stuck_query(row),
            (11, row, _) => self.stuck_statement(row),
            (12, ..) => self.scratch(),
            (13, ..) => self.room(),
            _ => message(number, refusals::ALL[number - 1].given_if, vec![]),
        }
    }

    fn sign(&self, table: Table, row: u16, said: impl Into<String>) -> Vec<Mark> {
        self.work.places.row(table, row).map(|written| Mark::new(written.sign, said)).into_iter().collect()
    }

    fn whole(&self, table: Table, row: u16, said: impl Into<String>) -> Vec<Mark> {
        self.work.places.row(table, row).map(|written| Mark::new(written.whole, said)).into_iter().collect()
    }

    /// docs/REFUSALS.md, "11, Stuck".
    fn stuck_query(&self, row: u16) -> Message {
        match self.work.sheet.queries[usize::from(row) - 1] {
            [9, condition, ..] => self.stuck_at(Table::Queries, row, NOT_ONE_BOOL, condition),
            _ => self.stuck_at(Table::Queries, row, "`=` needs one text on each side", 0),
        }
    }

    fn stuck_statement(&self, row: u16) -> Message {
        let (text, condition) = match self.work.sheet.statements[usize::from(row) - 1] {
            [3, condition, ..] => (NOT_ONE_BOOL, condition),
            [4, ..] => ("`insert` where the focus is not empty", 0),
            [6, ..] => ("`rename` where the focus is not one labelled tree", 0),
            [9, ..] => ("a test where the focus is not one tree", 0),
            _ => ("`children` where the focus is not one labelled tree", 0),
        };
        self.stuck_at(Table::Statements, row, text, condition)
    }

    fn stuck_at(&self, table: Table, row: u16, text: &str, condition: u16) -> Message {
        let condition = self.whole(Table::Queries, condition, "the condition");
        message(11, text, [self.sign(table, row, ""), condition].into_iter().flatten().collect())
    }

    /// Of fit alone: all other tables were judged when they were read or written.
    fn no_such_type(&self) -> Message {
        let Question::Fit { type_row } = self.question else {
            return message(2, refusals::ALL[1].given_if, vec![]);
        };
        let rows = self.work.sheet.types.len();
        let text = format!("there is no type row {type_row}: the types have {rows} rows");
        advised(2, text, "name a row that there is, a type by its name, `A` or `B`", vec![])
    }

    fn barren(&self, number: u16) -> Message {
        let name = self.work.names.type_name(number);
        let place = self.work.places.names.get(usize::from(number) - 1).copied();
        let mark = place.map(|place| Mark::new(place, format!("each `{name}` holds another, without end")));
        message(3, format!("no finite tree is of type `{name}`"), mark.into_iter().collect())
    }

    fn tie(&self, row: u16, rival: u16) -> Message {
        let head = unfit::head(&self.work.sheet, &self.work.names, row);
        let text = format!(
            "two places of this type have {head} and may both come next, so the next tree does not say which it is"
        );
        let marks = [self.sign(Table::Types, row, "this one"), self.sign(Table::Types, rival, "and this one")];
        message(4, text, marks.into_iter().flatten().collect())
    }

    /// Whether it was the check that gave this number; apply is asked again in two parts.
    fn walk(&self) -> Walk {
        match self.question {
            Question::Check => Walk::Check,
            Question::Apply if calls::check(&self.work.bundle, self.lent).number == self.reply.number => Walk::Check,
            _ => Walk::Run,
        }
    }

    fn fuel(&self) -> Message {
        let walk = self.walk();
        let (word, given) = (walk.word(), walk.fuel(&self.work.sheet));
        let mut marks = self.sign(Table::Statements, limits::spent_in(self.work, walk), "in this statement they end");
        let advice = match given {
            FUEL => "split the script into several: what one prints, the next takes; more fuel there is not",
            _ => refusals::ALL[4].what_to_do,
        };
        let mut message =
            advised(5, format!("the {word} has taken all its {given} units and needs more"), advice, vec![]);
        match self.work.places.section("fuel") {
            Some(place) => marks.push(Mark::new(place, format!("here the {word} is given {given}"))),
            None => message.notes.insert(
                0,
                format!("no `fuel` line stands in the files, so the {word} is given {given}, the most there is"),
            ),
        }
        Message { marks, ..message }
    }

    fn depth(&self) -> Message {
        let walk = self.walk();
        let row = limits::too_deep(&self.work.sheet, walk);
        let marks = row.map(|(table, row)| self.sign(table, row, "this would be level 201"));
        message(6, format!("the {} goes deeper than 200 levels", walk.word()), marks.unwrap_or_default())
    }

    /// A declared output, a procedure's or the script's.
    fn output(&self) -> Message {
        let Work { sheet, names, .. } = self.work;
        let number = self.reply.number;
        let (what, output) = match parts::output_refused(sheet, number) {
            Some(Output::Procedure(index)) => {
                (format!("procedure `{}`", names.procedure(index as u16 + 1)), sheet.procedures[index][3])
            }
            Some(Output::Script) => ("the script".into(), sheet.b),
            None => ("the script or a procedure".into(), 0),
        };
        let declared = self.whole(Table::Types, output, "declared here");
        match number {
            7 => message(7, format!("the type of what {what} makes has more than 512 rows"), declared),
            _ => message(9, format!("what {what} makes is not always of the declared type"), declared),
        }
    }

    /// What a row's rule wants, the row, the part that it is wanted of, and what to do about it.
    fn unmet(&self, table: Table, row: u16, rule: &Rule, part: Vec<Mark>) -> Message {
        let marks = [self.sign(table, row, ""), part].into_iter().flatten().collect();
        match self.reply.number {
            7 => message(7, format!("the type of {} has more than 512 rows", rule.of), marks),
            number => advised(number, rule.wants, rule.advice, marks),
        }
    }

    /// The part of a row that a rule is about.
    fn part(&self, row: u16, unmet: &str) -> Vec<Mark> {
        let said = if self.reply.number == 7 { "its type is too wide" } else { unmet };
        self.whole(Table::Queries, row, said)
    }

    fn query_rule(&self, row: u16) -> Message {
        let [kind, left, right, _] = self.work.sheet.queries[usize::from(row) - 1];
        if kind == 9 {
            return self.unmet(Table::Queries, row, &CONDITION, self.part(left, NOT_BOOL));
        }
        let side = [left, right][parts::side_of_same(&self.work.sheet, row, self.reply.number)];
        self.unmet(Table::Queries, row, &SAME, self.part(side, "this is not always one text"))
    }

    fn statement_rule(&self, row: u16) -> Message {
        let rule = match self.work.sheet.statements[usize::from(row) - 1] {
            [3, condition, ..] => {
                return self.unmet(Table::Statements, row, &CONDITION, self.part(condition, NOT_BOOL));
            }
            [14, ..] => return self.call(row),
            [4, ..] => &INSERT,
            [6, ..] => &RENAME,
            [10, ..] => &CHILDREN,
            _ => &TEST,
        };
        self.unmet(Table::Statements, row, rule, vec![])
    }

    fn call(&self, row: u16) -> Message {
        let Work { sheet, names, .. } = self.work;
        let [_, number, first, second] = sheet.statements[usize::from(row) - 1];
        let [first_type, second_type, input, ..] = sheet.procedures[usize::from(number) - 1];
        let name = names.procedure(number);
        let (of, argument, declared) = match parts::part_of_call(sheet, row, self.reply.number) {
            Some(Passed::Focus) => (format!("the focus at the call of `{name}`"), 0, input),
            Some(Passed::Argument(0)) => (format!("`{name}`'s first argument"), first, first_type),
            Some(Passed::Argument(_)) => (format!("`{name}`'s second argument"), second, second_type),
            None => (format!("the focus or an argument at the call of `{name}`"), 0, 0),
        };
        let mut part = if argument == 0 { vec![] } else { self.part(argument, "this argument") };
        part.extend(self.whole(Table::Types, declared, "the declared type"));
        let wants = format!("{of} is not always of the declared type");
        self.unmet(Table::Statements, row, &Rule { of: &of, wants: &wants, advice: refusals::ALL[8].what_to_do }, part)
    }

    fn unfit(&self, tree: u16) -> Message {
        let Work { sheet, names, places, .. } = self.work;
        let asked = match self.question {
            Question::Fit { type_row } => type_row,
            _ => sheet.a,
        };
        let what = self.type_words(asked);
        let fault = unfit::fault(sheet, names, asked, tree);
        let of_type = self.whole(Table::Types, fault.type_row, "the type that it is to have");
        let Some(forest) = places.section("forest") else {
            let text = format!("no file has a description (`forest`), and the empty one is not of {what}");
            return advised(10, text, "name the file that has the description too", of_type);
        };
        let tree = match tree {
            0 => vec![Mark::new(start_of(forest), fault.why)],
            tree => self.sign(Table::Forest, tree, fault.why),
        };
        message(10, format!("the description is not of {what}"), [tree, of_type].into_iter().flatten().collect())
    }

    /// A type row in the user's words.
    fn type_words(&self, row: u16) -> String {
        let Work { sheet, names, .. } = self.work;
        let name = sheet.names.iter().position(|held| *held == row);
        match name {
            _ if row == sheet.a => "type A, `from`".into(),
            _ if row == sheet.b => "type B, `to`".into(),
            Some(index) => format!("type `{}`", names.type_name(index as u16 + 1)),
            None => format!("type row {row}"),
        }
    }

    fn scratch(&self) -> Message {
        let Work { sheet, .. } = self.work;
        let lent = self.lent.work;
        let text = match self.walk() {
            Walk::Check => {
                format!("the check needs as many working rows as its fuel, {}, and {lent} are lent", sheet.check_fuel)
            }
            Walk::Run => {
                let (rows, fuel) = (sheet.forest.len(), sheet.run_fuel);
                let each = "a working row for each row of the description and each unit of fuel";
                format!("the run needs {each}, {rows} and {fuel}, and {lent} are lent")
            }
        };
        message(12, text, vec![])
    }

    fn room(&self) -> Message {
        let text = format!("the result has more than {} rows, which are lent for it", self.lent.result);
        let script = self.work.places.section("script");
        message(13, text, script.map(|script| Mark::new(start_of(script), "")).into_iter().collect())
    }
}

/// The word that begins a section.
fn start_of(section: Place) -> Place {
    Place { end: section.start + 6, ..section }
}

const NOT_BOOL: &str = "this is not always one bool";
const NOT_ONE_BOOL: &str = "the condition of `if` is not one bool";
