//! From a sheet to text: the functions follow the grammar at the end of docs/NOTATION.md, as those of
//! the parser do.

use crate::layout::Layout;
use crate::order::{text_of, Notes};
use crate::places::Names;
use crate::tables::{row, Node, Query, Sheet, Statement, Test, Type, Variable};
use crate::words::{self, Word};
use std::collections::BTreeSet;

/// The whole sheet.
pub fn print(sheet: &Sheet, names: &Names) -> String {
    let mut printer = Printer::new(sheet, names, Notes::of(sheet));
    printer.labels(&labels_of(sheet));
    printer.script_sections();
    printer.forest_section();
    printer.layout.finish()
}

/// All but the forest, with the labels and marks that the rest needs.
pub fn print_script(sheet: &Sheet, names: &Names) -> String {
    let rest = Sheet {
        forest: Vec::new(),
        root: 0,
        ..sheet.clone()
    };
    let mut printer = Printer::new(&rest, names, Notes::of(&rest));
    printer.labels(&labels_of(&rest));
    printer.script_sections();
    printer.layout.finish()
}

/// The forest with its labels, whatever its row numbers and its places in the pool.
pub fn print_forest(sheet: &Sheet, names: &Names) -> String {
    let mut printer = Printer::new(sheet, names, Notes::default());
    let rows = sheet.forest.iter().filter(|row| row[0] == 4);
    printer.labels(&rows.map(|row| row[1]).collect());
    printer.forest_section();
    printer.layout.finish()
}

struct Printer<'a> {
    sheet: &'a Sheet,
    names: &'a Names,
    notes: Notes,
    layout: Layout,
    scope: Vec<Variable>,
}

/// Sections.
impl<'a> Printer<'a> {
    fn new(sheet: &'a Sheet, names: &'a Names, notes: Notes) -> Printer<'a> {
        Printer {
            sheet,
            names,
            notes,
            layout: Layout::default(),
            scope: Vec::new(),
        }
    }

    fn script_sections(&mut self) {
        if self.notes.pool_shown {
            self.pool();
        }
        for (number, row) in (1..).zip(&self.sheet.names) {
            self.layout
                .word(format!("type {} = ", self.names.type_name(number)));
            self.grouped(|printer| printer.atom(*row));
            self.layout.gap("");
        }
        self.two_types(self.sheet.a, self.sheet.b);
        self.layout.gap("");
        let (check, run) = (self.sheet.check_fuel, self.sheet.run_fuel);
        self.layout.word(format!("fuel check {check}, run {run}"));
        self.layout.gap("");
        for (number, row) in (1..).zip(&self.sheet.procedures) {
            self.procedure(number, *row);
        }
        self.layout.word("script");
        self.below(|printer| printer.statement(printer.sheet.main));
        self.layout.gap("");
    }

    fn forest_section(&mut self) {
        self.layout.word("forest");
        self.below(Self::forest);
        self.layout.gap("");
    }

    fn labels(&mut self, labels: &BTreeSet<u16>) {
        if labels.is_empty() {
            return;
        }
        self.layout.word("labels");
        for (index, number) in labels.iter().enumerate() {
            if index > 0 {
                self.layout.word(",");
            }
            if index % 8 == 0 && labels.len() > 8 {
                self.layout.gap("");
            }
            self.layout
                .word(format!(" {} = {number}", self.names.label(*number)));
        }
        self.layout.gap("");
    }

    fn pool(&mut self) {
        const BYTES_PER_LINE: usize = 64;
        self.layout.word("pool");
        self.layout.indent();
        let mut lines: Vec<&[u8]> = self.sheet.pool.chunks(BYTES_PER_LINE).collect();
        if lines.is_empty() {
            lines.push(&[]);
        }
        for line in lines {
            self.layout.gap("");
            self.layout.word(quoted(line));
        }
        self.layout.outdent();
        self.layout.gap("");
    }

    fn procedure(&mut self, number: u16, [first, second, input, output, body]: [u16; 5]) {
        self.layout
            .word(format!("procedure {}(", self.names.procedure(number)));
        for row in [first, second].into_iter().filter(|row| *row != 0) {
            if !self.scope.is_empty() {
                self.layout.word(", ");
            }
            let parameter = self.next_variable(Variable::Forest);
            self.scope.push(Variable::Forest);
            self.layout.word(format!("{parameter}: "));
            self.grouped(|printer| printer.item(row));
        }
        self.layout.word(")");
        self.layout.indent();
        self.layout.gap("");
        self.two_types(input, output);
        self.layout.outdent();
        self.layout.word(" =");
        self.below(|printer| printer.statement(body));
        self.layout.gap("");
        self.scope.clear();
    }

    fn two_types(&mut self, from: u16, to: u16) {
        self.layout.word("from ");
        self.grouped(|printer| printer.types(from));
        self.layout.gap("");
        self.layout.word("to ");
        self.grouped(|printer| printer.types(to));
    }

    /// A part on lines of its own.
    fn below(&mut self, part: impl FnOnce(&mut Self)) {
        self.layout.indent();
        self.layout.gap("");
        self.grouped(part);
        self.layout.outdent();
    }
}

/// Marks, groups, variables.
impl Printer<'_> {
    /// The sign or word that brings a row, with the row's mark.
    fn sign(&mut self, table: Word, row: u16, sign: &str) {
        self.layout.word(sign);
        if self.notes.marked.contains(&(table, row)) {
            self.layout.word(format!("@{row}"));
        }
    }

    fn grouped(&mut self, part: impl FnOnce(&mut Self)) {
        self.layout.open();
        part(self);
        self.layout.close();
    }

    /// A part between brackets.
    fn enclosed(&mut self, open: &str, close: &str, part: impl FnOnce(&mut Self)) {
        self.layout.open();
        self.layout.word(open);
        self.layout.indent();
        self.layout.gap("");
        part(self);
        self.layout.outdent();
        self.layout.gap("");
        self.layout.word(close);
        self.layout.close();
    }

    fn text(&mut self, table: Word, row: u16) {
        let (offset, bytes) = text_of(self.sheet, table, row);
        self.sign(table, row, &quoted(bytes));
        if self.notes.placed.contains(&(table, row)) {
            self.layout.word(format!(" at {offset}"));
        }
    }

    fn variable(&self, number: usize) -> String {
        variable_name(self.scope[number], number)
    }

    /// The name of the variable that the next binder adds.
    fn next_variable(&self, kind: Variable) -> String {
        variable_name(kind, self.scope.len())
    }

    /// A part that sees one more variable.
    fn within(&mut self, kind: Variable, part: impl FnOnce(&mut Self)) {
        self.scope.push(kind);
        part(self);
        self.scope.pop();
    }

    /// The content of a label, of a type or a query; an empty one needs no sign of its own.
    fn content(&mut self, table: Word, row: u16, is_empty: bool, part: fn(&mut Self, u16)) {
        if is_empty && !self.notes.marked.contains(&(table, row)) {
            self.layout.word("[]");
        } else {
            self.enclosed("[", "]", |printer| part(printer, row));
        }
    }
}

/// Types.
impl Printer<'_> {
    fn type_at(&self, number: u16) -> Type {
        let found = row(&self.sheet.types, number).and_then(Type::of);
        found.expect("a type row that passed Shape")
    }

    fn types(&mut self, row: u16) {
        let Type::Choice(left, right) = self.type_at(row) else {
            return self.branch(row);
        };
        self.branch(left);
        self.layout.gap(" ");
        self.sign(Word::Type, row, "|");
        self.layout.word(" ");
        self.types(right);
    }

    fn branch(&mut self, row: u16) {
        let Type::Sequence(left, right) = self.type_at(row) else {
            return self.item(row);
        };
        self.item(left);
        self.sign(Word::Type, row, ",");
        self.layout.gap(" ");
        self.branch(right);
    }

    fn item(&mut self, row: u16) {
        let Type::Star(part) = self.type_at(row) else {
            return self.atom(row);
        };
        self.item(part);
        self.sign(Word::Type, row, "*");
    }

    fn atom(&mut self, row: u16) {
        match self.type_at(row) {
            Type::Empty => self.sign(Word::Type, row, "()"),
            Type::Text => self.sign(Word::Type, row, "text"),
            Type::Bool => self.sign(Word::Type, row, "bool"),
            Type::Label { label, content } => {
                self.sign(Word::Type, row, &self.names.label(label));
                let is_empty = self.type_at(content) == Type::Empty;
                self.content(Word::Type, content, is_empty, Self::types);
            }
            Type::Name(name) => self.sign(Word::Type, row, &self.names.type_name(name)),
            Type::Sequence(..) | Type::Choice(..) | Type::Star(_) => {
                self.enclosed("(", ")", |printer| printer.types(row));
            }
        }
    }
}

/// Queries.
impl Printer<'_> {
    fn query(&mut self, row: u16) {
        let Query::Join(left, right) = self.sheet.query(row) else {
            return self.single(row);
        };
        self.listed(left);
        self.sign(Word::Query, row, ",");
        self.layout.gap(" ");
        self.query(right);
    }

    /// A part of a list that a comma follows: an open-ended one stands between brackets.
    fn listed(&mut self, row: u16) {
        match self.sheet.query(row) {
            Query::Let { .. } | Query::If { .. } | Query::For { .. } => {
                self.enclosed("(", ")", |printer| printer.single(row));
            }
            _ => self.single(row),
        }
    }

    fn single(&mut self, row: u16) {
        match self.sheet.query(row) {
            Query::Let { value, body } => self.grouped(|printer| {
                printer.let_binding(Word::Query, row, value);
                printer.within(Variable::Forest, |printer| printer.single(body));
            }),
            Query::If { condition, yes, no } => self.grouped(|printer| {
                printer.condition(Word::Query, row, condition);
                printer.grouped(|printer| printer.query(yes));
                printer.otherwise();
                printer.single(no);
            }),
            Query::For { each, body } => self.grouped(|printer| {
                printer.for_binding(row, each);
                printer.within(Variable::Tree, |printer| printer.single(body));
            }),
            Query::Same(left, right) => {
                self.picked(left);
                self.layout.word(" ");
                self.sign(Word::Query, row, "=");
                self.layout.word(" ");
                self.picked(right);
            }
            _ => self.picked(row),
        }
    }

    /// `let x = query in`, of a query or a statement.
    fn let_binding(&mut self, table: Word, row: u16, value: u16) {
        let variable = self.next_variable(Variable::Forest);
        self.sign(table, row, "let");
        self.layout.word(format!(" {variable} = "));
        self.grouped(|printer| printer.query(value));
        self.layout.word(" in");
        self.layout.gap(" ");
    }

    /// `for t in query return`.
    fn for_binding(&mut self, row: u16, each: u16) {
        let variable = self.next_variable(Variable::Tree);
        self.sign(Word::Query, row, "for");
        self.layout.word(format!(" {variable} in "));
        self.grouped(|printer| printer.query(each));
        self.layout.gap(" ");
        self.layout.word("return ");
    }

    /// `if query then`, of a query or a statement.
    fn condition(&mut self, table: Word, row: u16, condition: u16) {
        self.sign(table, row, "if");
        self.layout.word(" ");
        self.grouped(|printer| printer.query(condition));
        self.layout.gap(" ");
        self.layout.word("then ");
    }

    fn otherwise(&mut self) {
        self.layout.gap(" ");
        self.layout.word("else ");
    }

    fn picked(&mut self, row: u16) {
        let Query::Pick { from, label } = self.sheet.query(row) else {
            return self.primary(row);
        };
        self.picked(from);
        self.layout.word(" ");
        self.sign(Word::Query, row, "::");
        self.layout.word(format!(" {}", self.names.label(label)));
    }

    fn primary(&mut self, row: u16) {
        match self.sheet.query(row) {
            Query::Empty => self.sign(Word::Query, row, "()"),
            Query::Tree { label, content } => {
                self.sign(Word::Query, row, &self.names.label(label));
                let is_empty = self.sheet.query(content) == Query::Empty;
                self.content(Word::Query, content, is_empty, Self::query);
            }
            Query::Text { .. } => self.text(Word::Query, row),
            Query::True => self.sign(Word::Query, row, "true"),
            Query::False => self.sign(Word::Query, row, "false"),
            Query::Variable(number) => self.sign(Word::Query, row, &self.variable(number)),
            Query::Children { variable } => {
                self.sign(Word::Query, row, "children");
                self.layout.word(format!("({})", self.variable(variable)));
            }
            _ => self.enclosed("(", ")", |printer| printer.query(row)),
        }
    }
}

/// Statements.
impl Printer<'_> {
    fn statement(&mut self, row: u16) {
        let Statement::Then(first, rest) = self.sheet.statement(row) else {
            return self.step(row);
        };
        self.step(first);
        self.sign(Word::Statement, row, ";");
        self.layout.gap(" ");
        self.statement(rest);
    }

    fn step(&mut self, row: u16) {
        match self.sheet.statement(row) {
            Statement::Skip => self.sign(Word::Statement, row, "skip"),
            Statement::Then(..) => self.enclosed("(", ")", |printer| printer.statement(row)),
            Statement::If { condition, yes, no } => self.grouped(|printer| {
                printer.condition(Word::Statement, row, condition);
                printer.grouped(|printer| printer.statement(yes));
                printer.otherwise();
                printer.step(no);
            }),
            Statement::Insert { value } => {
                self.sign(Word::Statement, row, "insert");
                self.layout.word(" ");
                self.grouped(|printer| printer.query(value));
            }
            Statement::Delete => self.sign(Word::Statement, row, "delete"),
            Statement::Rename { label } => {
                self.sign(Word::Statement, row, "rename");
                self.layout.word(format!(" {}", self.names.label(label)));
            }
            Statement::Let { value, body } => self.grouped(|printer| {
                printer.let_binding(Word::Statement, row, value);
                printer.within(Variable::Forest, |printer| printer.step(body));
            }),
            Statement::Snapshot { body } => self.grouped(|printer| {
                printer.snapshot(row);
                printer.within(Variable::Forest, |printer| printer.step(body));
            }),
            Statement::Test { test, body } => self.test(row, test, body),
            Statement::Children { body } => self.bracketed("children", row, body),
            Statement::Left { body } => self.bracketed("left", row, body),
            Statement::Right { body } => self.bracketed("right", row, body),
            Statement::Iter { body } => self.bracketed("iter", row, body),
            Statement::Call { callee, arguments } => self.call(row, callee, arguments),
        }
    }

    /// `snapshot x in`.
    fn snapshot(&mut self, row: u16) {
        let variable = self.next_variable(Variable::Forest);
        self.sign(Word::Statement, row, "snapshot");
        self.layout.word(format!(" {variable} in"));
        self.layout.gap(" ");
    }

    fn test(&mut self, row: u16, test: Test, body: u16) {
        let (word, rest) = match test {
            Test::Text => ("text".into(), "()? "),
            Test::Label(label) => (self.names.label(label), "? "),
            Test::Any => ("node".into(), "()? "),
        };
        self.sign(Word::Statement, row, &word);
        self.layout.word(rest);
        self.step(body);
    }

    fn bracketed(&mut self, word: &str, row: u16, body: u16) {
        self.sign(Word::Statement, row, word);
        self.layout.word(" ");
        self.enclosed("[", "]", |printer| printer.statement(body));
    }

    fn call(&mut self, row: u16, callee: u16, arguments: [u16; 2]) {
        self.sign(Word::Statement, row, &self.names.procedure(callee));
        self.layout.word("(");
        for (index, argument) in arguments.into_iter().filter(|row| *row != 0).enumerate() {
            if index > 0 {
                self.layout.word(", ");
            }
            self.grouped(|printer| printer.single(argument));
        }
        self.layout.word(")");
    }
}

/// The forest.
impl Printer<'_> {
    fn forest(&mut self) {
        match self.sheet.root {
            0 => self.layout.word("()"),
            root => self.trees(root),
        }
    }

    fn trees(&mut self, first: u16) {
        let mut next = self.tree(first);
        while next != 0 {
            self.layout.word(",");
            self.layout.gap(" ");
            next = self.tree(next);
        }
    }

    /// Prints a tree and gives the next.
    fn tree(&mut self, number: u16) -> u16 {
        let found = row(&self.sheet.forest, number).and_then(Node::of);
        let (node, next) = found.expect("a forest row that passed Shape");
        match node {
            Node::Text { .. } => self.text(Word::Forest, number),
            Node::Bool(value) => self.sign(Word::Forest, number, &value.to_string()),
            Node::Label { label, child } => {
                self.sign(Word::Forest, number, &self.names.label(label));
                match child {
                    0 => self.layout.word("[]"),
                    _ => self.enclosed("[", "]", |printer| printer.trees(child)),
                }
            }
        }
        next
    }
}

fn variable_name(kind: Variable, number: usize) -> String {
    match kind {
        Variable::Forest => format!("x{number}"),
        Variable::Tree => format!("t{number}"),
    }
}

fn labels_of(sheet: &Sheet) -> BTreeSet<u16> {
    let mut labels = BTreeSet::new();
    words::visit(&mut sheet.clone(), |meaning, word| {
        if meaning == Word::Label {
            labels.insert(*word);
        }
    });
    labels
}

/// Bytes between quotes: letters, digits and ASCII signs as they are, all else by escapes.
pub fn quoted(bytes: &[u8]) -> String {
    let mut text = String::from("\"");
    for chunk in bytes.utf8_chunks() {
        chunk.valid().chars().for_each(|c| push_char(&mut text, c));
        push_bytes(&mut text, chunk.invalid());
    }
    text.push('"');
    text
}

fn push_char(text: &mut String, c: char) {
    match c {
        '"' | '\\' => text.extend(['\\', c]),
        '\n' => text.push_str("\\n"),
        '\r' => text.push_str("\\r"),
        '\t' => text.push_str("\\t"),
        ' ' => text.push(c),
        _ if c.is_ascii_graphic() || !c.is_ascii() && c.is_alphanumeric() => text.push(c),
        _ => push_bytes(text, c.encode_utf8(&mut [0; 4]).as_bytes()),
    }
}

fn push_bytes(text: &mut String, bytes: &[u8]) {
    for byte in bytes {
        text.push_str(&format!("\\x{byte:02x}"));
    }
}
