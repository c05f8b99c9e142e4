//! Types, queries and statements as trees, and the sheet that their rows make: for cases and tests.

use crate::forests::Forest;
use crate::tables::{last_row, Sheet, Test, Type};
use crate::types::Types;

#[derive(Clone, Debug, PartialEq, Eq, PartialOrd, Ord, Hash)]
pub enum Ty {
    Empty,
    Text,
    Bool,
    Label(u16, Box<Ty>),
    Sequence(Box<Ty>, Box<Ty>),
    Choice(Box<Ty>, Box<Ty>),
    Star(Box<Ty>),
    Name(u16),
}

#[derive(Clone, Debug, PartialEq, Eq)]
pub enum Qu {
    Empty,
    Join(Box<Qu>, Box<Qu>),
    Tree(u16, Box<Qu>),
    Text { offset: u16, length: u16 },
    Bool(bool),
    Variable(u16),
    Let(Box<Qu>, Box<Qu>),
    If(Box<Qu>, Box<Qu>, Box<Qu>),
    Same(Box<Qu>, Box<Qu>),
    Children(u16),
    Pick(Box<Qu>, u16),
    For(Box<Qu>, Box<Qu>),
}

#[derive(Clone, Debug, PartialEq, Eq)]
pub enum St {
    Skip,
    Then(Box<St>, Box<St>),
    If(Qu, Box<St>, Box<St>),
    Insert(Qu),
    Delete,
    Rename(u16),
    Let(Qu, Box<St>),
    Snapshot(Box<St>),
    Test(Test, Box<St>),
    Children(Box<St>),
    Left(Box<St>),
    Right(Box<St>),
    Iter(Box<St>),
    Call(u16, Vec<Qu>),
}

#[derive(Clone, Debug, PartialEq, Eq)]
pub struct Declaration {
    pub parameters: Vec<Ty>,
    pub input: Ty,
    pub output: Ty,
    pub body: St,
}

/// All that a sheet says.
#[derive(Clone, Debug, PartialEq, Eq)]
pub struct Script {
    pub names: Vec<Ty>,
    pub procedures: Vec<Declaration>,
    pub a: Ty,
    pub b: Ty,
    pub main: St,
    pub forest: Forest,
    pub pool: Vec<u8>,
    pub check_fuel: u16,
    pub run_fuel: u16,
}

impl Script {
    /// The script without procedures that runs on no forest, with full fuel.
    pub fn new(a: Ty, main: St, b: Ty) -> Script {
        Script {
            names: Vec::new(),
            procedures: Vec::new(),
            a,
            b,
            main,
            forest: Forest::empty(),
            pool: Vec::new(),
            check_fuel: crate::shape::FUEL,
            run_fuel: crate::shape::FUEL,
        }
    }

    pub fn sheet(&self) -> Sheet {
        let mut sheet = Sheet {
            pool: self.pool.clone(),
            check_fuel: self.check_fuel,
            run_fuel: self.run_fuel,
            ..Sheet::default()
        };
        for ty in &self.names {
            let row = sheet.add_type(ty);
            sheet.names.push(row);
        }
        sheet.a = sheet.add_type(&self.a);
        sheet.b = sheet.add_type(&self.b);
        for procedure in &self.procedures {
            let row = sheet.add_procedure(procedure);
            sheet.procedures.push(row);
        }
        sheet.main = sheet.add_statement(&self.main);
        (sheet.forest, sheet.root) = self.forest.to_rows();
        sheet
    }
}

/// Adds the rows of a tree below its own row, and gives that row.
pub trait AddRows {
    fn add_type(&mut self, ty: &Ty) -> u16;
    fn add_query(&mut self, query: &Qu) -> u16;
    fn add_statement(&mut self, statement: &St) -> u16;
    fn add_procedure(&mut self, procedure: &Declaration) -> [u16; 5];
}

impl AddRows for Sheet {
    fn add_type(&mut self, ty: &Ty) -> u16 {
        let row = match ty {
            Ty::Empty => [1, 0, 0],
            Ty::Text => [2, 0, 0],
            Ty::Bool => [3, 0, 0],
            Ty::Label(label, content) => [4, *label, self.add_type(content)],
            Ty::Sequence(p, q) => [5, self.add_type(p), self.add_type(q)],
            Ty::Choice(p, q) => [6, self.add_type(p), self.add_type(q)],
            Ty::Star(p) => [7, self.add_type(p), 0],
            Ty::Name(name) => [8, *name, 0],
        };
        self.types.push(row);
        last_row(&self.types)
    }

    fn add_query(&mut self, query: &Qu) -> u16 {
        let row = match query {
            Qu::Empty => [1, 0, 0, 0],
            Qu::Join(p, q) => [2, self.add_query(p), self.add_query(q), 0],
            Qu::Tree(label, content) => [3, *label, self.add_query(content), 0],
            Qu::Text { offset, length } => [4, *offset, *length, 0],
            Qu::Bool(true) => [5, 0, 0, 0],
            Qu::Bool(false) => [6, 0, 0, 0],
            Qu::Variable(variable) => [7, *variable, 0, 0],
            Qu::Let(p, q) => [8, self.add_query(p), self.add_query(q), 0],
            Qu::If(p, q, r) => [9, self.add_query(p), self.add_query(q), self.add_query(r)],
            Qu::Same(p, q) => [10, self.add_query(p), self.add_query(q), 0],
            Qu::Children(variable) => [11, *variable, 0, 0],
            Qu::Pick(p, label) => [12, self.add_query(p), *label, 0],
            Qu::For(p, q) => [13, self.add_query(p), self.add_query(q), 0],
        };
        self.queries.push(row);
        last_row(&self.queries)
    }

    fn add_statement(&mut self, statement: &St) -> u16 {
        let row = match statement {
            St::Skip => [1, 0, 0, 0],
            St::Then(p, q) => [2, self.add_statement(p), self.add_statement(q), 0],
            St::If(p, q, r) => {
                let condition = self.add_query(p);
                [3, condition, self.add_statement(q), self.add_statement(r)]
            }
            St::Insert(p) => [4, self.add_query(p), 0, 0],
            St::Delete => [5, 0, 0, 0],
            St::Rename(label) => [6, *label, 0, 0],
            St::Let(p, q) => [7, self.add_query(p), self.add_statement(q), 0],
            St::Snapshot(p) => [8, self.add_statement(p), 0, 0],
            St::Test(Test::Text, r) => [9, 1, 0, self.add_statement(r)],
            St::Test(Test::Label(label), r) => [9, 2, *label, self.add_statement(r)],
            St::Test(Test::Any, r) => [9, 3, 0, self.add_statement(r)],
            St::Children(p) => [10, self.add_statement(p), 0, 0],
            St::Left(p) => [11, self.add_statement(p), 0, 0],
            St::Right(p) => [12, self.add_statement(p), 0, 0],
            St::Iter(p) => [13, self.add_statement(p), 0, 0],
            St::Call(procedure, arguments) => {
                let mut rows = arguments.iter().map(|it| self.add_query(it));
                let mut argument = || rows.next().unwrap_or(0);
                [14, *procedure, argument(), argument()]
            }
        };
        self.statements.push(row);
        last_row(&self.statements)
    }

    fn add_procedure(&mut self, procedure: &Declaration) -> [u16; 5] {
        let mut rows = procedure.parameters.iter().map(|it| self.add_type(it));
        let mut parameter = || rows.next().unwrap_or(0);
        [
            parameter(),
            parameter(),
            self.add_type(&procedure.input),
            self.add_type(&procedure.output),
            self.add_statement(&procedure.body),
        ]
    }
}

impl Ty {
    /// The type at a row, written out.
    pub fn of(types: &Types, row: u16) -> Ty {
        let part = |row| Box::new(Ty::of(types, row));
        match types.row(row) {
            Type::Empty => Ty::Empty,
            Type::Text => Ty::Text,
            Type::Bool => Ty::Bool,
            Type::Label { label, content } => Ty::Label(label, part(content)),
            Type::Sequence(p, q) => Ty::Sequence(part(p), part(q)),
            Type::Choice(p, q) => Ty::Choice(part(p), part(q)),
            Type::Star(p) => Ty::Star(part(p)),
            Type::Name(name) => Ty::Name(name),
        }
    }

    pub fn label(label: u16, content: Ty) -> Ty {
        Ty::Label(label, Box::new(content))
    }

    pub fn then(self, other: Ty) -> Ty {
        Ty::Sequence(Box::new(self), Box::new(other))
    }

    pub fn or(self, other: Ty) -> Ty {
        Ty::Choice(Box::new(self), Box::new(other))
    }

    pub fn star(self) -> Ty {
        Ty::Star(Box::new(self))
    }
}

/// Something with so many of another thing around it.
pub fn nested<T>(inner: T, times: usize, around: impl Fn(T) -> T) -> T {
    (0..times).fold(inner, |it, _| around(it))
}

impl Qu {
    pub fn tree(label: u16, content: Qu) -> Qu {
        Qu::Tree(label, Box::new(content))
    }

    pub fn join(self, other: Qu) -> Qu {
        Qu::Join(Box::new(self), Box::new(other))
    }

    pub fn bind(self, body: Qu) -> Qu {
        Qu::Let(Box::new(self), Box::new(body))
    }

    pub fn same(self, other: Qu) -> Qu {
        Qu::Same(Box::new(self), Box::new(other))
    }

    pub fn pick(self, label: u16) -> Qu {
        Qu::Pick(Box::new(self), label)
    }

    pub fn each(self, body: Qu) -> Qu {
        Qu::For(Box::new(self), Box::new(body))
    }

    pub fn choose(self, yes: Qu, no: Qu) -> Qu {
        Qu::If(Box::new(self), Box::new(yes), Box::new(no))
    }
}

impl St {
    pub fn then(self, other: St) -> St {
        St::Then(Box::new(self), Box::new(other))
    }

    pub fn choose(condition: Qu, yes: St, no: St) -> St {
        St::If(condition, Box::new(yes), Box::new(no))
    }

    pub fn bind(value: Qu, body: St) -> St {
        St::Let(value, Box::new(body))
    }

    pub fn snapshot(body: St) -> St {
        St::Snapshot(Box::new(body))
    }

    pub fn test(test: Test, body: St) -> St {
        St::Test(test, Box::new(body))
    }

    pub fn children(body: St) -> St {
        St::Children(Box::new(body))
    }

    pub fn left(body: St) -> St {
        St::Left(Box::new(body))
    }

    pub fn right(body: St) -> St {
        St::Right(Box::new(body))
    }

    pub fn iter(body: St) -> St {
        St::Iter(Box::new(body))
    }
}
