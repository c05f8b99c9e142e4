//! Document 01, "Tables": the sheet and what the words of each row mean.
//! The rules that a sheet must keep are not judged here.

/// The whole set of tables that a question is handed.
#[derive(Clone, Debug, PartialEq, Eq, Default)]
pub struct Sheet {
    pub names: Vec<u16>,           // type row of each name, names count from 1
    pub types: Vec<[u16; 3]>,      // kind, p, q
    pub queries: Vec<[u16; 4]>,    // kind, p, q, r
    pub statements: Vec<[u16; 4]>, // kind, p, q, r
    pub procedures: Vec<[u16; 5]>, // parameter, parameter, input, output, body
    pub forest: Vec<[u16; 4]>,     // kind, p, q, next
    pub pool: Vec<u8>,
    pub a: u16,
    pub b: u16,
    pub main: u16,
    pub root: u16,
    pub check_fuel: u16,
    pub run_fuel: u16,
}

/// "Row numbers count from 1; 0 means none": the one place that turns a row number into an index.
pub fn row<T: Copy>(table: &[T], number: u16) -> Option<T> {
    let index = usize::from(number).checked_sub(1)?;
    table.get(index).copied()
}

/// The row number of the last row of a table.
pub fn last_row<T>(table: &[T]) -> u16 {
    u16::try_from(table.len()).expect("a table has at most 65,535 rows")
}

/// "Types (kind, p, q)".
#[derive(Clone, Copy, Debug, PartialEq, Eq, Hash)]
pub enum Type {
    Empty,
    Text,
    Bool,
    Label { label: u16, content: u16 },
    Sequence(u16, u16),
    Choice(u16, u16),
    Star(u16),
    Name(u16),
}

impl Type {
    /// The row as a type; none if its kind is not one of the numbers.
    pub fn of(row: [u16; 3]) -> Option<Type> {
        let [kind, p, q] = row;
        Some(match kind {
            1 => Type::Empty,
            2 => Type::Text,
            3 => Type::Bool,
            4 => Type::Label {
                label: p,
                content: q,
            },
            5 => Type::Sequence(p, q),
            6 => Type::Choice(p, q),
            7 => Type::Star(p),
            8 => Type::Name(p),
            _ => return None,
        })
    }
}

/// "a forest variable or, for *for*, a tree variable".
#[derive(Clone, Copy, Debug, PartialEq, Eq)]
pub enum Variable {
    Forest,
    Tree,
}

/// "Queries (kind, p, q, r)"; numbers are query rows unless their field says otherwise.
#[derive(Clone, Copy, Debug, PartialEq, Eq)]
pub enum Query {
    Empty,
    Join(u16, u16),
    Tree { label: u16, content: u16 },
    Text { offset: u16, length: u16 },
    True,
    False,
    Variable(usize),
    Let { value: u16, body: u16 },
    If { condition: u16, yes: u16, no: u16 },
    Same(u16, u16),
    Children { variable: usize },
    Pick { from: u16, label: u16 },
    For { each: u16, body: u16 },
}

impl Query {
    /// The row as a query; none if its kind is not one of the numbers.
    pub fn of(row: [u16; 4]) -> Option<Query> {
        let [kind, p, q, r] = row;
        Some(match kind {
            1 => Query::Empty,
            2 => Query::Join(p, q),
            3 => Query::Tree {
                label: p,
                content: q,
            },
            4 => Query::Text {
                offset: p,
                length: q,
            },
            5 => Query::True,
            6 => Query::False,
            7 => Query::Variable(usize::from(p)),
            8 => Query::Let { value: p, body: q },
            9 => Query::If {
                condition: p,
                yes: q,
                no: r,
            },
            10 => Query::Same(p, q),
            11 => Query::Children {
                variable: usize::from(p),
            },
            12 => Query::Pick { from: p, label: q },
            13 => Query::For { each: p, body: q },
            _ => return None,
        })
    }
}

/// "test (p: 1 text, 2 label q, 3 any tree)".
#[derive(Clone, Copy, Debug, PartialEq, Eq)]
pub enum Test {
    Text,
    Label(u16),
    Any,
}

/// "Statements"; `value`, `condition`, `first` and `second` are query rows, the rest statement rows.
#[derive(Clone, Copy, Debug, PartialEq, Eq)]
pub enum Statement {
    Skip,
    Then(u16, u16),
    If { condition: u16, yes: u16, no: u16 },
    Insert { value: u16 },
    Delete,
    Rename { label: u16 },
    Let { value: u16, body: u16 },
    Snapshot { body: u16 },
    Test { test: Test, body: u16 },
    Children { body: u16 },
    Left { body: u16 },
    Right { body: u16 },
    Iter { body: u16 },
    Call { callee: u16, arguments: [u16; 2] },
}

impl Statement {
    /// The row as a statement; none if its kind, or its test, is not one of the numbers.
    pub fn of(row: [u16; 4]) -> Option<Statement> {
        let [kind, p, q, r] = row;
        Some(match kind {
            1 => Statement::Skip,
            2 => Statement::Then(p, q),
            3 => Statement::If {
                condition: p,
                yes: q,
                no: r,
            },
            4 => Statement::Insert { value: p },
            5 => Statement::Delete,
            6 => Statement::Rename { label: p },
            7 => Statement::Let { value: p, body: q },
            8 => Statement::Snapshot { body: p },
            9 => Statement::Test {
                test: match p {
                    1 => Test::Text,
                    2 => Test::Label(q),
                    3 => Test::Any,
                    _ => return None,
                },
                body: r,
            },
            10 => Statement::Children { body: p },
            11 => Statement::Left { body: p },
            12 => Statement::Right { body: p },
            13 => Statement::Iter { body: p },
            14 => Statement::Call {
                callee: p,
                arguments: [q, r],
            },
            _ => return None,
        })
    }
}

/// "Procedures (parameter type, parameter type, input type, output type, body)".
#[derive(Clone, Copy, Debug, PartialEq, Eq)]
pub struct Procedure {
    pub parameters: [u16; 2],
    pub input: u16,
    pub output: u16,
    pub body: u16,
}

impl Procedure {
    pub fn of(row: [u16; 5]) -> Procedure {
        let [first, second, input, output, body] = row;
        Procedure {
            parameters: [first, second],
            input,
            output,
            body,
        }
    }

    /// The types of the parameters that are there.
    pub fn parameter_types(&self) -> impl Iterator<Item = u16> {
        self.parameters.into_iter().filter(|&row| row != 0)
    }
}

/// "Forests (kind, p, q, next)".
#[derive(Clone, Copy, Debug, PartialEq, Eq)]
pub enum Node {
    Text { offset: u16, length: u16 },
    Bool(bool),
    Label { label: u16, child: u16 },
}

impl Node {
    /// The row's tree and its next row; none if its kind is not one of the numbers.
    pub fn of(row: [u16; 4]) -> Option<(Node, u16)> {
        let [kind, p, q, next] = row;
        let node = match kind {
            1 => Node::Text {
                offset: p,
                length: q,
            },
            2 => Node::Bool(false),
            3 => Node::Bool(true),
            4 => Node::Label { label: p, child: q },
            _ => return None,
        };
        Some((node, next))
    }

    /// The row of this tree with the given next row.
    pub fn row(self, next: u16) -> [u16; 4] {
        match self {
            Node::Text { offset, length } => [1, offset, length, next],
            Node::Bool(false) => [2, 0, 0, next],
            Node::Bool(true) => [3, 0, 0, next],
            Node::Label { label, child } => [4, label, child, next],
        }
    }
}

/// Rows of a sheet that has passed Shape.
impl Sheet {
    pub fn query(&self, number: u16) -> Query {
        let found = row(&self.queries, number).and_then(Query::of);
        found.expect("a query row that passed Shape")
    }

    pub fn statement(&self, number: u16) -> Statement {
        let found = row(&self.statements, number).and_then(Statement::of);
        found.expect("a statement row that passed Shape")
    }

    pub fn procedure(&self, number: u16) -> Procedure {
        let found = row(&self.procedures, number).map(Procedure::of);
        found.expect("a procedure that passed Shape")
    }
}
