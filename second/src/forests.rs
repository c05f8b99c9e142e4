//! Forests as values (document 000, section 3.1) and as rows (document 01, "Forests").

use crate::tables::{row, Node};
use std::rc::Rc;

/// "t ::= n[v] | w | true | false"; a text is kept by its place in the pool.
#[derive(Clone, Debug, PartialEq, Eq)]
pub enum Tree {
    Text { offset: u16, length: u16 },
    Bool(bool),
    Label(u16, Forest),
}

/// "v ::= () | t, v"; a tree may be shared, and `rows` counts it each time, up to the last u64.
#[derive(Clone, Debug, PartialEq, Eq)]
pub struct Forest {
    trees: Rc<[Tree]>,
    rows: u64,
}

impl Tree {
    fn rows(&self) -> u64 {
        match self {
            Tree::Label(_, content) => content.rows.saturating_add(1),
            Tree::Text { .. } | Tree::Bool(_) => 1,
        }
    }
}

impl FromIterator<Tree> for Forest {
    fn from_iter<I: IntoIterator<Item = Tree>>(trees: I) -> Forest {
        let trees: Rc<[Tree]> = trees.into_iter().collect();
        let rows = trees
            .iter()
            .fold(0, |sum: u64, tree| sum.saturating_add(tree.rows()));
        Forest { trees, rows }
    }
}

impl From<Tree> for Forest {
    fn from(tree: Tree) -> Forest {
        Forest::from_iter([tree])
    }
}

impl Forest {
    pub fn empty() -> Forest {
        Forest::from_iter([])
    }

    /// The trees of the top level.
    pub fn trees(&self) -> &[Tree] {
        &self.trees
    }

    /// How many rows the forest takes, "a shared tree … each time".
    pub fn rows(&self) -> u64 {
        self.rows
    }

    /// The tree, if it is one tree.
    pub fn one_tree(&self) -> Option<&Tree> {
        match &*self.trees {
            [tree] => Some(tree),
            _ => None,
        }
    }

    /// Label and content, if it is one labelled tree.
    pub fn one_labelled(&self) -> Option<(u16, &Forest)> {
        match self.one_tree()? {
            Tree::Label(label, content) => Some((*label, content)),
            Tree::Text { .. } | Tree::Bool(_) => None,
        }
    }

    /// The value, if it is one bool.
    pub fn one_bool(&self) -> Option<bool> {
        match self.one_tree()? {
            Tree::Bool(value) => Some(*value),
            Tree::Text { .. } | Tree::Label(..) => None,
        }
    }

    /// Offset and length, if it is a single text.
    pub fn one_text(&self) -> Option<(u16, u16)> {
        match self.one_tree()? {
            Tree::Text { offset, length } => Some((*offset, *length)),
            Tree::Bool(_) | Tree::Label(..) => None,
        }
    }

    /// This forest, then the other.
    pub fn join(&self, other: &Forest) -> Forest {
        let trees = self.trees.iter().chain(&*other.trees);
        trees.cloned().collect()
    }

    /// The forest whose first tree is at this row; 0 is the empty forest.
    pub fn of_rows(rows: &[[u16; 4]], root: u16) -> Forest {
        let mut trees = Vec::new();
        let mut number = root;
        while let Some((node, next)) = row(rows, number).and_then(Node::of) {
            trees.push(match node {
                Node::Text { offset, length } => Tree::Text { offset, length },
                Node::Bool(value) => Tree::Bool(value),
                Node::Label { label, child } => Tree::Label(label, Forest::of_rows(rows, child)),
            });
            number = next;
        }
        trees.into_iter().collect()
    }

    /// The rows of the forest and its root.
    pub fn to_rows(&self) -> (Vec<[u16; 4]>, u16) {
        let mut rows = Vec::new();
        let root = self.write(&mut rows);
        (rows, root)
    }

    /// "the rest of the forest first, then the first tree's children, then that tree".
    fn write(&self, rows: &mut Vec<[u16; 4]>) -> u16 {
        self.trees.iter().rev().fold(0, |rest, tree| {
            let node = match tree {
                Tree::Text { offset, length } => Node::Text {
                    offset: *offset,
                    length: *length,
                },
                Tree::Bool(value) => Node::Bool(*value),
                Tree::Label(label, content) => Node::Label {
                    label: *label,
                    child: content.write(rows),
                },
            };
            rows.push(node.row(rest));
            crate::tables::last_row(rows)
        })
    }
}

/// One level of a forest that is read from the left: some trees are over, and the next may have been begun.
pub struct Level<'a> {
    trees: &'a [Tree],
    pub over: usize,
}

impl<'a> Level<'a> {
    pub fn begun(forest: &'a Forest) -> Level<'a> {
        Level {
            trees: forest.trees(),
            over: 0,
        }
    }

    /// The trees that are over.
    pub fn over(&self) -> &'a [Tree] {
        &self.trees[..self.over]
    }

    /// The tree after them.
    pub fn next(&self) -> &'a Tree {
        &self.trees[self.over]
    }
}
