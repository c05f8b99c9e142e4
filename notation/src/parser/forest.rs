//! The forest. Nothing here calls itself: a forest may nest 2,048 deep, and round brackets deeper.

use super::tokens::is_reserved;
use super::{Parsed, Parser};
use crate::drafts::{Origin, Text};
use crate::lexer::Token;
use crate::words::Word;

/// A tree of the forest, its child and next still counted in the order written.
struct Tree {
    origin: Origin,
    end: usize,
    row: [u16; 4],
    text: Option<Text>,
}

/// The trees between two brackets of a label: whose children they are, and the last one so far.
#[derive(Default)]
struct Level {
    parent: Option<usize>,
    last: Option<usize>,
}

impl Parser<'_> {
    pub(super) fn forest(&mut self) -> Parsed<()> {
        let trees = self.trees()?;
        let count = trees.len() as u16;
        let natural = |written: u16| if written == 0 { 0 } else { count + 1 - written };
        let mut rows = Vec::new();
        for (written, tree) in (1..).zip(trees) {
            let [kind, p, q, next] = tree.row;
            rows.push((tree.origin, tree.end, [kind, p, natural(q), natural(next)]));
            if let Some(text) = tree.text {
                let row = natural(written);
                self.drafts.texts.push((Word::Forest, row, text));
            }
        }
        for (origin, end, row) in rows.into_iter().rev() {
            let added = self.drafts.forest.add(origin, end, row);
            self.added(added)?;
        }
        self.drafts.sheet.root = count;
        Ok(())
    }

    /// The trees in the order written.
    fn trees(&mut self) -> Parsed<Vec<Tree>> {
        let mut trees: Vec<Tree> = Vec::new();
        let mut levels = vec![Level::default()];
        let mut closers = Vec::new();
        loop {
            let closer = if self.stands("(") {
                self.advance();
                ")"
            } else if self.tree_into(&mut trees, &mut levels)? {
                "]"
            } else {
                ""
            };
            if !closer.is_empty() {
                closers.push(closer);
                if !self.stands(closer) {
                    self.tried.push(closer);
                    continue;
                }
            }
            while !self.accept(",") {
                let Some(closer) = closers.pop() else {
                    return Ok(trees);
                };
                self.expect(closer)?;
                if closer == "]" {
                    self.close_level(&mut trees, &mut levels);
                }
            }
        }
    }

    /// Reads a tree, after the last one of its level; of a labelled one, which opens a level, all up to its
    /// opening bracket. Says whether it is labelled.
    fn tree_into(&mut self, trees: &mut Vec<Tree>, levels: &mut Vec<Level>) -> Parsed<bool> {
        let index = trees.len();
        let room = self.drafts.forest.check_room(index, self.place());
        self.added(room)?;
        let tree = self.tree()?;
        let labelled = tree.row[0] == 4;
        trees.push(tree);
        let level = levels.last_mut().expect("the level of the roots stays");
        match (level.last, level.parent) {
            (Some(last), _) => trees[last].row[3] = index as u16 + 1,
            (None, Some(parent)) => trees[parent].row[2] = index as u16 + 1,
            (None, None) => {}
        }
        level.last = Some(index);
        if labelled {
            let (parent, last) = (Some(index), None);
            levels.push(Level { parent, last });
        }
        Ok(labelled)
    }

    /// Ends the tree whose children are the last level, with the bracket just taken.
    fn close_level(&mut self, trees: &mut [Tree], levels: &mut Vec<Level>) {
        if let Some(parent) = levels.pop().and_then(|level| level.parent) {
            trees[parent].end = self.end();
        }
    }

    /// A tree; of a labelled one all up to its opening bracket.
    fn tree(&mut self) -> Parsed<Tree> {
        if matches!(self.token(), Token::Text(_)) {
            let (origin, text) = self.text()?;
            let (row, text) = ([1, 0, 0, 0], Some(text));
            let end = self.end();
            return Ok(Tree {
                origin,
                end,
                row,
                text,
            });
        }
        let at = self.at;
        let (word, origin) = self.opening("a tree")?;
        let row = match word {
            "false" => [2, 0, 0, 0],
            "true" => [3, 0, 0, 0],
            _ if is_reserved(word) && !self.stands("[") => {
                return Err(self.expected_at(at, "a tree"));
            }
            _ => {
                self.expect("[")?;
                if is_reserved(word) {
                    self.tell_reserved(word, origin.sign, "a label");
                }
                [4, self.label_number(word, origin.sign), 0, 0]
            }
        };
        let (end, text) = (self.end(), None);
        Ok(Tree {
            origin,
            end,
            row,
            text,
        })
    }
}
