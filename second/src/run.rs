//! Document 01, "How a run goes": the rules of document 000, figures 3 and 12, with their units.
//! Each row goes thus: unit, focus, parts in the order written, their values, copies.

use crate::forests::{Forest, Tree};
use crate::purse::Purse;
use crate::refusals::{Asker, Refusal};
use crate::scope::Scope;
use crate::tables::{Query, Sheet, Statement, Test};
use crate::types::Head;

/// How a walk ended, and the units it spent.
pub struct Ran {
    pub units: u16,
    pub result: Result<Forest, Refusal>,
}

/// Runs the main statement on the sheet's forest.
pub fn run(sheet: &Sheet) -> Ran {
    let focus = Forest::of_rows(&sheet.forest, sheet.root);
    Walk::go(sheet, |walk| {
        walk.statement(sheet.main, focus, &Scope::none(), 1)
    })
}

/// Runs a query by itself, with no variables in scope.
pub fn run_query(sheet: &Sheet, row: u16) -> Ran {
    Walk::go(sheet, |walk| walk.query(row, &Scope::none(), 1))
}

struct Walk<'a> {
    sheet: &'a Sheet,
    purse: Purse,
}

impl<'a> Walk<'a> {
    /// A walk with the run fuel of the sheet, from its first row.
    fn go(sheet: &'a Sheet, first: impl FnOnce(&mut Walk<'a>) -> Result<Forest, Refusal>) -> Ran {
        let mut walk = Walk {
            sheet,
            purse: Purse::new(sheet.run_fuel),
        };
        let result = first(&mut walk);
        Ran {
            units: walk.purse.spent(),
            result,
        }
    }

    /// Figure 12.
    fn query(&mut self, row: u16, scope: &Scope<Forest>, depth: u16) -> Result<Forest, Refusal> {
        self.purse.start(depth)?;
        let below = depth + 1;
        match self.sheet.query(row) {
            Query::Empty => Ok(Forest::empty()),
            Query::Join(p, q) => {
                let left = self.query(p, scope, below)?;
                let right = self.query(q, scope, below)?;
                self.joined(&left, &right)
            }
            Query::Tree { label, content } => {
                let content = self.query(content, scope, below)?;
                self.made(Tree::Label(label, content))
            }
            Query::Text { offset, length } => self.made(Tree::Text { offset, length }),
            Query::True => self.made(Tree::Bool(true)),
            Query::False => self.made(Tree::Bool(false)),
            Query::Variable(variable) => Ok(scope.value(variable).clone()),
            Query::Let { value, body } => {
                let value = self.query(value, scope, below)?;
                self.query(body, &scope.with(value), below)
            }
            Query::If { condition, yes, no } => {
                let condition = self.query(condition, scope, below)?;
                let holds = condition.one_bool().ok_or(stuck(Asker::Query(row)))?;
                self.query(if holds { yes } else { no }, scope, below)
            }
            Query::Same(p, q) => {
                let left = self.query(p, scope, below)?;
                let right = self.query(q, scope, below)?;
                let texts = left.one_text().zip(right.one_text());
                let (left, right) = texts.ok_or(stuck(Asker::Query(row)))?;
                self.made(Tree::Bool(self.bytes(left) == self.bytes(right)))
            }
            Query::Children { variable } => {
                // "Children of a text or bool variable is `()`."
                let labelled = scope.value(variable).one_labelled();
                Ok(labelled.map_or(Forest::empty(), |(_, content)| content.clone()))
            }
            Query::Pick { from, label } => {
                let from = self.query(from, scope, below)?;
                self.picked(&from, label)
            }
            Query::For { each, body } => {
                let each = self.query(each, scope, below)?;
                self.each_tree(&each, |walk, tree| {
                    walk.query(body, &scope.with(tree), below)
                })
            }
        }
    }

    /// Figure 3.
    fn statement(
        &mut self,
        row: u16,
        focus: Forest,
        scope: &Scope<Forest>,
        depth: u16,
    ) -> Result<Forest, Refusal> {
        self.purse.start(depth)?;
        let below = depth + 1;
        let stuck = stuck(Asker::Statement(row));
        match self.sheet.statement(row) {
            Statement::Skip => Ok(focus),
            Statement::Then(p, q) => {
                let focus = self.statement(p, focus, scope, below)?;
                self.statement(q, focus, scope, below)
            }
            Statement::If { condition, yes, no } => {
                let condition = self.query(condition, scope, below)?;
                let holds = condition.one_bool().ok_or(stuck)?;
                self.statement(if holds { yes } else { no }, focus, scope, below)
            }
            Statement::Insert { value } => {
                if !focus.trees().is_empty() {
                    return Err(stuck);
                }
                self.query(value, scope, below)
            }
            Statement::Delete => Ok(Forest::empty()),
            Statement::Rename { label } => {
                let (_, content) = focus.one_labelled().ok_or(stuck)?;
                self.made(Tree::Label(label, content.clone()))
            }
            Statement::Let { value, body } => {
                let value = self.query(value, scope, below)?;
                self.statement(body, focus, &scope.with(value), below)
            }
            Statement::Snapshot { body } => {
                let inner = scope.with(focus.clone());
                self.statement(body, focus, &inner, below)
            }
            Statement::Test { test, body } => {
                let tree = focus.one_tree().ok_or(stuck)?;
                if matches(test, Head::of_tree(tree)) {
                    self.statement(body, focus, scope, below)
                } else {
                    // "A test that does not match leaves the focus."
                    Ok(focus)
                }
            }
            Statement::Children { body } => {
                let (label, content) = focus.one_labelled().ok_or(stuck)?;
                let content = self.statement(body, content.clone(), scope, below)?;
                self.made(Tree::Label(label, content))
            }
            // "Left and right run their statement on `()` and set the result before or after the
            // focus": left pays "the trees of the new part", right "the trees of the old focus".
            Statement::Left { body } => {
                let new = self.statement(body, Forest::empty(), scope, below)?;
                self.joined(&new, &focus)
            }
            Statement::Right { body } => {
                let new = self.statement(body, Forest::empty(), scope, below)?;
                self.joined(&focus, &new)
            }
            Statement::Iter { body } => self.each_tree(&focus, |walk, tree| {
                walk.statement(body, tree, scope, below)
            }),
            Statement::Call { callee, arguments } => {
                let mut inner = Scope::none();
                for argument in arguments.into_iter().filter(|&row| row != 0) {
                    inner = inner.with(self.query(argument, scope, below)?);
                }
                let body = self.sheet.procedure(callee).body;
                self.statement(body, focus, &inner, below)
            }
        }
    }

    /// A new tree is one copy.
    fn made(&mut self, tree: Tree) -> Result<Forest, Refusal> {
        self.purse.take()?;
        Ok(tree.into())
    }

    /// "join, the trees of its left value".
    fn joined(&mut self, left: &Forest, right: &Forest) -> Result<Forest, Refusal> {
        self.purse.pay(left.trees().len())?;
        Ok(left.join(right))
    }

    /// "pick, each kept tree".
    fn picked(&mut self, from: &Forest, label: u16) -> Result<Forest, Refusal> {
        let trees = from.trees().iter();
        let kept = trees.filter(|tree| Head::of_tree(tree) == Head::Label(label));
        let kept: Forest = kept.cloned().collect();
        self.purse.pay(kept.trees().len())?;
        Ok(kept)
    }

    /// "for and iter, 1 at each tree before its body and then the trees of that body's result".
    /// The trees are those of the focus as it was.
    fn each_tree(
        &mut self,
        forest: &Forest,
        mut body: impl FnMut(&mut Self, Forest) -> Result<Forest, Refusal>,
    ) -> Result<Forest, Refusal> {
        let mut trees = Vec::new();
        for tree in forest.trees() {
            self.purse.take()?;
            let result = body(self, tree.clone().into())?;
            self.purse.pay(result.trees().len())?;
            trees.extend_from_slice(result.trees());
        }
        Ok(trees.into_iter().collect())
    }

    /// "A text is its bytes."
    fn bytes(&self, (offset, length): (u16, u16)) -> &[u8] {
        &self.sheet.pool[usize::from(offset)..][..usize::from(length)]
    }
}

/// The meaning of a test, by heads.
pub fn matches(test: Test, head: Head) -> bool {
    match test {
        Test::Text => head == Head::Text,
        Test::Label(label) => head == Head::Label(label),
        Test::Any => true,
    }
}

fn stuck(asker: Asker) -> Refusal {
    Refusal::Stuck(asker)
}
