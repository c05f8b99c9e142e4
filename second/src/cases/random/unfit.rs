//! Scripts whose forest is one fault away from A, at every depth alike.

use super::{Maker, OUTERMOST};
use crate::answers::Judged;
use crate::dice::Dice;
use crate::forests::{Forest, Tree};
use crate::scripts::{Script, Ty};
use crate::shape::well_shaped;

/// How many labels are set around a random type, at most.
const MOST_LEVELS: usize = 12;
/// How deep labels stand in each other below those, at most.
const BELOW: usize = 6;
/// A label that no random type has.
const FOREIGN: u16 = 1000;

/// A random script that passes refusals 2 to 4, with a forest of A but for one change, so that it is not of A.
pub fn script(dice: &mut Dice, size: usize) -> Script {
    loop {
        let script = Maker::new(dice, size).unfit_script(size);
        if script.as_ref().is_some_and(is_unfit) {
            return script.expect("it was just looked at");
        }
    }
}

fn is_unfit(script: &Script) -> bool {
    let sheet = script.sheet();
    well_shaped(&sheet)
        && Judged::new(&sheet)
            .fit(sheet.a)
            .is_err_and(|it| it.number() == 10)
}

impl Maker<'_> {
    fn unfit_script(mut self, size: usize) -> Option<Script> {
        let levels = self.dice.below(MOST_LEVELS + 1);
        let a = self.tower(levels);
        let fitting = self.trees(&a, levels + BELOW, &mut (4 * size))?;
        let depth = self.dice.below(height(&fitting) + 1);
        let chosen = self.dice.below(contents_at(&fitting, depth));
        let trees = self.changed_at(&fitting, depth, &mut Some(chosen));
        let (main, _) = self.statement(&a, &mut Vec::new(), size);
        Some(self.finished(a, main, trees.into_iter().collect()))
    }

    /// A random type inside so many labels, some with a neighbour.
    fn tower(&mut self, levels: usize) -> Ty {
        (0..levels).fold(self.content(OUTERMOST), |inside, _| {
            let atom = Ty::label(self.label(), inside);
            match self.dice.below(6) {
                0 => Ty::Text.then(atom),
                1 => atom.then(Ty::Bool.star()),
                2 => atom.then(Ty::Text.or(Ty::Bool)),
                3 => atom.star(),
                _ => atom,
            }
        })
    }

    /// The trees with one change in one of the contents so deep; `chosen` counts down to it.
    fn changed_at(
        &mut self,
        trees: &[Tree],
        depth: usize,
        chosen: &mut Option<usize>,
    ) -> Vec<Tree> {
        if depth == 0 {
            let left = *chosen;
            *chosen = left.and_then(|left| left.checked_sub(1));
            return match left {
                Some(0) => self.changed(trees.to_vec()),
                _ => trees.to_vec(),
            };
        }
        let within = |tree: &Tree| match tree {
            Tree::Label(label, content) => {
                let inside = self.changed_at(content.trees(), depth - 1, chosen);
                Tree::Label(*label, inside.into_iter().collect())
            }
            leaf => leaf.clone(),
        };
        trees.iter().map(within).collect()
    }

    /// One tree taken away, doubled, set in, exchanged with its neighbour or given another head.
    fn changed(&mut self, mut trees: Vec<Tree>) -> Vec<Tree> {
        let place = self.dice.below(trees.len() + 1);
        let Some(tree) = trees.get(place).cloned() else {
            trees.push(self.any_tree(Forest::empty()));
            return trees;
        };
        match self.dice.below(5) {
            0 => drop(trees.remove(place)),
            1 => trees.insert(place, tree),
            2 => {
                let new = self.any_tree(Forest::empty());
                trees.insert(place, new);
            }
            3 if place + 1 < trees.len() => trees.swap(place, place + 1),
            _ => {
                let content = match tree {
                    Tree::Label(_, content) => content,
                    Tree::Text { .. } | Tree::Bool(_) => Forest::empty(),
                };
                trees[place] = self.any_tree(content);
            }
        }
        trees
    }

    /// A tree of any head, a labelled one with this content.
    fn any_tree(&mut self, content: Forest) -> Tree {
        match self.dice.below(5) {
            0 => self.text_tree(),
            1 => Tree::Bool(self.dice.once_in(2)),
            2 => Tree::Label(FOREIGN, content),
            _ => Tree::Label(self.label(), content),
        }
    }
}

/// How many contents stand in each other at most, that of the forest itself not counted.
fn height(trees: &[Tree]) -> usize {
    let heights = trees.iter().map(|tree| match tree {
        Tree::Label(_, content) => 1 + height(content.trees()),
        Tree::Text { .. } | Tree::Bool(_) => 0,
    });
    heights.max().unwrap_or(0)
}

/// How many contents are so deep; the forest itself is the one at depth 0.
fn contents_at(trees: &[Tree], depth: usize) -> usize {
    let Some(depth) = depth.checked_sub(1) else {
        return 1;
    };
    let counts = trees.iter().map(|tree| match tree {
        Tree::Label(_, content) => contents_at(content.trees(), depth),
        Tree::Text { .. } | Tree::Bool(_) => 0,
    });
    counts.sum()
}
