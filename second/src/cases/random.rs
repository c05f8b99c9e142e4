//! Random scripts: types that mostly pass refusals 3 and 4, statements that mostly suit the type of
//! their focus, and forests that fit or nearly do.

mod edits;
pub mod unfit;

use crate::answers::Judged;
use crate::check::output_type;
use crate::dice::Dice;
use crate::forests::{Forest, Tree};
use crate::scripts::{Declaration, Script, St, Ty};
use crate::shape::well_shaped;
use crate::types::Head;
use edits::Variable;

/// How deep labels with contents stand in each other in an outermost type.
const OUTERMOST: usize = 2;

struct Maker<'a> {
    dice: &'a mut Dice,
    labels: Vec<u16>,
    names: Vec<Ty>,
    /// The type of all forests of these labels, if there are names for it.
    universal: Option<Ty>,
    procedures: Vec<Declaration>,
    pool: Vec<u8>,
}

/// A random script that passes Shape; `size` is about how many statements it has.
pub fn script(dice: &mut Dice, size: usize) -> Script {
    (1..=size)
        .rev()
        .map(|size| Maker::new(dice, size).script(size))
        .find(|script| well_shaped(&script.sheet()))
        .expect("the smallest random scripts pass Shape")
}

impl<'a> Maker<'a> {
    fn new(dice: &'a mut Dice, size: usize) -> Maker<'a> {
        let pools: [&[u8]; 3] = [b"", b"abab", b"add r1, r2"];
        let pool = dice.one_of(&pools).to_vec();
        let sets: [&[u16]; 4] = [&[1], &[1, 2], &[1, 2, 3, 4], &[0, 7, 1023]];
        let labels = dice.one_of(&sets).to_vec();
        let mut maker = Maker {
            dice,
            labels,
            names: Vec::new(),
            universal: None,
            procedures: Vec::new(),
            pool,
        };
        maker.add_names(size);
        if maker.dice.once_in(2) {
            maker.add_universal();
        }
        maker
    }

    fn script(mut self, size: usize) -> Script {
        for _ in 0..self.dice.below(3) {
            self.add_procedure(size.min(6));
        }
        let a = self.input();
        let (main, _) = self.statement(&a, &mut Vec::new(), size);
        let forest = self.forest(&a, size);
        self.finished(a, main, forest)
    }

    /// The script of these, with all that was declared, and an output type for it.
    fn finished(mut self, a: Ty, main: St, forest: Forest) -> Script {
        let mut script = Script {
            names: self.names.clone(),
            procedures: self.procedures.clone(),
            forest,
            pool: self.pool.clone(),
            ..Script::new(a, main, Ty::Empty)
        };
        script.b = self.output(&script);
        script
    }

    fn label(&mut self) -> u16 {
        *self.dice.one_of(&self.labels)
    }

    fn add_names(&mut self, size: usize) {
        let count = self.dice.below(2 + size.min(6));
        let labels: Vec<u16> = (0..count).map(|_| self.label()).collect();
        // All names are known, with their labels, before any content is made.
        self.names = labels.iter().map(|&l| Ty::label(l, Ty::Empty)).collect();
        for (name, label) in labels.into_iter().enumerate() {
            let content = self.content(OUTERMOST - 1);
            let content = if self.dice.once_in(10) {
                content
            } else {
                guarded(content)
            };
            self.names[name] = Ty::label(label, content);
        }
    }

    fn add_universal(&mut self) {
        let first = self.names.len() as u16 + 1;
        let names = first..first + self.labels.len() as u16;
        let atoms = names.map(Ty::Name).fold(Ty::Text, Ty::or);
        let any = atoms.or(Ty::Bool).star();
        for label in self.labels.clone() {
            self.names.push(Ty::label(label, any.clone()));
        }
        self.universal = Some(any);
    }

    /// A type in which, mostly, no two atoms outside contents have one head.
    fn content(&mut self, depth: usize) -> Ty {
        let labels = self.labels.iter().map(|&label| Head::Label(label));
        let mut heads: Vec<Head> = labels.chain([Head::Text, Head::Bool]).collect();
        let fewest = usize::from(depth == OUTERMOST);
        let count = fewest + self.dice.below(heads.len().min(5) - fewest);
        let mut atoms = Vec::new();
        for _ in 0..count {
            let index = self.dice.below(heads.len());
            let head = if self.dice.once_in(60) {
                heads[index]
            } else {
                heads.swap_remove(index)
            };
            atoms.push(self.atom(head, depth));
        }
        self.model(&atoms)
    }

    fn atom(&mut self, head: Head, depth: usize) -> Ty {
        let label = match head {
            Head::Text => return Ty::Text,
            Head::Bool => return Ty::Bool,
            Head::Label(label) => label,
        };
        let named: Vec<u16> = (1..)
            .zip(&self.names)
            .filter(|(_, ty)| label_of(&self.names, ty).is_some_and(|(own, _)| own == label))
            .map(|(name, _)| name)
            .collect();
        if !named.is_empty() && self.dice.once_in(2) {
            return Ty::Name(*self.dice.one_of(&named));
        }
        let content = match depth {
            0 => Ty::Empty,
            _ => self.content(depth - 1),
        };
        Ty::label(label, content)
    }

    /// A content model of these atoms.
    fn model(&mut self, atoms: &[Ty]) -> Ty {
        let ty = match atoms {
            [] => Ty::Empty,
            [atom] => atom.clone(),
            _ => {
                let (left, right) = atoms.split_at(1 + self.dice.below(atoms.len() - 1));
                let (left, right) = (self.model(left), self.model(right));
                if self.dice.once_in(3) {
                    left.or(right)
                } else {
                    left.then(right)
                }
            }
        };
        match self.dice.below(8) {
            0..=2 => ty.star(),
            3 => ty.or(Ty::Empty),
            _ => ty,
        }
    }

    /// A type to start from.
    fn input(&mut self) -> Ty {
        match (&self.universal, self.dice.below(6)) {
            (Some(universal), 0) => universal.clone(),
            (_, 1) => Ty::Empty,
            _ => self.content(OUTERMOST),
        }
    }

    /// A declared output for a script whose B is still `()`: often what the check finds.
    fn output(&mut self, script: &Script) -> Ty {
        let found = output_type(&script.sheet()).ok();
        let found = found.filter(|(types, row)| types.written_out(*row) < 200);
        let found = found.map(|(types, row)| Ty::of(&types, row));
        let found = found.map(|found| match self.dice.below(3) {
            0 => found,
            _ => self.reshaped(&found),
        });
        match (found, self.dice.below(8), &self.universal) {
            (Some(found), 0..=4, _) if self.is_sound(&found) => found,
            (_, 0..=6, Some(universal)) => universal.clone(),
            (_, 7, _) => script.a.clone(),
            _ => self.content(OUTERMOST),
        }
    }

    /// A type written otherwise: mostly of the same forests or of more, now and then of fewer.
    fn reshaped(&mut self, ty: &Ty) -> Ty {
        let same = match ty {
            Ty::Sequence(p, q) if **p == Ty::Empty => self.reshaped(q),
            Ty::Sequence(p, q) if **q == Ty::Empty => self.reshaped(p),
            Ty::Sequence(p, q) => self.reshaped(p).then(self.reshaped(q)),
            Ty::Choice(p, q) if p == q => self.reshaped(p),
            Ty::Choice(p, q) => self.reshaped(q).or(self.reshaped(p)),
            Ty::Star(p) if **p == Ty::Empty => Ty::Empty,
            Ty::Star(p) => self.reshaped(p).star(),
            Ty::Label(label, content) => Ty::label(*label, self.reshaped(content)),
            Ty::Name(name) if self.dice.once_in(2) => self.names[usize::from(*name) - 1].clone(),
            Ty::Empty | Ty::Text | Ty::Bool | Ty::Name(_) => ty.clone(),
        };
        match (same, self.dice.below(24)) {
            (same, 0) => same.or(Ty::Empty),
            (same, 1) => same.star(),
            (Ty::Star(p), 2) => *p,
            (Ty::Choice(p, _), 2) => *p,
            (same, _) => same,
        }
    }

    /// True if the type is neither tied nor barren beside the names.
    fn is_sound(&self, ty: &Ty) -> bool {
        let script = Script {
            names: self.names.clone(),
            ..Script::new(ty.clone(), St::Skip, Ty::Empty)
        };
        let sheet = script.sheet();
        let fit = Judged::new(&sheet).fit(sheet.a);
        !fit.is_err_and(|refusal| (3..=4).contains(&refusal.number()))
    }

    fn add_procedure(&mut self, size: usize) {
        let parameters: Vec<Ty> = (0..self.dice.below(3)).map(|_| self.parameter()).collect();
        let input = self.input();
        let mut scope: Vec<Variable> = parameters
            .iter()
            .map(|ty| Variable {
                ty: ty.clone(),
                is_tree: false,
            })
            .collect();
        let guess = self.universal.clone().unwrap_or(Ty::Empty);
        self.procedures.push(Declaration {
            parameters,
            input: input.clone(),
            output: guess.clone(),
            body: St::Skip,
        });
        let (body, output) = self.statement(&input, &mut scope, size);
        let output = match self.universal {
            None if self.is_sound(&output) => output,
            _ => guess,
        };
        let declaration = self.procedures.last_mut().expect("it was just added");
        declaration.body = body;
        declaration.output = output;
    }

    fn parameter(&mut self) -> Ty {
        match self.dice.below(3) {
            0 => Ty::Text,
            1 => Ty::Bool,
            _ => self.input(),
        }
    }

    /// A forest of the type, or one that nearly is.
    fn forest(&mut self, ty: &Ty, size: usize) -> Forest {
        let mut rows = 12 * size;
        let mut trees = self.trees(ty, 6, &mut rows).unwrap_or_default();
        if self.dice.once_in(4) {
            self.disturb(&mut trees);
        }
        trees.into_iter().collect()
    }

    /// Trees of the type, while rows last; none if labels stand too deep in each other.
    fn trees(&mut self, ty: &Ty, depth: usize, rows: &mut usize) -> Option<Vec<Tree>> {
        match ty {
            Ty::Empty => Some(Vec::new()),
            Ty::Text => Some(vec![self.text_tree()]),
            Ty::Bool => Some(vec![Tree::Bool(self.dice.once_in(2))]),
            Ty::Label(label, content) => {
                *rows = rows.saturating_sub(1);
                let content = self.trees(content, depth.checked_sub(1)?, rows)?;
                Some(vec![Tree::Label(*label, content.into_iter().collect())])
            }
            Ty::Sequence(p, q) => {
                let first = self.trees(p, depth, rows)?;
                Some([first, self.trees(q, depth, rows)?].concat())
            }
            Ty::Choice(p, q) => {
                let (one, other) = if self.dice.once_in(2) { (p, q) } else { (q, p) };
                let trees = self.trees(one, depth, rows);
                trees.or_else(|| self.trees(other, depth, rows))
            }
            Ty::Star(p) => {
                let mut all = Vec::new();
                while *rows > 0 && !self.dice.once_in(5) {
                    *rows -= 1;
                    all.extend(self.trees(p, depth, rows).unwrap_or_default());
                }
                Some(all)
            }
            Ty::Name(name) => {
                let label_row = self.names[usize::from(*name) - 1].clone();
                self.trees(&label_row, depth, rows)
            }
        }
    }

    fn text_tree(&mut self) -> Tree {
        let (offset, length) = self.text();
        Tree::Text { offset, length }
    }

    fn text(&mut self) -> (u16, u16) {
        let offset = self.dice.below(self.pool.len() + 1);
        let length = self.dice.below(self.pool.len() - offset + 1);
        (offset as u16, length as u16)
    }

    /// One small change somewhere in the top levels.
    fn disturb(&mut self, trees: &mut Vec<Tree>) {
        let place = self.dice.below(trees.len() + 1);
        match (trees.get(place).cloned(), self.dice.below(4)) {
            (Some(Tree::Label(label, content)), 0 | 1) => {
                let mut inside = content.trees().to_vec();
                self.disturb(&mut inside);
                trees[place] = Tree::Label(label, inside.into_iter().collect());
            }
            (Some(_), 2) => {
                trees.remove(place);
            }
            (Some(tree), 3) => trees.insert(place, tree),
            _ => {
                let label = self.label();
                trees.insert(place, Tree::Label(label, Forest::empty()));
            }
        }
    }
}

/// The content with every name that may be left out, so that a recursion can end.
fn guarded(content: Ty) -> Ty {
    match content {
        Ty::Name(_) => content.star(),
        Ty::Label(label, content) => Ty::label(label, guarded(*content)),
        Ty::Sequence(p, q) => guarded(*p).then(guarded(*q)),
        Ty::Choice(p, q) => guarded(*p).or(guarded(*q)),
        Ty::Star(p) => guarded(*p).star(),
        Ty::Empty | Ty::Text | Ty::Bool => content,
    }
}

/// Label and content of a labelled atom.
fn label_of<'t>(names: &'t [Ty], ty: &'t Ty) -> Option<(u16, &'t Ty)> {
    match ty {
        Ty::Label(label, content) => Some((*label, content)),
        Ty::Name(name) => label_of(names, names.get(usize::from(*name) - 1)?),
        _ => None,
    }
}
