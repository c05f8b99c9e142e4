//! Random statements and queries, most of which suit the type of their focus.

use super::{label_of, Maker};
use crate::scripts::{Declaration, Qu, St, Ty};
use crate::shape::SCOPE;
use crate::tables::Test;
use crate::types::Head;

/// A variable as its user sees it.
#[derive(Clone)]
pub struct Variable {
    pub ty: Ty,
    pub is_tree: bool,
}

type Scope = Vec<Variable>;

/// What a query is wanted for.
#[derive(Clone, Copy, PartialEq)]
enum Want {
    Any,
    Bool,
    Text,
}

impl Maker<'_> {
    /// A statement for a focus of this type, and about the type it yields.
    pub fn statement(&mut self, focus: &Ty, scope: &mut Scope, size: usize) -> (St, Ty) {
        let (statement, ty) = match size {
            0 | 1 => self.short(focus, scope),
            _ => self.long(focus, scope, size),
        };
        (statement, trimmed(ty))
    }

    fn long(&mut self, focus: &Ty, scope: &mut Scope, size: usize) -> (St, Ty) {
        let size = size - 1;
        if self.dice.once_in(40) {
            return self.loose(focus, scope, size);
        }
        match self.dice.below(12) {
            0 | 1 => {
                let first = 1 + self.dice.below(size);
                let (p, between) = self.statement(focus, scope, first);
                let (q, after) = self.statement(&between, scope, size + 1 - first);
                (p.then(q), after)
            }
            2 => {
                let condition = self.query(Want::Bool, scope, size / 2).0;
                let (yes, first) = self.statement(focus, scope, size / 2);
                let (no, second) = self.statement(focus, scope, size / 2);
                (St::choose(condition, yes, no), first.or(second))
            }
            3 => self.binder(focus, scope, size),
            4 => self.beside(focus, scope, size),
            5 => self.call(focus, scope, size),
            _ => self.inward(focus, scope, size),
        }
    }

    fn short(&mut self, focus: &Ty, scope: &mut Scope) -> (St, Ty) {
        match (focus, self.dice.below(4)) {
            (Ty::Empty, 0..=2) => {
                let (query, ty) = self.query(Want::Any, scope, 3);
                (St::Insert(query), ty)
            }
            (Ty::Label(..) | Ty::Name(_), 1) => self.rename(focus),
            (_, 2) => (St::Delete, Ty::Empty),
            _ => (St::Skip, focus.clone()),
        }
    }

    /// A statement that does not look at its focus's type.
    fn loose(&mut self, focus: &Ty, scope: &mut Scope, size: usize) -> (St, Ty) {
        let label = self.label();
        match self.dice.below(5) {
            0 => (St::Insert(self.query(Want::Any, scope, 2).0), Ty::Text),
            1 => (St::Rename(label), Ty::label(label, Ty::Empty)),
            2 => {
                let (body, ty) = self.statement(&Ty::Empty, scope, size);
                (St::children(body), Ty::label(label, ty))
            }
            3 => {
                let (body, ty) = self.statement(focus, scope, size);
                (St::test(Test::Any, body), ty)
            }
            _ => {
                let condition = self.query(Want::Any, scope, 2).0;
                (St::choose(condition, St::Skip, St::Skip), focus.clone())
            }
        }
    }

    fn rename(&mut self, focus: &Ty) -> (St, Ty) {
        let label = self.label();
        let content =
            label_of(&self.names, focus).map_or(Ty::Empty, |(_, content)| content.clone());
        (St::Rename(label), Ty::label(label, content))
    }

    fn binder(&mut self, focus: &Ty, scope: &mut Scope, size: usize) -> (St, Ty) {
        if scope.len() >= SCOPE {
            return (St::Skip, focus.clone());
        }
        if self.dice.once_in(2) {
            let (value, ty) = self.query(Want::Any, scope, size / 2);
            let (body, ty) = self.within(ty, false, scope, |maker, scope| {
                maker.statement(focus, scope, size)
            });
            (St::bind(value, body), ty)
        } else {
            let (body, ty) = self.within(focus.clone(), false, scope, |maker, scope| {
                maker.statement(focus, scope, size)
            });
            (St::snapshot(body), ty)
        }
    }

    /// Makes something with one variable more.
    fn within<T>(
        &mut self,
        ty: Ty,
        is_tree: bool,
        scope: &mut Scope,
        make: impl FnOnce(&mut Self, &mut Scope) -> T,
    ) -> T {
        scope.push(Variable { ty, is_tree });
        let made = make(self, scope);
        scope.pop();
        made
    }

    fn beside(&mut self, focus: &Ty, scope: &mut Scope, size: usize) -> (St, Ty) {
        let (body, ty) = self.statement(&Ty::Empty, scope, size.min(3));
        if self.dice.once_in(2) {
            (St::left(body), ty.then(focus.clone()))
        } else {
            (St::right(body), focus.clone().then(ty))
        }
    }

    fn call(&mut self, focus: &Ty, scope: &mut Scope, size: usize) -> (St, Ty) {
        let suits =
            |it: &Declaration| it.input == *focus || Some(&it.input) == self.universal.as_ref();
        let suitable: Vec<usize> = (0..self.procedures.len())
            .filter(|&index| suits(&self.procedures[index]))
            .collect();
        let index = if !suitable.is_empty() {
            *self.dice.one_of(&suitable)
        } else if !self.procedures.is_empty() && self.dice.once_in(6) {
            self.dice.below(self.procedures.len())
        } else {
            return self.inward(focus, scope, size);
        };
        let procedure = self.procedures[index].clone();
        let arguments = procedure.parameters.iter();
        let arguments = arguments.map(|ty| self.argument(ty, scope)).collect();
        (St::Call(index as u16 + 1, arguments), procedure.output)
    }

    fn argument(&mut self, wanted: &Ty, scope: &mut Scope) -> Qu {
        let known = (0..scope.len()).find(|&index| scope[index].ty == *wanted);
        match (wanted, known) {
            (_, Some(index)) if self.dice.once_in(2) => Qu::Variable(index as u16),
            (Ty::Text, _) => self.query(Want::Text, scope, 2).0,
            (Ty::Bool, _) => self.query(Want::Bool, scope, 2).0,
            _ => self.query(Want::Any, scope, 3).0,
        }
    }

    /// A statement that goes into the focus, as its type allows.
    fn inward(&mut self, focus: &Ty, scope: &mut Scope, size: usize) -> (St, Ty) {
        match (focus, label_of(&self.names, focus)) {
            (_, Some((label, content))) => {
                let content = content.clone();
                if self.dice.once_in(5) {
                    return self.rename(focus);
                }
                let (body, ty) = self.statement(&content, scope, size);
                (St::children(body), Ty::label(label, ty))
            }
            (Ty::Text | Ty::Bool, _) => {
                let (body, ty) = self.statement(focus, scope, size);
                let test = *self.dice.one_of(&[Test::Text, Test::Any]);
                (St::test(test, body), ty)
            }
            (Ty::Empty, _) => self.short(focus, scope),
            _ => self.iter(focus, scope, size),
        }
    }

    fn iter(&mut self, focus: &Ty, scope: &mut Scope, size: usize) -> (St, Ty) {
        let mut atoms = Vec::new();
        collect_atoms(focus, &mut atoms);
        if atoms.is_empty() {
            return (St::iter(St::Skip), focus.clone());
        }
        let atom = self.dice.one_of(&atoms).clone();
        let test = match label_of(&self.names, &atom) {
            Some((label, _)) => Test::Label(label),
            None if atom == Ty::Text => Test::Text,
            None => Test::Any,
        };
        let any = self.dice.once_in(6);
        let (body, ty) = self.statement(&atom, scope, size);
        let body = if any { body } else { St::test(test, body) };
        let like = |it: &Ty| any || head_of(&self.names, it) == head_of(&self.names, &atom);
        let after = replaced(focus, &|it| if like(it) { ty.clone() } else { it.clone() });
        (St::iter(body), after)
    }

    /// A query, and about its type.
    fn query(&mut self, want: Want, scope: &mut Scope, size: usize) -> (Qu, Ty) {
        let (query, ty) = match want {
            Want::Bool => self.bool_query(scope, size),
            Want::Text => self.text_query(scope),
            Want::Any if size <= 1 => self.short_query(scope),
            Want::Any => self.any_query(scope, size - 1),
        };
        (query, trimmed(ty))
    }

    fn bool_query(&mut self, scope: &mut Scope, size: usize) -> (Qu, Ty) {
        let query = match self.dice.below(if size > 2 { 6 } else { 3 }) {
            0 | 1 => Qu::Bool(self.dice.once_in(2)),
            2 => return self.known(&Ty::Bool, scope),
            3 => {
                let condition = self.bool_query(scope, size / 2).0;
                let yes = self.bool_query(scope, size / 2).0;
                return (
                    condition.choose(yes, Qu::Bool(false)),
                    Ty::Bool.or(Ty::Bool),
                );
            }
            _ => self.text_query(scope).0.same(self.text_query(scope).0),
        };
        (query, Ty::Bool)
    }

    fn text_query(&mut self, scope: &mut Scope) -> (Qu, Ty) {
        match self.dice.below(3) {
            0 => self.known(&Ty::Text, scope),
            _ => self.text_literal(),
        }
    }

    fn text_literal(&mut self) -> (Qu, Ty) {
        let (offset, length) = self.text();
        (Qu::Text { offset, length }, Ty::Text)
    }

    /// A variable of this type, if there is one.
    fn known(&mut self, ty: &Ty, scope: &Scope) -> (Qu, Ty) {
        let of_type = |variable: &Variable| variable.ty == *ty;
        match scope.iter().rposition(of_type) {
            Some(index) => (Qu::Variable(index as u16), ty.clone()),
            None if *ty == Ty::Bool => (Qu::Bool(true), Ty::Bool),
            None => self.text_literal(),
        }
    }

    fn short_query(&mut self, scope: &mut Scope) -> (Qu, Ty) {
        if !scope.is_empty() && self.dice.once_in(2) {
            let index = self.dice.below(scope.len());
            let variable = scope[index].clone();
            return if variable.is_tree && self.dice.once_in(2) {
                (
                    Qu::Children(index as u16),
                    inside(&self.names, &variable.ty),
                )
            } else {
                (Qu::Variable(index as u16), variable.ty)
            };
        }
        match self.dice.below(4) {
            0 => (Qu::Empty, Ty::Empty),
            1 => self.text_literal(),
            2 => (Qu::Bool(self.dice.once_in(2)), Ty::Bool),
            _ => {
                let label = self.label();
                (Qu::tree(label, Qu::Empty), Ty::label(label, Ty::Empty))
            }
        }
    }

    /// A query whose parts may not be what it needs.
    fn loose_query(&mut self, scope: &mut Scope, size: usize) -> (Qu, Ty) {
        let part = self.query(Want::Any, scope, size / 2).0;
        if self.dice.once_in(2) {
            let (yes, ty) = self.query(Want::Any, scope, size / 2);
            (part.choose(yes, Qu::Empty), ty.or(Ty::Empty))
        } else {
            (
                part.same(self.query(Want::Any, scope, size / 2).0),
                Ty::Bool,
            )
        }
    }

    fn any_query(&mut self, scope: &mut Scope, size: usize) -> (Qu, Ty) {
        if self.dice.once_in(40) {
            return self.loose_query(scope, size);
        }
        match self.dice.below(8) {
            0 => {
                let (p, first) = self.query(Want::Any, scope, size / 2);
                let (q, second) = self.query(Want::Any, scope, size / 2);
                (p.join(q), first.then(second))
            }
            1 | 2 => {
                let label = self.label();
                let (content, ty) = self.query(Want::Any, scope, size);
                (Qu::tree(label, content), Ty::label(label, ty))
            }
            3 if scope.len() < SCOPE => {
                let (value, ty) = self.query(Want::Any, scope, size / 2);
                let (body, ty) = self.within(ty, false, scope, |maker, scope| {
                    maker.query(Want::Any, scope, size / 2)
                });
                (value.bind(body), ty)
            }
            4 => {
                let condition = self.bool_query(scope, size / 2).0;
                let (yes, first) = self.query(Want::Any, scope, size / 2);
                let (no, second) = self.query(Want::Any, scope, size / 2);
                (condition.choose(yes, no), first.or(second))
            }
            5 => {
                let label = self.label();
                let (from, ty) = self.query(Want::Any, scope, size);
                let names = &self.names;
                let keep = |it: &Ty| match head_of(names, it) {
                    Some(Head::Label(own)) if own == label => it.clone(),
                    _ => Ty::Empty,
                };
                (from.pick(label), replaced(&ty, &keep))
            }
            6 | 7 if scope.len() < SCOPE => self.for_query(scope, size),
            _ => self.short_query(scope),
        }
    }

    fn for_query(&mut self, scope: &mut Scope, size: usize) -> (Qu, Ty) {
        if self.dice.once_in(4) {
            return self.for_children(scope, size);
        }
        let (each, ty) = self.query(Want::Any, scope, size / 2);
        let mut atoms = Vec::new();
        collect_atoms(&ty, &mut atoms);
        let atom = atoms.first().cloned().unwrap_or(Ty::Text);
        let (body, body_ty) = self.within(atom, true, scope, |maker, scope| {
            maker.query(Want::Any, scope, size / 2)
        });
        (each.each(body), replaced(&ty, &|_| body_ty.clone()))
    }

    /// The children of each tree, of a variable of mixed content if there is one.
    fn for_children(&mut self, scope: &mut Scope, size: usize) -> (Qu, Ty) {
        let mixed = |it: &Variable| is_mixed(&self.names, &it.ty);
        let (each, ty) = match scope.iter().rposition(mixed) {
            Some(index) => (Qu::Variable(index as u16), scope[index].ty.clone()),
            None => self.query(Want::Any, scope, size / 2),
        };
        let children = Qu::Children(scope.len() as u16);
        let names = &self.names;
        (
            each.each(children),
            replaced(&ty, &|atom| inside(names, atom)),
        )
    }
}

/// The type of an atom's children: a label's content, nothing in a text or bool.
fn inside(names: &[Ty], atom: &Ty) -> Ty {
    label_of(names, atom).map_or(Ty::Empty, |(_, content)| content.clone())
}

/// True if labels stand beside texts or bools.
fn is_mixed(names: &[Ty], ty: &Ty) -> bool {
    let mut atoms = Vec::new();
    collect_atoms(ty, &mut atoms);
    let labelled = |atom: &Ty| label_of(names, atom).is_some();
    atoms.iter().any(labelled) && !atoms.iter().all(labelled)
}

/// The type, or another if it has grown too long to be carried along.
fn trimmed(ty: Ty) -> Ty {
    fn rows(ty: &Ty) -> usize {
        1 + match ty {
            Ty::Label(_, p) | Ty::Star(p) => rows(p),
            Ty::Sequence(p, q) | Ty::Choice(p, q) => rows(p) + rows(q),
            Ty::Empty | Ty::Text | Ty::Bool | Ty::Name(_) => 0,
        }
    }
    if rows(&ty) > 200 {
        Ty::Empty
    } else {
        ty
    }
}

fn head_of(names: &[Ty], ty: &Ty) -> Option<Head> {
    match ty {
        Ty::Text => Some(Head::Text),
        Ty::Bool => Some(Head::Bool),
        _ => label_of(names, ty).map(|(label, _)| Head::Label(label)),
    }
}

/// The atoms outside contents.
fn collect_atoms(ty: &Ty, atoms: &mut Vec<Ty>) {
    match ty {
        Ty::Empty => {}
        Ty::Sequence(p, q) | Ty::Choice(p, q) => {
            collect_atoms(p, atoms);
            collect_atoms(q, atoms);
        }
        Ty::Star(p) => collect_atoms(p, atoms),
        Ty::Text | Ty::Bool | Ty::Label(..) | Ty::Name(_) => atoms.push(ty.clone()),
    }
}

/// The type with each atom outside contents replaced.
fn replaced(ty: &Ty, by: &dyn Fn(&Ty) -> Ty) -> Ty {
    match ty {
        Ty::Empty => Ty::Empty,
        Ty::Sequence(p, q) => replaced(p, by).then(replaced(q, by)),
        Ty::Choice(p, q) => replaced(p, by).or(replaced(q, by)),
        Ty::Star(p) => replaced(p, by).star(),
        Ty::Text | Ty::Bool | Ty::Label(..) | Ty::Name(_) => by(ty),
    }
}
