//! Document 01, "Ties": the places that may stand next, and what follows from them: Tie, whether a
//! forest is of a type, and whether it can begin one.

use crate::forests::{Forest, Level, Tree};
use crate::tables::Type;
use crate::types::{Head, Types};
use std::collections::{BTreeMap, HashMap};
use std::rc::Rc;

/// "The places that may stand next are kept as sets of rows."
#[derive(Clone, Debug, Default, PartialEq, Eq)]
struct Rows(Vec<u64>);

impl Rows {
    fn one(row: u16) -> Rows {
        let index = usize::from(row);
        let mut words = vec![0; index / 64 + 1];
        words[index / 64] = 1 << (index % 64);
        Rows(words)
    }

    fn add(&mut self, other: &Rows) {
        if self.0.len() < other.0.len() {
            self.0.resize(other.0.len(), 0);
        }
        for (word, more) in self.0.iter_mut().zip(&other.0) {
            *word |= more;
        }
    }

    fn with(mut self, other: &Rows) -> Rows {
        self.add(other);
        self
    }

    /// The rows from the lowest.
    fn ascending(&self) -> impl Iterator<Item = u16> + '_ {
        (0u16..).zip(&self.0).flat_map(|(place, &word)| {
            let mut left = word;
            std::iter::from_fn(move || {
                let bit = u16::try_from(left.trailing_zeros()).ok()?;
                left &= left.checked_sub(1)?;
                Some(place * 64 + bit)
            })
        })
    }
}

/// For each row the atoms that a forest of it may begin with.
struct Firsts(Vec<Rows>);

impl Firsts {
    fn of(types: &Types) -> Firsts {
        let mut firsts = Firsts(Vec::new());
        for number in types.rows() {
            let rows = match types.row(number) {
                Type::Empty => Rows::default(),
                Type::Text | Type::Bool | Type::Label { .. } | Type::Name(_) => Rows::one(number),
                Type::Sequence(p, _) if !types.nullable(p) => firsts.at(p).clone(),
                Type::Sequence(p, q) | Type::Choice(p, q) => {
                    firsts.at(p).clone().with(firsts.at(q))
                }
                Type::Star(p) => firsts.at(p).clone(),
            };
            firsts.0.push(rows);
        }
        firsts
    }

    fn at(&self, number: u16) -> &Rows {
        &self.0[usize::from(number) - 1]
    }
}

/// What may come after some part of a type: an atom, or the end.
#[derive(Clone, Default)]
struct After {
    next: Rows,
    end: bool,
}

impl After {
    fn add(&mut self, other: &After) {
        self.next.add(&other.next);
        self.end |= other.end;
    }

    fn with(mut self, other: &After) -> After {
        self.add(other);
        self
    }

    /// False if no way led here.
    fn is_reached(&self) -> bool {
        self.end || self.next.ascending().next().is_some()
    }
}

/// The places of one type, whose rows have one user each: the atom rows outside contents.
struct Places {
    start: After,
    after: BTreeMap<u16, After>,
}

impl Places {
    fn of(types: &Types, firsts: &Firsts, root: u16) -> Places {
        let mut places = Places {
            start: After::default(),
            after: BTreeMap::new(),
        };
        let end = After {
            next: Rows::default(),
            end: true,
        };
        places.start = places.enter(types, firsts, root, end);
        places
    }

    /// Notes what may come after each atom of this part, given what may come after the part, and
    /// tells what may come at its start.
    fn enter(&mut self, types: &Types, firsts: &Firsts, row: u16, after: After) -> After {
        match types.row(row) {
            Type::Empty => after,
            Type::Text | Type::Bool | Type::Label { .. } | Type::Name(_) => {
                self.after.insert(row, after);
                After {
                    next: Rows::one(row),
                    end: false,
                }
            }
            Type::Sequence(p, q) => {
                let between = self.enter(types, firsts, q, after);
                self.enter(types, firsts, p, between)
            }
            Type::Choice(p, q) => {
                let first = self.enter(types, firsts, p, after.clone());
                first.with(&self.enter(types, firsts, q, after))
            }
            Type::Star(p) => {
                let again = After {
                    next: firsts.at(p).clone(),
                    end: false,
                };
                let after = again.with(&after);
                self.enter(types, firsts, p, after.clone());
                after
            }
        }
    }

    /// The start and the point after each atom.
    fn points(&self) -> impl Iterator<Item = &Rows> {
        let after = self.after.values().map(|after| &after.next);
        after.chain([&self.start.next])
    }
}

/// "Tie names the lowest row concerned with its lowest rival", over "all declared types and all
/// contents": those of the given rows and of every label row.
pub fn lowest_tie(types: &Types, declared: &[u16]) -> Option<(u16, u16)> {
    let contents = types.declared().filter_map(|row| match types.row(row) {
        Type::Label { content, .. } => Some(content),
        _ => None,
    });
    let roots = declared.iter().copied().chain(contents);
    let firsts = Firsts::of(types);
    let ties = roots.filter_map(|root| {
        let places = Places::of(types, &firsts, root);
        places.points().filter_map(|next| tie(types, next)).min()
    });
    ties.min()
}

/// "two different atom rows with one head may both stand next": the lowest two of them.
fn tie(types: &Types, next: &Rows) -> Option<(u16, u16)> {
    let mut lowest: HashMap<Option<Head>, u16> = HashMap::new();
    let mut ties = Vec::new();
    for row in next.ascending() {
        let rival = *lowest.entry(types.head(row)).or_insert(row);
        if rival != row {
            ties.push((rival, row));
        }
    }
    ties.into_iter().min()
}

/// Whether one forest, or a content within it, is of types whose rows have one user each.
pub struct Fit<'a> {
    types: &'a Types,
    forest: &'a Forest,
    firsts: Firsts,
    places: HashMap<u16, Rc<Places>>,
    contents: HashMap<(*const Tree, u16), bool>,
}

impl<'a> Fit<'a> {
    pub fn new(types: &'a Types, forest: &'a Forest) -> Fit<'a> {
        Fit {
            types,
            forest,
            firsts: Firsts::of(types),
            places: HashMap::new(),
            contents: HashMap::new(),
        }
    }

    /// "is this forest of this type".
    pub fn is_of(&mut self, row: u16) -> bool {
        self.forest_is_of(self.forest, row)
    }

    fn forest_is_of(&mut self, forest: &Forest, row: u16) -> bool {
        self.after(forest.trees(), row).end
    }

    /// Goes along the trees with the set of atoms that the last one may be: what may come after them.
    fn after(&mut self, trees: &[Tree], row: u16) -> After {
        let places = self.places(row);
        let mut at = places.start.clone();
        for tree in trees {
            if !at.is_reached() {
                break;
            }
            let mut then = After::default();
            for atom in at.next.ascending() {
                if self.tree_is_of(tree, atom) {
                    then.add(&places.after[&atom]);
                }
            }
            at = then;
        }
        at
    }

    /// True if a forest of the type can begin with what is met, told from the top level down. Every
    /// type has forests, so each place that is reached leads on to an end.
    pub fn begins(&mut self, met: &[Level], row: u16) -> bool {
        let Some((last, above)) = met.split_last() else {
            return true;
        };
        let mut models = vec![row];
        for level in above {
            let head = Some(Head::of_tree(level.next()));
            let mut contents = Vec::new();
            for row in models {
                let at = self.after(level.over(), row);
                let atoms = at.next.ascending();
                let atoms = atoms.filter(|&atom| self.types.head(atom) == head);
                contents.extend(atoms.filter_map(|atom| self.types.content(atom)));
            }
            models = contents;
        }
        let mut models = models.into_iter();
        models.any(|row| self.after(last.over(), row).is_reached())
    }

    fn tree_is_of(&mut self, tree: &Tree, atom: u16) -> bool {
        if self.types.head(atom) != Some(Head::of_tree(tree)) {
            return false;
        }
        match (tree, self.types.content(atom)) {
            (Tree::Label(_, content), Some(row)) => self.content_is_of(content, row),
            _ => true,
        }
    }

    /// Asked once for each content, however often it is shared.
    fn content_is_of(&mut self, content: &Forest, row: u16) -> bool {
        let key = (content.trees().as_ptr(), row);
        if let Some(&known) = self.contents.get(&key) {
            return known;
        }
        let is_of = self.forest_is_of(content, row);
        self.contents.insert(key, is_of);
        is_of
    }

    fn places(&mut self, row: u16) -> Rc<Places> {
        let (types, firsts) = (self.types, &self.firsts);
        let places = self.places.entry(row);
        places
            .or_insert_with(|| Rc::new(Places::of(types, firsts, row)))
            .clone()
    }
}

/// Whether a forest is of any type, also one with shared rows.
pub fn is_of(types: &Types, forest: &Forest, row: u16) -> bool {
    let (types, row) = types.write_out(row);
    Fit::new(&types, forest).is_of(row)
}
