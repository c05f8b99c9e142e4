//! What is wanted where a description is unfit. The proved fit names the place: the first tree whose head cannot stand there, or
//! the one whose content ends too soon, 0 at the top. In a type that is free of ties the head of each tree before it says which
//! place that tree takes.

use notation::tables::Sheet;
use notation::Names;

pub struct Fault {
    /// The type row that says what may stand there: a label's, or the one asked about.
    pub type_row: u16,
    pub why: String,
}

/// What is wrong at the forest row that Unfit carries, against the type row asked about.
pub fn fault(sheet: &Sheet, names: &Names, asked: u16, tree: u16) -> Fault {
    let mut place = Place { type_row: asked, left: vec![asked] };
    for step in way(sheet, tree) {
        match place.behind(sheet, step) {
            Some(next) => place = next,
            None => return place.fault(sheet, names, "here"),
        }
    }
    // The tree itself can stand there, so it is the end of its content that cannot.
    let first = if tree == 0 { sheet.root } else { sheet.forest[usize::from(tree) - 1][2] };
    let mut number = first;
    while let Some(next) = place.behind(sheet, Step::Over(number)) {
        place = next;
        number = sheet.forest[usize::from(number) - 1][3];
    }
    place.fault(sheet, names, if first == 0 { "in this" } else { "at the end of this" })
}

/// What is met on the way to a tree.
enum Step {
    /// A tree to the left of it, or of one that it is in.
    Over(u16),
    /// A tree that it is in, or the tree itself.
    Into(u16),
}

/// The steps from the first tree of all to this one; none to row 0. Every row has one user: the tree that it stands behind, or
/// the one that it is the first child of.
fn way(sheet: &Sheet, tree: u16) -> Vec<Step> {
    let user = |number: u16| {
        let uses = |&(_, row): &(u16, &[u16; 4])| row[3] == number || row[0] == 4 && row[2] == number;
        (1..).zip(&sheet.forest).find(uses)
    };
    let mut way = Vec::new();
    if tree == 0 {
        return way;
    }
    way.push(Step::Into(tree));
    let mut number = tree;
    while let Some((before, row)) = user(number) {
        way.push(if row[3] == number { Step::Over(before) } else { Step::Into(before) });
        number = before;
    }
    way.reverse();
    way
}

/// A place in a type.
struct Place {
    /// The row whose content it is in, or the one asked about.
    type_row: u16,
    /// The type rows that are left, one behind the other.
    left: Vec<u16>,
}

impl Place {
    /// The place after a step; none if the tree's head cannot stand here, or there is no tree.
    fn behind(&self, sheet: &Sheet, step: Step) -> Option<Place> {
        let (Step::Over(number) | Step::Into(number)) = step;
        let tree = *sheet.forest.get(usize::from(number).checked_sub(1)?)?;
        let (atom, left) = taken(sheet, &self.left, tree)?;
        let inside = sheet.types[usize::from(atom) - 1][2];
        Some(match step {
            Step::Over(_) => Place { type_row: self.type_row, left },
            Step::Into(_) => Place { type_row: atom, left: vec![inside] },
        })
    }

    fn fault(&self, sheet: &Sheet, names: &Names, place: &str) -> Fault {
        Fault { type_row: self.type_row, why: format!("{place}, {}", wanted(sheet, names, &self.left)) }
    }
}

/// The atom that a tree takes of the type rows that are left, one behind the other, and what is left then.
fn taken(sheet: &Sheet, left: &[u16], tree: [u16; 4]) -> Option<(u16, Vec<u16>)> {
    let (row, behind) = left.split_first()?;
    match taken_of(sheet, *row, tree) {
        Some((atom, rest)) => Some((atom, [&rest, behind].concat())),
        None if may_be_empty(sheet, *row) => taken(sheet, behind, tree),
        None => None,
    }
}

fn taken_of(sheet: &Sheet, row: u16, tree: [u16; 4]) -> Option<(u16, Vec<u16>)> {
    match sheet.types[usize::from(row) - 1] {
        [1, ..] => None,
        [5, p, q] => taken(sheet, &[p, q], tree),
        [6, p, q] => taken_of(sheet, p, tree).or_else(|| taken_of(sheet, q, tree)),
        [7, p, _] => taken_of(sheet, p, tree).map(|(atom, rest)| (atom, [rest, vec![row]].concat())),
        _ => {
            let atom = atom(sheet, row);
            one_head(sheet, atom, tree).then_some((atom, vec![]))
        }
    }
}

fn may_be_empty(sheet: &Sheet, row: u16) -> bool {
    match sheet.types[usize::from(row) - 1] {
        [1 | 7, ..] => true,
        [5, p, q] => may_be_empty(sheet, p) && may_be_empty(sheet, q),
        [6, p, q] => may_be_empty(sheet, p) || may_be_empty(sheet, q),
        _ => false,
    }
}

/// A name as its label row.
fn atom(sheet: &Sheet, row: u16) -> u16 {
    match sheet.types[usize::from(row) - 1] {
        [8, name, _] => sheet.names[usize::from(name) - 1],
        _ => row,
    }
}

fn one_head(sheet: &Sheet, atom: u16, tree: [u16; 4]) -> bool {
    match (sheet.types[usize::from(atom) - 1], tree) {
        ([2, ..], [1, ..]) | ([3, ..], [2 | 3, ..]) => true,
        ([4, wanted, _], [4, label, ..]) => wanted == label,
        _ => false,
    }
}

/// What may stand next, in words.
fn wanted(sheet: &Sheet, names: &Names, left: &[u16]) -> String {
    const MOST: usize = 4;
    let mut heads = Vec::new();
    let mut may_end = true;
    for row in left {
        add_heads(sheet, names, *row, &mut heads);
        may_end = may_be_empty(sheet, *row);
        if !may_end {
            break;
        }
    }
    let more = if heads.len() > MOST { " or another" } else { "" };
    heads.truncate(MOST);
    match (heads.is_empty(), may_end) {
        (true, _) => "nothing more may stand".into(),
        (_, true) => format!("{}{more} or nothing is wanted", heads.join(" or ")),
        (_, false) => format!("{}{more} is wanted", heads.join(" or ")),
    }
}

fn add_heads(sheet: &Sheet, names: &Names, row: u16, heads: &mut Vec<String>) {
    match sheet.types[usize::from(row) - 1] {
        [1, ..] => {}
        [5, p, q] => {
            add_heads(sheet, names, p, heads);
            if may_be_empty(sheet, p) {
                add_heads(sheet, names, q, heads);
            }
        }
        [6, p, q] => {
            add_heads(sheet, names, p, heads);
            add_heads(sheet, names, q, heads);
        }
        [7, p, _] => add_heads(sheet, names, p, heads),
        _ => heads.push(head(sheet, names, row)),
    }
}

/// The head of an atom, in words.
pub fn head(sheet: &Sheet, names: &Names, row: u16) -> String {
    match sheet.types[usize::from(atom(sheet, row)) - 1] {
        [2, ..] => "a text".into(),
        [3, ..] => "a bool".into(),
        [_, label, _] => format!("`{}`", names.label(label)),
    }
}
