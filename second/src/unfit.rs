//! Where a forest is unfit. Reading it from the left meets events: a tree's head, then all that is inside the tree, then the
//! end of that inside, then the next tree; last the end at the top. What is met so far is well if it can begin a forest of
//! the type; the first event after which it is not is the fault. It is found by halving: what begins something that is well
//! is well itself.

use crate::forests::{Forest, Level, Tree};
use crate::places::Fit;
use crate::tables::{row, Node, Sheet};

/// A thing met on the way through a forest; rows are those of its table.
#[derive(Clone, Copy)]
enum Event {
    /// The head of a text or bool, which is the whole of it.
    Leaf { tree: u16 },
    /// The head of a labelled tree.
    Label { tree: u16 },
    /// The end of a content; the parent is 0 at the top.
    End { parent: u16 },
}

impl Event {
    /// The row that is named if this is the fault.
    fn row(self) -> u16 {
        match self {
            Event::Leaf { tree } | Event::Label { tree } => tree,
            Event::End { parent } => parent,
        }
    }
}

/// A forest with its events in order.
pub struct Reading<'a> {
    forest: &'a Forest,
    events: Vec<Event>,
}

impl<'a> Reading<'a> {
    /// The forest is that of the sheet.
    pub fn new(sheet: &Sheet, forest: &'a Forest) -> Reading<'a> {
        let mut events = Vec::new();
        add_events(&mut events, &sheet.forest, sheet.root, 0);
        Reading { forest, events }
    }

    /// The row of the first fault against a type row; none if the forest is of it.
    pub fn fault(&self, fit: &mut Fit, type_row: u16) -> Option<u16> {
        let (mut well, mut ill) = (0, self.events.len() + 1);
        while ill - well > 1 {
            let half = well + (ill - well) / 2;
            if self.is_well(fit, half, type_row) {
                well = half;
            } else {
                ill = half;
            }
        }
        self.events.get(ill - 1).map(|event| event.row())
    }

    /// True if the first so many events can begin a forest of the type; all of them are one, or not.
    fn is_well(&self, fit: &mut Fit, count: usize, type_row: u16) -> bool {
        if count == self.events.len() {
            return fit.is_of(type_row);
        }
        fit.begins(&self.met(count), type_row)
    }

    /// What the first so many events leave, from the top level down; the end at the top is not among them.
    fn met(&self, count: usize) -> Vec<Level<'a>> {
        let mut levels = vec![Level::begun(self.forest)];
        for event in &self.events[..count] {
            match event {
                Event::Leaf { .. } => {}
                Event::Label { .. } => {
                    let inside = levels.last().and_then(|level| content(level.next()));
                    levels.push(Level::begun(inside.expect("a label has a content")));
                    continue;
                }
                Event::End { .. } => {
                    levels.pop();
                }
            }
            levels.last_mut().expect("the top is not ended").over += 1;
        }
        levels
    }
}

fn content(tree: &Tree) -> Option<&Forest> {
    match tree {
        Tree::Label(_, content) => Some(content),
        Tree::Text { .. } | Tree::Bool(_) => None,
    }
}

/// The events of the trees from this row on, and of their end.
fn add_events(events: &mut Vec<Event>, rows: &[[u16; 4]], first: u16, parent: u16) {
    let mut number = first;
    while let Some((node, next)) = row(rows, number).and_then(Node::of) {
        match node {
            Node::Label { child, .. } => {
                events.push(Event::Label { tree: number });
                add_events(events, rows, child, number);
            }
            Node::Text { .. } | Node::Bool(_) => events.push(Event::Leaf { tree: number }),
        }
        number = next;
    }
    events.push(Event::End { parent });
}
