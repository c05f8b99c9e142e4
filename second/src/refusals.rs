//! Document 01, "Refusals by number": the thirteen refusals, their numbers and what they carry.

/// "A carried row … is the one whose rule asks, with 1 for a query, 2 for a statement"; 0 "for a
/// declared output".
#[derive(Clone, Copy, Debug, PartialEq, Eq)]
pub enum Asker {
    Declaration,
    Query(u16),
    Statement(u16),
}

impl Asker {
    fn carried(self) -> (u16, u16) {
        match self {
            Asker::Declaration => (0, 0),
            Asker::Query(row) => (row, 1),
            Asker::Statement(row) => (row, 2),
        }
    }
}

/// Unfit carries the forest row of the first fault, 0 if the forest itself ends too soon.
#[derive(Clone, Copy, Debug, PartialEq, Eq)]
pub enum Refusal {
    Block,
    Shape,
    Barren { name: u16 },
    Tie { row: u16, rival: u16 },
    Fuel,
    Depth,
    Wide(Asker),
    Mismatch(Asker),
    NotIncluded(Asker),
    Unfit { tree: u16 },
    Stuck(Asker),
    Scratch,
    Room,
}

impl Refusal {
    /// The number in the table of refusals.
    pub fn number(self) -> u16 {
        match self {
            Refusal::Block => 1,
            Refusal::Shape => 2,
            Refusal::Barren { .. } => 3,
            Refusal::Tie { .. } => 4,
            Refusal::Fuel => 5,
            Refusal::Depth => 6,
            Refusal::Wide(_) => 7,
            Refusal::Mismatch(_) => 8,
            Refusal::NotIncluded(_) => 9,
            Refusal::Unfit { .. } => 10,
            Refusal::Stuck(_) => 11,
            Refusal::Scratch => 12,
            Refusal::Room => 13,
        }
    }

    /// The two carried values, 0 where there is none.
    pub fn carried(self) -> (u16, u16) {
        match self {
            Refusal::Barren { name } => (name, 0),
            Refusal::Tie { row, rival } => (row, rival),
            Refusal::Unfit { tree } => (tree, 0),
            Refusal::Wide(asker)
            | Refusal::Mismatch(asker)
            | Refusal::NotIncluded(asker)
            | Refusal::Stuck(asker) => asker.carried(),
            Refusal::Block
            | Refusal::Shape
            | Refusal::Fuel
            | Refusal::Depth
            | Refusal::Scratch
            | Refusal::Room => (0, 0),
        }
    }
}
