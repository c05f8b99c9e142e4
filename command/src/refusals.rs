//! The refusals in words: their names, what they mean, what to do; and those of whole files.

use crate::inputs::File;
use crate::messages::{shown, Mark, Message};
use crate::shape;
use archive::Reply;
use notation::tables::Sheet;
use notation::Places;

pub struct Refusal {
    pub name: &'static str,
    /// docs/REFUSALS.md, "Given exactly if".
    pub given_if: &'static str,
    /// docs/REFUSALS.md, "What to do".
    pub what_to_do: &'static str,
    /// A small example, and the words that have it refused so.
    pub example: &'static str,
    pub asked_by: &'static str,
}

/// The refusals from 1.
pub const ALL: [Refusal; 13] = [
    Refusal {
        name: "Block",
        given_if: "the bytes are no bundle: length, numbering, check word, number of blocks or padding is wrong",
        what_to_do: "the file is cut, damaged or no bundle: fetch or write it again",
        example: "",
        asked_by: "",
    },
    Refusal {
        name: "Shape",
        given_if: "a rule or limit of the tables is broken; fit: there is no type row of the number told",
        what_to_do: "mend what made the bundle; of a text the line is told",
        example: include_str!("../explain/2.flux"),
        asked_by: "fit --type 9",
    },
    Refusal {
        name: "Barren",
        given_if: "a type name has no finite forest, as X = a[X]",
        what_to_do: "give the name a way to end: X = a[X*], X = a[X | ()]",
        example: include_str!("../explain/3.flux"),
        asked_by: "check",
    },
    Refusal {
        name: "Tie",
        given_if: "in a declared type or in the content of a label, two type rows with one head may both stand next, as in a*, a",
        what_to_do: "write the type so that the next tree alone says where it belongs: `a[], a[]*`, not `a[]*, a[]`",
        example: include_str!("../explain/4.flux"),
        asked_by: "check",
    },
    Refusal {
        name: "Fuel",
        given_if: "a unit is due and none is left",
        what_to_do: "raise the fuel by a line `fuel check N, run N`, to 4096 at most, or split the script into several; more fuel \
                     never changes another answer",
        example: include_str!("../explain/5.flux"),
        asked_by: "check",
    },
    Refusal {
        name: "Depth",
        given_if: "a row would start at depth 201",
        what_to_do: "nest statements, queries and calls less deeply; see that a procedure that calls itself comes to an end",
        example: include_str!("../explain/6.flux"),
        asked_by: "apply",
    },
    Refusal {
        name: "Wide",
        given_if: "a type that the check asks about has more than 512 rows written out (a name is one row)",
        what_to_do: "name a part of the type, or declare a procedure where the type grows",
        example: include_str!("../explain/7.flux"),
        asked_by: "check",
    },
    Refusal {
        name: "Mismatch",
        given_if: "a rule of the check other than 9's is unmet",
        what_to_do: "look at that place: the type there is not what it needs",
        example: include_str!("../explain/8.flux"),
        asked_by: "check",
    },
    Refusal {
        name: "Not included",
        given_if: "a call's focus or argument is not in its declared type, or a body's or the script's output is not in the \
                   declared output",
        what_to_do: "mend the declaration or the script",
        example: include_str!("../explain/9.flux"),
        asked_by: "check",
    },
    Refusal {
        name: "Unfit",
        given_if: "the forest is not of the type",
        what_to_do: "the description is another revision's, or the type is wrong: mend one of them",
        example: include_str!("../explain/10.flux"),
        asked_by: "apply",
    },
    Refusal {
        name: "Stuck",
        given_if: "a run comes to a row that cannot go on",
        what_to_do: "check first, or use apply: a script that the check passes is never stuck on a description of A",
        example: include_str!("../explain/11.flux"),
        asked_by: "run",
    },
    Refusal {
        name: "Scratch",
        given_if: "the working rows lent are fewer than the check's fuel, or than the forest's rows plus the run's fuel",
        what_to_do: "lend more: 6144 working rows are always enough, and this command lends them if not told otherwise",
        example: include_str!("../explain/12.flux"),
        asked_by: "check --work-rows 40",
    },
    Refusal {
        name: "Room",
        given_if: "what was lent for the result is too small for it: this command lends 8192 rows if not told otherwise",
        what_to_do: "let the script make less, or lend more (--result-rows, to 65535); a description that a script takes has 2048 \
                     rows at most",
        example: include_str!("../explain/13.flux"),
        asked_by: "apply",
    },
];

pub fn message(number: usize, text: impl Into<String>, marks: Vec<Mark>) -> Message {
    advised(number, text, ALL[number - 1].what_to_do, marks)
}

pub fn advised(number: usize, text: impl Into<String>, what_to_do: &str, marks: Vec<Mark>) -> Message {
    let name = ALL[number - 1].name;
    let notes = vec![format!("what to do: {what_to_do}"), format!("more: chukelowa explain {number}")];
    Message { refusal: format!("{number} {name}"), text: text.into(), marks, notes }
}

/// 1: the bytes of a file are no bundle.
pub fn of_blocks(name: &str, why: &str) -> String {
    shown(&[], &[message(1, format!("{name}: {why}"), vec![])])
}

/// 2: the tables of a bundle break a rule.
pub fn of_tables(name: &str, sheet: &Sheet, reply: Reply) -> String {
    let text = match shape::broken(sheet) {
        None => ALL[reply.number - 1].given_if.to_string(),
        Some(broken) => format!("{}: {}", broken.place, broken.why),
    };
    shown(&[], &[message(reply.number, format!("{name}: {text}"), vec![])])
}

/// 2: the tables of a text, which the notation passed, break a rule.
pub fn of_text(files: &[File], sheet: &Sheet, places: &Places, reply: Reply) -> String {
    let Some(broken) = shape::broken(sheet) else {
        return of_tables("the text", sheet, reply);
    };
    let written = broken.row.and_then(|(table, row)| places.row(table, row));
    let marks = written.map(|written| Mark::new(written.sign, "")).into_iter().collect();
    shown(files, &[message(reply.number, format!("{}: {}", broken.place, broken.why), marks)])
}
