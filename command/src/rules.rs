//! The rules of the check that a row may break, and what to do about each.

/// A rule of the check, as docs/REFUSALS.md has it ("8, Mismatch, and 9, Not included"), and what to do where it is unmet.
pub struct Rule<'a> {
    /// What is asked about; empty where no type is asked about, so that Wide cannot come.
    pub of: &'a str,
    pub wants: &'a str,
    pub advice: &'a str,
}

pub const CONDITION: Rule = Rule {
    of: "the condition of `if`",
    wants: "the condition of `if` must be of type bool",
    advice: "give one bool: `true`, `false`, or two texts compared by `=`",
};
pub const SAME: Rule = Rule {
    of: "this side of `=`",
    wants: "each side of `=` must be of type text",
    advice: "give one text on each side; what is in a tree x of `for` is `children(x)`",
};
pub const INSERT: Rule = Rule {
    of: "the focus of `insert`",
    wants: "`insert` needs an empty focus, of type ()",
    advice: "`left [insert …]` or `right [insert …]` puts trees beside what is there, `delete; insert …` in its place",
};
pub const RENAME: Rule = Rule {
    of: "",
    wants: "`rename` needs a focus of one labelled tree: a label or a type name, no sequence, choice or star",
    advice: "go to the trees one by one: `iter [a? rename b]`",
};
pub const CHILDREN: Rule = Rule {
    of: "",
    wants: "`children` needs a focus of one labelled tree: a label or a type name, no sequence, choice or star",
    advice: "go to the trees one by one: `iter [a? children [s]]`",
};
pub const TEST: Rule = Rule {
    of: "",
    wants: "a test needs a focus of one tree: text, bool, a label or a type name, no sequence, choice or star",
    advice: "go to the trees one by one: `iter [a? s]`",
};
