//! Forest rows as text, labels by name: a description in the notation.

use notation::{quoted, Names};
use std::collections::BTreeSet;
use std::fmt::Write;

const WIDTH: usize = 96;
/// Deeper parts are not moved further to the right.
const DEEPEST: usize = 48;

/// A description that a script takes as it is: the labels that are used, and the forest.
pub fn description(rows: &[[u16; 4]], root: u16, pool: &[u8], names: &Names) -> String {
    format!("{}forest\n{}", label_lines(rows, names), trees(rows, root, pool, names))
}

fn label_lines(rows: &[[u16; 4]], names: &Names) -> String {
    let used: BTreeSet<u16> = rows.iter().filter(|row| row[0] == 4).map(|row| row[1]).collect();
    let mut text = String::new();
    let mut line = String::from("labels");
    for (at, number) in used.iter().enumerate() {
        let label = format!(" {} = {number}", names.label(*number));
        let comma = if at + 1 < used.len() { "," } else { "" };
        if line.len() + label.len() + comma.len() > WIDTH {
            text.push_str(&line);
            text.push('\n');
            line = " ".into();
        }
        line.push_str(&label);
        line.push_str(comma);
    }
    if used.is_empty() {
        text
    } else {
        text + &line + "\n"
    }
}

/// The trees alone, two blanks in from the left.
pub fn trees(rows: &[[u16; 4]], root: u16, pool: &[u8], names: &Names) -> String {
    if root == 0 {
        return "  ()\n".into();
    }
    let mut printer = Printer { rows, pool, names, widths: Vec::new(), text: String::new() };
    printer.widths = printer.all_widths();
    printer.trees(root, 1);
    printer.text
}

struct Printer<'a> {
    rows: &'a [[u16; 4]],
    pool: &'a [u8],
    names: &'a Names,
    /// For each row how wide its tree is on one line, and how wide it is with all that follow it.
    widths: Vec<(usize, usize)>,
    text: String,
}

impl Printer<'_> {
    fn row(&self, number: u16) -> [u16; 4] {
        self.rows[usize::from(number) - 1]
    }

    /// A row refers to lower rows only, so one pass is enough.
    fn all_widths(&self) -> Vec<(usize, usize)> {
        let mut widths: Vec<(usize, usize)> = Vec::new();
        for &[kind, p, q, next] in self.rows {
            let child = |row: u16| {
                if row == 0 {
                    0
                } else {
                    widths[usize::from(row) - 1].1
                }
            };
            let own = match kind {
                4 => self.names.label(p).len() + 2 + child(q),
                _ => self.leaf([kind, p, q, next]).len(),
            };
            let following = if next == 0 { 0 } else { 2 + child(next) };
            widths.push((own, own.saturating_add(following)));
        }
        widths
    }

    fn leaf(&self, [kind, p, q, _]: [u16; 4]) -> String {
        match kind {
            1 => quoted(&self.pool[usize::from(p)..usize::from(p) + usize::from(q)]),
            2 => "false".into(),
            _ => "true".into(),
        }
    }

    /// Each tree on a line of its own, or on several.
    fn trees(&mut self, first: u16, level: usize) {
        let mut number = first;
        while number != 0 {
            let next = self.row(number)[3];
            let indent = (2 * level).min(DEEPEST);
            self.text.extend(std::iter::repeat_n(' ', indent));
            let [kind, label, child, _] = self.row(number);
            if kind == 4 && child != 0 && indent + self.widths[usize::from(number) - 1].0 > WIDTH {
                let _ = writeln!(self.text, "{}[", self.names.label(label));
                self.trees(child, level + 1);
                self.text.extend(std::iter::repeat_n(' ', indent));
                self.text.push(']');
            } else {
                self.flat(number);
            }
            self.text.push_str(if next == 0 { "\n" } else { ",\n" });
            number = next;
        }
    }

    fn flat(&mut self, number: u16) {
        let row @ [kind, label, child, _] = self.row(number);
        if kind != 4 {
            let leaf = self.leaf(row);
            return self.text.push_str(&leaf);
        }
        let _ = write!(self.text, "{}[", self.names.label(label));
        let mut inner = child;
        while inner != 0 {
            self.flat(inner);
            inner = self.row(inner)[3];
            if inner != 0 {
                self.text.push_str(", ");
            }
        }
        self.text.push(']');
    }
}
