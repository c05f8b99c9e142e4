//! The notation: round trips, errors with their places, every kind of row.

use second::answers::apply_listing;
use second::bundles::to_bundle;
use second::notation::{assemble, list};
use second::shape::broken_rules;
use second::tables::Sheet;
use std::path::PathBuf;

mod random {
    //! Random sheets that keep every rule under Tables: trees made from the top, rows numbered at random.

    use second::tables::Sheet;

    pub struct Random(pub u64);

    impl Random {
        pub fn below(&mut self, end: usize) -> usize {
            self.0 ^= self.0 << 13;
            self.0 ^= self.0 >> 7;
            self.0 ^= self.0 << 17;
            (self.0 >> 11) as usize % end
        }

        fn one_in(&mut self, n: usize) -> bool {
            self.below(n) == 0
        }
    }

    /// Which words of a row refer to lower rows of the same table.
    type Parts<const N: usize> = fn(&[u16; N]) -> &'static [usize];

    fn type_parts(row: &[u16; 3]) -> &'static [usize] {
        match row[0] {
            4 => &[2],
            5 | 6 => &[1, 2],
            7 => &[1],
            _ => &[],
        }
    }

    fn query_parts(row: &[u16; 4]) -> &'static [usize] {
        match row[0] {
            2 | 8 | 10 | 13 => &[1, 2],
            3 => &[2],
            9 => &[1, 2, 3],
            12 => &[1],
            _ => &[],
        }
    }

    fn statement_parts(row: &[u16; 4]) -> &'static [usize] {
        match row[0] {
            2 => &[1, 2],
            3 => &[2, 3],
            7 => &[2],
            8 | 10..=13 => &[1],
            9 => &[3],
            _ => &[],
        }
    }

    fn statement_queries(row: &[u16; 4]) -> &'static [usize] {
        match row[0] {
            3 | 4 | 7 => &[1],
            14 => &[2, 3],
            _ => &[],
        }
    }

    fn forest_parts(row: &[u16; 4]) -> &'static [usize] {
        match row[0] {
            4 => &[2, 3],
            _ => &[3],
        }
    }

    struct Maker {
        random: Random,
        sheet: Sheet,
        names: usize,
        parameters: Vec<usize>,
    }

    /// Sixteen places; true for a tree variable.
    type Scope = Vec<bool>;

    pub fn sheet(seed: u64, size: usize) -> Sheet {
        let mut random = Random(seed.wrapping_mul(0x9e37_79b9_7f4a_7c15) | 1);
        let names = random.below(4);
        let parameters = (0..random.below(4)).map(|_| random.below(3)).collect();
        let mut maker = Maker {
            random,
            sheet: Sheet::default(),
            names,
            parameters,
        };
        maker.fill(size);
        maker.shuffle();
        maker.sheet
    }

    impl Maker {
        fn fill(&mut self, size: usize) {
            let bytes = self.random.below(size + 1);
            let alphabet = [2, 3, 256][self.random.below(3)];
            self.sheet.pool = (0..bytes)
                .map(|_| b'a'.wrapping_add(self.random.below(alphabet) as u8))
                .collect();
            self.sheet.a = self.types(size);
            for _ in 0..self.names {
                let row = self.label_type(size / 2);
                self.sheet.names.push(row);
            }
            for number in 0..self.parameters.len() {
                self.procedure(number, size / 2);
            }
            self.sheet.b = self.types(size);
            self.sheet.main = self.statement(&mut Vec::new(), size);
            self.sheet.root = self.forest(size);
            self.sheet.check_fuel = self.random.below(4_097) as u16;
            self.sheet.run_fuel = self.random.below(4_097) as u16;
        }

        fn procedure(&mut self, number: usize, size: usize) {
            let mut row = [0; 5];
            for parameter in row.iter_mut().take(self.parameters[number]) {
                *parameter = self.types(size / 4);
            }
            row[2] = self.types(size / 4);
            row[3] = self.types(size / 4);
            row[4] = self.statement(&mut vec![false; self.parameters[number]], size);
            self.sheet.procedures.push(row);
        }

        fn label(&mut self) -> u16 {
            let end = if self.random.one_in(8) { 1_024 } else { 4 };
            self.random.below(end) as u16
        }

        fn add_type(&mut self, row: [u16; 3]) -> u16 {
            self.sheet.types.push(row);
            self.sheet.types.len() as u16
        }

        fn label_type(&mut self, size: usize) -> u16 {
            let (label, content) = (self.label(), self.types(size / 2));
            self.add_type([4, label, content])
        }

        fn types(&mut self, size: usize) -> u16 {
            if size < 2 {
                let row = match self.random.below(4) {
                    3 if self.names > 0 => [8, self.random.below(self.names) as u16 + 1, 0],
                    kind => [kind.min(2) as u16 + 1, 0, 0],
                };
                return self.add_type(row);
            }
            let row = match self.random.below(5) {
                0 => return self.label_type(size),
                1 => [7, self.types(size - 1), 0],
                kind => [
                    5 + kind as u16 % 2,
                    self.types(size / 2),
                    self.types(size / 2),
                ],
            };
            self.add_type(row)
        }

        fn text(&mut self) -> (u16, u16) {
            let bytes = self.sheet.pool.len();
            let offset = self.random.below(bytes + 1);
            let length = self.random.below((bytes - offset + 1).min(9));
            (offset as u16, length as u16)
        }

        fn query(&mut self, scope: &mut Scope, size: usize) -> u16 {
            let row = if size < 2 {
                self.query_leaf(scope)
            } else {
                self.query_node(scope, size)
            };
            self.sheet.queries.push(row);
            self.sheet.queries.len() as u16
        }

        fn query_leaf(&mut self, scope: &Scope) -> [u16; 4] {
            let variable = self.random.below(scope.len().max(1));
            match self.random.below(6) {
                0 => [1, 0, 0, 0],
                1 => {
                    let (offset, length) = self.text();
                    [4, offset, length, 0]
                }
                2 => [5, 0, 0, 0],
                3 => [6, 0, 0, 0],
                4 if !scope.is_empty() => [7, variable as u16, 0, 0],
                _ if scope.get(variable) == Some(&true) => [11, variable as u16, 0, 0],
                _ => [1, 0, 0, 0],
            }
        }

        fn query_node(&mut self, scope: &mut Scope, size: usize) -> [u16; 4] {
            let half = size / 2;
            let binds = scope.len() < 16;
            match self.random.below(7) {
                0 => [3, self.label(), self.query(scope, size - 1), 0],
                1 if binds => {
                    let value = self.query(scope, half);
                    [8, value, self.query_under(scope, false, half), 0]
                }
                2 if binds => {
                    let value = self.query(scope, half);
                    [13, value, self.query_under(scope, true, half), 0]
                }
                3 => {
                    let third = size / 3;
                    let (p, q) = (self.query(scope, third), self.query(scope, third));
                    [9, p, q, self.query(scope, third)]
                }
                4 => [10, self.query(scope, half), self.query(scope, half), 0],
                5 => [12, self.query(scope, size - 1), self.label(), 0],
                _ => [2, self.query(scope, half), self.query(scope, half), 0],
            }
        }

        fn query_under(&mut self, scope: &mut Scope, kind: bool, size: usize) -> u16 {
            scope.push(kind);
            let row = self.query(scope, size);
            scope.pop();
            row
        }

        fn statement(&mut self, scope: &mut Scope, size: usize) -> u16 {
            let row = if size < 2 {
                match self.random.below(3) {
                    0 => [1, 0, 0, 0],
                    1 => [5, 0, 0, 0],
                    _ => [6, self.label(), 0, 0],
                }
            } else {
                self.statement_node(scope, size)
            };
            self.sheet.statements.push(row);
            self.sheet.statements.len() as u16
        }

        fn statement_node(&mut self, scope: &mut Scope, size: usize) -> [u16; 4] {
            let half = size / 2;
            match self.random.below(9) {
                0 => {
                    let condition = self.query(scope, size / 3);
                    let yes = self.statement(scope, size / 3);
                    [3, condition, yes, self.statement(scope, size / 3)]
                }
                1 => [4, self.query(scope, half), 0, 0],
                2 if scope.len() < 16 => {
                    let value = self.query(scope, half);
                    [7, value, self.statement_under(scope, half), 0]
                }
                3 if scope.len() < 16 => [8, self.statement_under(scope, size - 1), 0, 0],
                4 => match self.random.below(3) {
                    1 => [9, 2, self.label(), self.statement(scope, size - 1)],
                    kind => [9, kind as u16 + 1, 0, self.statement(scope, size - 1)],
                },
                5 => {
                    let kind = 10 + self.random.below(4) as u16;
                    [kind, self.statement(scope, size - 1), 0, 0]
                }
                6 if !self.parameters.is_empty() => self.call(scope, half),
                _ => [
                    2,
                    self.statement(scope, half),
                    self.statement(scope, half),
                    0,
                ],
            }
        }

        fn statement_under(&mut self, scope: &mut Scope, size: usize) -> u16 {
            scope.push(false);
            let row = self.statement(scope, size);
            scope.pop();
            row
        }

        fn call(&mut self, scope: &mut Scope, size: usize) -> [u16; 4] {
            let number = self.random.below(self.parameters.len());
            let mut row = [14, number as u16 + 1, 0, 0];
            for argument in row[2..].iter_mut().take(self.parameters[number]) {
                *argument = self.query(scope, size / 2);
            }
            row
        }

        fn forest(&mut self, size: usize) -> u16 {
            if size == 0 {
                return 0;
            }
            let next = self.forest(size / 2);
            let row = match self.random.below(6) {
                0 => {
                    let (offset, length) = self.text();
                    [1, offset, length, next]
                }
                1 => [2, 0, 0, next],
                2 => [3, 0, 0, next],
                _ => [4, self.label(), self.forest(size - 1 - size / 2), next],
            };
            self.sheet.forest.push(row);
            self.sheet.forest.len() as u16
        }

        /// Gives the rows of each table other numbers, parts still before wholes.
        fn shuffle(&mut self) {
            let disorder = [1, 3, 1_000][self.random.below(3)];
            let types = shuffled(
                &mut self.random,
                disorder,
                &mut self.sheet.types,
                type_parts,
            );
            let queries = shuffled(
                &mut self.random,
                disorder,
                &mut self.sheet.queries,
                query_parts,
            );
            let statements = &mut self.sheet.statements;
            let statements = shuffled(&mut self.random, disorder, statements, statement_parts);
            let forest = shuffled(
                &mut self.random,
                disorder,
                &mut self.sheet.forest,
                forest_parts,
            );
            let sheet = &mut self.sheet;
            for row in &mut sheet.statements {
                for word in statement_queries(row) {
                    row[*word] = renumbered(&queries, row[*word]);
                }
            }
            for row in &mut sheet.procedures {
                for word in &mut row[..4] {
                    *word = renumbered(&types, *word);
                }
                row[4] = renumbered(&statements, row[4]);
            }
            for row in &mut sheet.names {
                *row = renumbered(&types, *row);
            }
            sheet.a = renumbered(&types, sheet.a);
            sheet.b = renumbered(&types, sheet.b);
            sheet.main = renumbered(&statements, sheet.main);
            sheet.root = renumbered(&forest, sheet.root);
        }
    }

    fn renumbered(numbers: &[u16], row: u16) -> u16 {
        match row {
            0 => 0,
            row => numbers[usize::from(row) - 1],
        }
    }

    /// Reorders the rows and gives each row's new number. A disorder of 1 keeps the order.
    fn shuffled<const N: usize>(
        random: &mut Random,
        disorder: usize,
        rows: &mut Vec<[u16; N]>,
        parts: Parts<N>,
    ) -> Vec<u16> {
        let mut numbers = vec![0; rows.len()];
        let mut waiting: Vec<usize> = (0..rows.len()).collect();
        let mut ordered = Vec::new();
        while !waiting.is_empty() {
            let is_ready = |index: &usize| {
                let row = &rows[*index];
                parts(row)
                    .iter()
                    .all(|w| row[*w] == 0 || numbers[usize::from(row[*w]) - 1] != 0)
            };
            let ready: Vec<usize> = (0..waiting.len())
                .filter(|place| is_ready(&waiting[*place]))
                .take(disorder)
                .collect();
            let index = waiting.remove(ready[random.below(ready.len())]);
            let mut row = rows[index];
            for word in parts(&row) {
                row[*word] = renumbered(&numbers, row[*word]);
            }
            ordered.push(row);
            numbers[index] = ordered.len() as u16;
        }
        *rows = ordered;
        numbers
    }
}

const EXAMPLES: [&str; 4] = [
    "document-01",
    "new-cost",
    "rename-register",
    "split-patterns",
];

/// A file of the repository.
fn file(path: &str) -> String {
    let path = PathBuf::from(env!("CARGO_MANIFEST_DIR"))
        .join("..")
        .join(path);
    std::fs::read_to_string(&path).unwrap_or_else(|error| panic!("{}: {error}", path.display()))
}

fn example(name: &str) -> String {
    file(&format!("examples/{name}.flux"))
}

fn assembled(text: &str) -> Sheet {
    assemble(text).unwrap_or_else(|error| panic!("{error}\n{text}"))
}

/// The sheet keeps the rules under Tables, it comes back equal, and its text is a fixed point.
fn round_trip(sheet: &Sheet) -> String {
    assert_eq!(broken_rules(sheet), [""; 0]);
    let text = list(sheet);
    assert_eq!(assembled(&text), *sheet, "{text}");
    assert_eq!(list(&assembled(&text)), text);
    text
}

/// A text around the given types, script and forest.
fn with(script: &str) -> String {
    format!("labels a = 1, b = 2, c = 3\nfrom ()\nto ()\nscript {script}\n")
}

#[test]
fn examples_come_back_without_marks() {
    for name in EXAMPLES {
        let listed = round_trip(&assembled(&example(name)));
        let clean = !listed.contains('@') && !listed.contains("pool") && !listed.contains(" at ");
        assert!(clean, "{name}:\n{listed}");
    }
}

#[test]
fn the_page_shows_the_examples_and_their_results() {
    let page = file("docs/NOTATION.md");
    let blocks: Vec<&str> = page.split("```flux\n").skip(1).collect();
    let mut blocks = blocks.iter().filter_map(|block| block.split("```").next());
    for name in EXAMPLES {
        let text = example(name);
        assert_eq!(blocks.next(), Some(text.as_str()));
        let listing = apply_listing(&to_bundle(&assembled(&text)));
        let head: String = listing.split_inclusive('\n').take(3).collect();
        assert!(page.contains(&head), "{name}:\n{head}");
        if name == "document-01" {
            assert!(page.contains(&listing));
            assert!(page.contains(&list(&assembled(&text))));
        } else {
            let result = blocks.next().expect("a result");
            assert_eq!(
                result_of(&text, &listing),
                forest_of(&text, result),
                "{name}"
            );
        }
    }
    assert_eq!(blocks.next(), None);
}

/// The forest that a listing's rows hold, for the text of the bundle.
fn result_of(text: &str, listing: &str) -> String {
    let mut sheet = assembled(text);
    let rows = listing.lines().skip(3).map(|line| {
        let words: Vec<u16> = line
            .split(' ')
            .map(|word| word.parse().expect("a word"))
            .collect();
        [words[1], words[2], words[3], words[4]]
    });
    sheet.forest = rows.collect();
    shown(&sheet, sheet.forest.len() as u16)
}

/// The forest as written, by the labels of the text.
fn forest_of(text: &str, forest: &str) -> String {
    let labels = text
        .lines()
        .find(|line| line.starts_with("labels"))
        .expect("labels");
    let text = format!("{labels} from () to () script skip forest {forest}");
    let sheet = assembled(&text);
    shown(&sheet, sheet.root)
}

/// A forest by its labels' numbers and its texts' bytes.
fn shown(sheet: &Sheet, row: u16) -> String {
    if row == 0 {
        return String::new();
    }
    let [kind, p, q, next] = sheet.forest[usize::from(row) - 1];
    let tree = match kind {
        1 => format!("{:?}", &sheet.pool[usize::from(p)..usize::from(p + q)]),
        4 => format!("{p}({})", shown(sheet, q)),
        _ => (kind == 3).to_string(),
    };
    format!("{tree} {}", shown(sheet, next))
}

#[test]
fn document_01_is_read_as_written() {
    let sheet = assembled(&example("document-01"));
    let statements = [
        [4, 2, 0, 0],
        [12, 1, 0, 0],
        [9, 2, 2, 2],
        [13, 3, 0, 0],
        [10, 4, 0, 0],
        [9, 2, 1, 5],
        [13, 6, 0, 0],
    ];
    assert_eq!(sheet.statements, statements);
    assert_eq!(sheet.queries, [[1, 0, 0, 0], [3, 3, 1, 0]]);
    let forest = [
        [4, 4, 0, 0],
        [4, 2, 0, 0],
        [4, 3, 0, 2],
        [4, 2, 0, 3],
        [4, 1, 4, 1],
    ];
    assert_eq!(sheet.forest, forest);
    assert_eq!((sheet.main, sheet.root), (7, 5));
    assert_eq!((sheet.check_fuel, sheet.run_fuel), (4_096, 4_096));
    assert_eq!((sheet.a, sheet.b), (14, 34));
}

#[test]
fn random_sheets_come_back() {
    for seed in 1..=2_000 {
        round_trip(&random::sheet(seed, 2 + seed as usize % 60));
    }
}

#[test]
fn damaged_texts_are_refused_or_keep_the_rules() {
    let mut random = random::Random(7);
    let mut refused = 0;
    for seed in 1..=4_000 {
        let text = list(&random::sheet(seed, 2 + seed as usize % 20));
        match assemble(&damaged(&text, &mut random)) {
            Ok(sheet) => drop(round_trip(&sheet)),
            Err(error) => {
                assert!(!error.message.is_empty());
                refused += 1;
            }
        }
    }
    assert!((2_000..4_000).contains(&refused), "{refused} refused");
}

/// The text with one piece left out, moved or replaced.
fn damaged(text: &str, random: &mut random::Random) -> String {
    let pieces: Vec<&str> = text
        .split_inclusive([' ', '\n', '[', ']', '(', ')', ','])
        .collect();
    let (place, other) = (random.below(pieces.len()), random.below(pieces.len()));
    let mut pieces = pieces;
    match random.below(4) {
        0 => drop(pieces.remove(place)),
        1 => pieces.swap(place, other),
        2 => pieces[place] = pieces[other],
        _ => pieces.insert(place, pieces[other]),
    }
    pieces.concat()
}

#[test]
fn random_sheets_have_every_kind() {
    let mut kinds = std::collections::BTreeSet::new();
    for seed in 1..=200 {
        let sheet = random::sheet(seed, 60);
        kinds.extend(sheet.types.iter().map(|row| ("type", row[0])));
        kinds.extend(sheet.queries.iter().map(|row| ("query", row[0])));
        kinds.extend(sheet.statements.iter().map(|row| ("statement", row[0])));
        kinds.extend(sheet.forest.iter().map(|row| ("forest", row[0])));
    }
    assert_eq!(kinds.len(), 8 + 13 + 14 + 4);
}

#[test]
fn every_kind_has_its_sign() {
    let text = "labels a = 0, b = 1023
pool \"abab\"
type X = a[(() | text), bool*, X]
procedure p(x: text, y: (a[] | bool)) from () to X = skip
procedure q(z: text) from () to () = q(z)
procedure r() from () to () = r()
from X
to ()
fuel check 0, run 7
script
  if true then skip else delete;
  insert (), a[\"ab\"], \"ab\" at 2, false;
  rename b;
  let x = (let y = () in y) in snapshot z in p(x, if x = z then x else z);
  a? text()? node()? children [left [right [iter [skip]]]];
  insert for t in a[] return children(t) :: b
forest
  \"ab\", true, false, a[b[\"\"]]
";
    let sheet = assembled(text);
    let kinds = |rows: &[[u16; 4]]| -> std::collections::BTreeSet<u16> {
        rows.iter().map(|row| row[0]).collect()
    };
    assert_eq!(kinds(&sheet.queries), (1..=13).collect());
    assert_eq!(kinds(&sheet.statements), (1..=14).collect());
    assert_eq!(kinds(&sheet.forest), (1..=4).collect());
    assert_eq!(sheet.types.iter().map(|row| row[0]).max(), Some(8));
    assert_eq!(sheet.queries[3], [4, 0, 2, 0]);
    assert_eq!(
        sheet
            .queries
            .iter()
            .filter(|row| row[0] == 4 && row[1] == 2)
            .count(),
        1
    );
    assert_eq!((sheet.check_fuel, sheet.run_fuel), (0, 7));
    round_trip(&sheet);
}

#[test]
fn each_type_brings_its_row() {
    let types = [
        ("()", [1, 0, 0]),
        ("text", [2, 0, 0]),
        ("bool", [3, 0, 0]),
        ("b[]", [4, 2, 1]),
        ("text, bool", [5, 1, 2]),
        ("text | bool", [6, 1, 2]),
        ("text*", [7, 1, 0]),
        ("Y", [8, 2, 0]),
    ];
    for (text, row) in types {
        let declared = "type X = a[] type Y = b[]";
        let text = format!("labels a = 1, b = 2 from {text} to () script skip {declared}");
        let sheet = assembled(&text);
        assert_eq!(sheet.types[usize::from(sheet.a) - 1], row, "{text}");
    }
}

#[test]
fn each_query_brings_its_row() {
    let queries = [
        ("()", [1, 0, 0, 0]),
        ("x, t", [2, 2, 3, 0]),
        ("b[x]", [3, 2, 2, 0]),
        ("\"bcd\"", [4, 1, 3, 0]),
        ("true", [5, 0, 0, 0]),
        ("false", [6, 0, 0, 0]),
        ("t", [7, 1, 0, 0]),
        ("let y = x in y", [8, 2, 3, 0]),
        ("if x then t else ()", [9, 2, 3, 4]),
        ("x = t", [10, 2, 3, 0]),
        ("children(t)", [11, 1, 0, 0]),
        ("x :: b", [12, 2, 2, 0]),
        ("for u in x return u", [13, 2, 3, 0]),
    ];
    for (text, row) in queries {
        // Row 1 is the query that the outer `for` goes over, the last row that `for` itself.
        let script = format!("snapshot x in insert for t in x return ({text})");
        let sheet = assembled(&format!("pool \"abcd\" {}", with(&script)));
        assert_eq!(sheet.queries[sheet.queries.len() - 2], row, "{text}");
    }
}

#[test]
fn each_statement_brings_its_row() {
    let statements = [
        ("skip", [1, 0, 0, 0]),
        ("skip; delete", [2, 1, 2, 0]),
        ("if true then skip else delete", [3, 1, 1, 2]),
        ("insert ()", [4, 1, 0, 0]),
        ("delete", [5, 0, 0, 0]),
        ("rename c", [6, 3, 0, 0]),
        ("let x = () in skip", [7, 1, 1, 0]),
        ("snapshot x in skip", [8, 1, 0, 0]),
        ("text()? skip", [9, 1, 0, 1]),
        ("c? skip", [9, 2, 3, 1]),
        ("node()? skip", [9, 3, 0, 1]),
        ("children [skip]", [10, 1, 0, 0]),
        ("left [skip]", [11, 1, 0, 0]),
        ("right [skip]", [12, 1, 0, 0]),
        ("iter [skip]", [13, 1, 0, 0]),
        ("q(true, false)", [14, 2, 1, 2]),
    ];
    for (text, row) in statements {
        let procedures = "procedure p() from () to () = skip
            procedure q(x: text, y: text) from () to () = skip";
        let sheet = assembled(&format!("{} {procedures}", with(text)));
        assert_eq!(sheet.statements[usize::from(sheet.main) - 1], row, "{text}");
    }
}

#[test]
fn each_tree_brings_its_row() {
    let text = "forest \"bc\", false, true, c[b[]], \"\" pool \"abc\"";
    let sheet = assembled(&format!("{} {text}", with("skip")));
    let rows = [
        [1, 0, 0, 0],
        [4, 2, 0, 0],
        [4, 3, 2, 1],
        [3, 0, 0, 3],
        [2, 0, 0, 4],
        [1, 1, 2, 5],
    ];
    assert_eq!((sheet.forest, sheet.root), (rows.to_vec(), 6));
}

#[test]
fn commas_and_semicolons_bind_loosest() {
    let sheet = assembled(&with("let x = a[], b[] in insert x; skip"));
    let main = sheet.statements[usize::from(sheet.main) - 1];
    assert_eq!(main[0], 2);
    let sheet = assembled(&with("insert (for t in a[], b[] return t), c[]"));
    let inserted = sheet.queries[usize::from(sheet.statements[0][1]) - 1];
    assert_eq!(inserted[0], 2);
    assert_eq!(sheet.queries[usize::from(inserted[1]) - 1][0], 13);
}

#[test]
fn an_inner_variable_hides_an_outer_one() {
    let sheet = assembled(&with("let x = () in let x = x in insert x"));
    let variables: Vec<u16> = sheet
        .queries
        .iter()
        .filter(|row| row[0] == 7)
        .map(|row| row[1])
        .collect();
    assert_eq!(variables, [0, 1]);
}

#[test]
fn texts_share_the_pool() {
    let sheet = assembled(&with("insert \"abc\", \"bc\", \"cd\", \"\", \"abc\""));
    assert_eq!(sheet.pool, b"abccd");
    let texts: Vec<[u16; 2]> = sheet
        .queries
        .iter()
        .filter(|row| row[0] == 4)
        .map(|row| [row[1], row[2]])
        .collect();
    assert_eq!(texts, [[0, 3], [1, 2], [3, 2], [0, 0], [0, 3]]);
}

#[test]
fn any_byte_can_be_written() {
    let every_byte: Vec<u8> = (0..=255).collect();
    let mut sheet = assembled(&with("insert \"x\""));
    sheet.pool = [&every_byte[..], "größer → 語".as_bytes()].concat();
    sheet.queries[0] = [4, 0, sheet.pool.len() as u16, 0];
    let text = round_trip(&sheet);
    assert!(text.contains("größer \\xe2\\x86\\x92 語"), "{text}");
    assert!(!text.contains("pool"), "{text}");
}

#[test]
fn marks_are_few() {
    let text = with("skip; delete; skip").replace("delete", "delete@1");
    let sheet = assembled(&text);
    assert_eq!(sheet.statements[0], [5, 0, 0, 0]);
    let listed = round_trip(&sheet);
    assert_eq!(listed.matches('@').count(), 1, "{listed}");
}

#[test]
fn the_deepest_sheets_come_back() {
    let mut sheet = assembled(&with("skip"));
    sheet.statements = vec![[4, 512, 0, 0]];
    sheet.statements.extend((1..512).map(|row| [10, row, 0, 0]));
    sheet.main = 512;
    sheet.queries = vec![[1, 0, 0, 0]];
    for row in (1..511).step_by(2) {
        sheet.queries.push([5, 0, 0, 0]);
        sheet.queries.push([2, row, row + 1, 0]);
    }
    sheet.queries.push([3, 0, 511, 0]);
    sheet.types = vec![[1, 0, 0], [1, 0, 0]];
    sheet.types.extend((2..512).map(|row| [4, 1_023, row]));
    (sheet.a, sheet.b) = (1, 512);
    sheet.forest = vec![[4, 9, 0, 0]];
    sheet.forest.extend((1..2_048).map(|row| [4, 9, row, 0]));
    sheet.root = 2_048;
    round_trip(&sheet);
}

#[test]
fn the_widest_sheets_come_back() {
    let mut sheet = assembled(&with("skip"));
    sheet.pool = (0..16_384u32).map(|n| (n * n / 7) as u8).collect();
    sheet.forest = (0..2_048)
        .map(|row| [1, row * 8 % 16_000, 8, row])
        .collect();
    sheet.root = 2_048;
    round_trip(&sheet);
}
