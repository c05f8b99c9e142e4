//! Every verdict, listing, bundle and description against the second program's.

mod common;

use common::{chukelowa, folder, root, Said};
use second::answers::{answers, apply_listing, RESULT_ROWS, WORKING_ROWS};
use second::bundles;
use second::cases::{self, Cases};
use second::notation::{self, assemble_all, line_and_column, Source, Spare, Table};
use second::tables::Sheet;
use std::path::{Path, PathBuf};

/// The most rows of a description.
const FOREST_ROWS: usize = 2_048;

fn files(folder: &Path, suffix: &str) -> Vec<PathBuf> {
    let entries = std::fs::read_dir(folder).expect("a folder");
    let mut files: Vec<PathBuf> = entries.map(|entry| entry.expect("an entry").path()).collect();
    files.retain(|file| file.to_string_lossy().ends_with(suffix));
    files.sort();
    files
}

/// What the second program's listing says: the rows if it is done, else the refusal's number.
fn second_says(listing: &str) -> Result<Vec<[u16; 4]>, u16> {
    let words = |line: &str| line.split(' ').skip(1).map(|word| word.parse().expect("a number")).collect::<Vec<u16>>();
    let lines: Vec<&str> = listing.lines().collect();
    let last = lines.iter().rfind(|line| !line.starts_with(|c: char| c.is_ascii_digit())).expect("a verdict");
    match words(last)[0] {
        0 => Ok(lines[3..].iter().map(|line| words(line).try_into().expect("four words")).collect()),
        number => Err(number),
    }
}

/// Refused: nothing on standard output, the number and what to do on standard error, exit status 1.
fn assert_refused(said: &Said, number: u16, what: &str) {
    assert!(said.status == 1 && said.out.is_empty(), "{what}: {}, wanted {number}: {}", said.status, said.err);
    assert_eq!(said.refusal(), Some(number), "{what}: {}", said.err);
    assert!(said.err.contains("= what to do: "), "{what}: {}", said.err);
}

/// The rows with each text's bytes in place of its offset.
fn with_bytes(rows: &[[u16; 4]], pool: &[u8]) -> Vec<([u16; 4], Vec<u8>)> {
    let one = |row: &[u16; 4]| match *row {
        [1, offset, length, next] => {
            let start = usize::from(offset);
            ([1, 0, length, next], pool[start..start + usize::from(length)].to_vec())
        }
        row => (row, Vec::new()),
    };
    rows.iter().map(one).collect()
}

/// apply's text, its listing and its refusal against what the second program says of this bundle; whether it is done.
fn compare_apply(file: &str, sheet: &Sheet, bundle: &[u8]) -> bool {
    let listing = apply_listing(bundle);
    let by_text = chukelowa(&["apply", file], b"");
    let rows = match second_says(&listing) {
        Ok(rows) => rows,
        Err(number) => {
            assert_refused(&by_text, number, file);
            return false;
        }
    };
    let by_rows = chukelowa(&["apply", "--rows", file], b"");
    assert!(by_rows.status == 0 && by_rows.out == listing.as_bytes() && by_rows.err.is_empty(), "{file}");
    assert_eq!((by_text.status, by_text.err.is_empty()), (0, rows.len() <= FOREST_ROWS), "{file}");
    if rows.len() <= FOREST_ROWS {
        let again = notation::assemble(&format!("{}\nfrom () to () script skip", by_text.text()));
        let again = again.unwrap_or_else(|error| panic!("{file}: {error}\n{}", by_text.text()));
        assert_eq!(with_bytes(&again.forest, &again.pool), with_bytes(&rows, &sheet.pool), "{file}");
    }
    true
}

/// Unfit is told, of this text, at the tree that the second program names: its label, or what it is; at the top, the word `forest`.
fn assert_place(file: &str, text: &str, tree: u16) {
    let source = Source { name: file, bytes: text.as_bytes() };
    let places = assemble_all(&[source], Spare::default()).expect("a text").places;
    let section = || places.section("forest");
    // A text without trees has no such section: the type alone is shown.
    let Some(place) = places.row(Table::Forest, tree).map(|it| it.sign).or_else(section) else { return };
    let (line, column) = line_and_column(text.as_bytes(), place.start);
    let said = chukelowa(&["apply", file], b"");
    let told = said.err.lines().find(|line| line.trim_start().starts_with("-->")).expect("a place");
    assert!(told.ends_with(&format!(":{line}:{column}")), "{file}: {told}, wanted {line}:{column}");
}

/// check, fit against A and B, and run, each by itself, against the second program's answers.
fn compare_alone(file: &str, sheet: &Sheet, bundle: &[u8]) {
    let answers = answers(bundle, WORKING_ROWS, RESULT_ROWS);
    let find = |start: String| answers.lines().find_map(|line| line.strip_prefix(&start)).expect("a line");
    let numbers = |line: &str| line.split(' ').map(|word| word.parse().expect("a number")).collect::<Vec<u16>>();
    let compare = |words: &[&str], number: u16, wanted: &str| {
        let said = chukelowa(words, b"");
        match number {
            0 => assert!(said.status == 0 && said.text().starts_with(wanted), "{words:?}: {wanted}"),
            _ => assert_refused(&said, number, &format!("{words:?}")),
        }
    };
    let check = numbers(find("check ".into()));
    let units = format!("done: the script takes `from` into `to` ({} of {} units)", check[1], sheet.check_fuel);
    compare(&["check", file], check[0], &units);
    for (name, row) in [("A", sheet.a), ("B", sheet.b)] {
        let wanted = format!("done: the description is of type `{name}`");
        compare(&["fit", file, "--type", name], numbers(find(format!("fit {row} ")))[0], &wanted);
    }
    let run = numbers(find("run ".into()));
    compare(&["run", file, "--rows"], run[0], &format!("run 0 {} {}\n", run[1], run[4]));
}

#[test]
fn every_example() {
    let examples = [files(&root().join("examples"), ".flux"), files(&root().join("examples/worked"), ".flux")].concat();
    assert!(examples.len() > 70, "{} examples", examples.len());
    for example in examples {
        let file = example.to_str().expect("a name");
        let sheet = notation::assemble(&std::fs::read_to_string(&example).expect("a text")).expect("a sheet");
        let bundle = bundles::to_bundle(&sheet);
        let assembled = chukelowa(&["assemble", file], b"");
        assert_eq!((assembled.status, &assembled.out), (0, &bundle), "{file}");
        assert_eq!(chukelowa(&["list"], &bundle).text(), notation::list(&sheet), "{file}");
        compare_apply(file, &sheet, &bundle);
        compare_alone(file, &sheet, &bundle);
    }
}

/// How many bundles were read, and how many of them are done.
fn compare_random(cases: &[PathBuf]) -> (usize, usize) {
    let (mut read, mut done) = (0, 0);
    for (at, case) in cases.iter().enumerate() {
        let file = case.to_str().expect("a name");
        let bundle = std::fs::read(case).expect("a bundle");
        match bundles::read(&bundle) {
            // A damaged bundle without a byte 0, the empty one above all, is taken for a text, and refused as one.
            Err(_) if !bundle.contains(&0) => assert_eq!(chukelowa(&["apply", file], b"").status, 1, "{file}"),
            Err(refusal) => assert_refused(&chukelowa(&["apply", file], b""), refusal.number(), file),
            Ok(sheet) => {
                let listed = chukelowa(&["list", file], b"");
                assert_eq!(listed.text(), notation::list(&sheet), "{file}");
                assert_eq!(chukelowa(&["assemble"], &listed.out).out, bundle, "{file}");
                read += 1;
                done += usize::from(compare_apply(file, &sheet, &bundle));
                if let Some(tree) = apply_listing(&bundle).trim_end().rsplit_once("\nfit 10 ") {
                    assert_place(file, listed.text(), tree.1.parse().expect("a row"));
                }
                // The other verbs on some of them: the calls themselves are compared elsewhere.
                if at % 8 == 0 {
                    compare_alone(file, &sheet, &bundle);
                }
            }
        }
    }
    (read, done)
}

#[test]
fn random_bundles() {
    const COUNT: usize = 2_000;
    let folder = folder("random-bundles");
    cases::write_cases(Cases::half_unfit(15), COUNT, &folder).expect("cases");
    let cases = files(&folder, ".bundle");
    let counts = std::thread::scope(|scope| {
        let workers: Vec<_> = cases.chunks(COUNT / 4).map(|part| scope.spawn(|| compare_random(part))).collect();
        workers.into_iter().map(|worker| worker.join().expect("no difference")).collect::<Vec<_>>()
    });
    let (read, done) = counts.iter().fold((0, 0), |sum, one| (sum.0 + one.0, sum.1 + one.1));
    assert!(read > COUNT / 2 && done > COUNT / 20, "{read} read, {done} done");
}
