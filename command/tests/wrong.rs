//! Wrong inputs, one folder each in tests/wrong: `words` is the command line, a word to a line, `stderr` and `status` are what
//! is to be said, by a person's reading; `stdin` and `out` (`full`, `closed pipe`) where they are not empty and a pipe.

mod common;

use common::{chukelowa_in, Said};
use notation::{assemble_all, bundles, Source, Spare};
use second::answers::{deep, Judged, Lent, RESULT_ROWS, WORKING_ROWS};
use std::path::{Path, PathBuf};
use std::process::Stdio;

struct Case {
    folder: PathBuf,
    words: Vec<String>,
}

fn cases() -> Vec<Case> {
    let stored = Path::new(env!("CARGO_MANIFEST_DIR")).join("tests/wrong");
    let folders = std::fs::read_dir(stored).expect("the stored cases");
    let mut folders: Vec<PathBuf> = folders.map(|entry| entry.expect("an entry").path()).collect();
    folders.sort();
    folders.into_iter().map(|folder| Case { words: lines(&folder.join("words")), folder }).collect()
}

fn lines(file: &Path) -> Vec<String> {
    std::fs::read_to_string(file).expect("a file of the case").lines().map(str::to_string).collect()
}

impl Case {
    fn said(&self) -> Said {
        let out = match std::fs::read_to_string(self.folder.join("out")).as_deref() {
            Ok("full\n") => std::fs::File::options().write(true).open("/dev/full").expect("a full device").into(),
            Ok("closed pipe\n") => std::io::pipe().expect("a pipe").1.into(),
            _ => Stdio::piped(),
        };
        let words: Vec<&str> = self.words.iter().map(String::as_str).collect();
        let input = std::fs::read(self.folder.join("stdin")).unwrap_or_default();
        chukelowa_in(&self.folder, &words, &input, out)
    }

    /// The files that the words name.
    fn files(&self) -> Vec<Vec<u8>> {
        self.words.iter().skip(1).filter_map(|word| std::fs::read(self.folder.join(word)).ok()).collect()
    }

    /// The number behind an option's word.
    fn number(&self, option: &str) -> Option<u16> {
        let at = self.words.iter().position(|word| word == option)?;
        self.words[at + 1].parse().ok()
    }
}

#[test]
fn each_is_told_as_stored() {
    let cases = cases();
    assert!(cases.len() >= 60, "{} cases", cases.len());
    for case in cases {
        let said = case.said();
        let name = case.folder.display();
        let stored = |file: &str| std::fs::read_to_string(case.folder.join(file)).expect("a stored answer");
        assert_eq!(said.err, stored("stderr"), "{name}");
        assert_eq!(format!("{}\n", said.status), stored("status"), "{name}");
        assert!(said.out.is_empty(), "{name}: standard output is for results");
        assert!(said.err.lines().all(|line| line.chars().count() < 200), "{name}: a line of a message is too long");
    }
}

/// Reading and writing fail in one line.
#[test]
fn failures_are_one_line() {
    for case in cases() {
        let said = case.said();
        if said.err.starts_with("chukelowa: ") {
            assert_eq!((said.status, said.err.lines().count()), (2, 1), "{}", case.folder.display());
        }
    }
}

/// The number that is told is the second program's; a text that is refused without a number is none that it takes.
#[test]
fn the_second_program_says_the_same() {
    let mut compared = 0;
    for case in cases() {
        let said = case.said();
        if said.status == 1 {
            assert_eq!(said.refusal(), second_says(&case), "{}", case.folder.display());
            compared += 1;
        }
    }
    assert!(compared >= 60, "{compared} compared");
}

/// What the second program answers to the same question; none where the text is refused.
fn second_says(case: &Case) -> Option<u16> {
    let verb = case.words[0].clone();
    let named = case.words.iter().any(|word| word == "--type");
    let bundle = match &case.files()[..] {
        [bytes] if bytes.contains(&0) => bytes.clone(),
        texts => {
            let sources: Vec<Source> = texts.iter().map(|bytes| Source { name: "", bytes }).collect();
            let spare = Spare { script: verb == "fit", types: verb == "run" || named };
            bundles::to_bundle(&assemble_all(&sources, spare).ok()?.sheet)
        }
    };
    let lent = [("--work-rows", WORKING_ROWS), ("--result-rows", RESULT_ROWS)];
    let [work, result] = lent.map(|(option, rows)| case.number(option).map_or(rows, usize::from));
    let type_row = case.number("--type");
    deep(move || {
        let sheet = match second::bundles::read(&bundle) {
            Ok(sheet) => sheet,
            Err(refusal) => return Some(refusal.number()),
        };
        let (judged, lent) = (Judged::new(&sheet), Lent::new(work, result));
        let refusal = match &*verb {
            "check" => judged.check(lent).result.err(),
            "run" => judged.run(lent).result.err(),
            // A type that is named has the first name.
            "fit" => judged.fit(type_row.unwrap_or_else(|| if named { sheet.names[0] } else { sheet.a })).err(),
            _ => judged.apply(lent).result.err(),
        };
        refusal.map(|refusal| refusal.number())
    })
}
