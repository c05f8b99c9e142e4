//! The user's files: text or bundles, one or several, as one sheet with a way back to each file's own lines.

use crate::messages::{shown, Mark, Message};
use crate::{bytes, calls, refusals, Trouble};
use notation::tables::Sheet;
use notation::{assemble_all, bundles, Assembled, Fault, Names, Places, Source, Spare};
use std::io::Read;
use std::path::{Path, PathBuf};

pub struct File {
    pub name: String,
    pub bytes: Vec<u8>,
}

impl File {
    /// A bundle has bytes 0 and a text has none.
    fn is_bundle(&self) -> bool {
        self.bytes.contains(&0)
    }
}

/// The files named, `-` being standard input, which is also read if none is named.
pub fn read_all(paths: &[PathBuf]) -> Result<Vec<File>, Trouble> {
    let standard = PathBuf::from("-");
    if paths.is_empty() {
        return Ok(vec![read(&standard)?]);
    }
    if paths.iter().filter(|path| **path == standard).count() > 1 {
        return Err(Trouble::Failed("`-` is there twice, and standard input can be read once".into()));
    }
    paths.iter().map(|path| read(path)).collect()
}

fn read(path: &Path) -> Result<File, Trouble> {
    let mut bytes = Vec::new();
    let (name, outcome) = match path.to_str() {
        Some("-") => ("standard input".into(), std::io::stdin().read_to_end(&mut bytes).map(|_| ())),
        _ => (path.display().to_string(), std::fs::read(path).map(|read| bytes = read)),
    };
    outcome.map_err(|error| Trouble::at(&name, &error))?;
    Ok(File { name, bytes })
}

/// What a question is asked about: the bundle that the proved calls are handed, its tables, its text and names.
pub struct Work {
    pub bundle: Vec<u8>,
    pub sheet: Sheet,
    pub files: Vec<File>,
    pub places: Places,
    pub names: Names,
}

pub fn load(files: Vec<File>, spare: Spare) -> Result<Work, Trouble> {
    let (mut bundles, mut texts): (Vec<File>, Vec<File>) = files.into_iter().partition(File::is_bundle);
    if let [_, second, ..] = &bundles[..] {
        let name = &second.name;
        let why = "a second bundle; which of them has the script cannot be seen: list one of them first";
        return Err(Trouble::Failed(format!("{name}: {why}")));
    }
    let Some(file) = bundles.pop() else {
        return of_texts(texts, spare);
    };
    let sheet = sheet_of(&file)?;
    let text = if texts.is_empty() { notation::list(&sheet) } else { among_texts(&file.name, sheet, &texts)? };
    let alone = texts.is_empty();
    texts.push(File { name: format!("{} (as listed)", file.name), bytes: text.into_bytes() });
    let work = of_texts(texts, spare)?;
    // A bundle alone is handed on as it is; its text is there for the messages.
    Ok(if alone { Work { bundle: file.bytes, ..work } } else { work })
}

fn of_texts(files: Vec<File>, spare: Spare) -> Result<Work, Trouble> {
    let Assembled { sheet, places, names } = assembled(&files, spare)?;
    match calls::write(&bundles::encode(&sheet)) {
        Ok(bundle) => Ok(Work { bundle, sheet, files, places, names }),
        Err(reply) => Err(Trouble::Refused(refusals::of_text(&files, &sheet, &places, reply))),
    }
}

fn assembled(files: &[File], spare: Spare) -> Result<Assembled, Trouble> {
    let sources: Vec<Source> = files.iter().map(|file| Source { name: &file.name, bytes: &file.bytes }).collect();
    assemble_all(&sources, spare).map_err(|faults| {
        let messages: Vec<Message> = faults.into_iter().map(told).collect();
        Trouble::Refused(shown(files, &messages))
    })
}

/// What the notation says of a text.
fn told(fault: Fault) -> Message {
    let marks = vec![Mark::new(fault.place, "")];
    let mut notes: Vec<String> = fault.hint.into_iter().collect();
    if fault.message.starts_with("there is no `") {
        notes.push("where another file has it, name that file too".into());
    }
    Message { text: fault.message, marks, notes, ..Message::default() }
}

fn sheet_of(file: &File) -> Result<Sheet, Trouble> {
    match calls::read(&file.bytes) {
        Ok(tables) => Ok(bundles::decode(&tables).expect("the reader wrote whole tables")),
        Err(reply) if reply.number == 1 => {
            Err(Trouble::Refused(refusals::of_blocks(&file.name, &bytes::fault(&file.bytes))))
        }
        Err(reply) => {
            let sheet = bundles::unframe(&file.bytes).expect("the reader found no fault in the blocks");
            Err(Trouble::Refused(refusals::of_tables(&file.name, &sheet, reply)))
        }
    }
}

/// Of a bundle among texts what none of them has, as a text with the names of their labels.
fn among_texts(name: &str, mut sheet: Sheet, texts: &[File]) -> Result<String, Trouble> {
    let sections: Vec<&str> = texts.iter().flat_map(|file| notation::outline(&file.bytes)).collect();
    let labels = assembled(texts, Spare { script: true, types: true })?.names.labels;
    let names = Names { labels, ..Names::default() };
    match (sections.contains(&"script"), sections.contains(&"forest")) {
        (true, true) => {
            let why = "the other files have a script and a description already, so this bundle has nothing to give";
            Err(Trouble::Failed(format!("{name}: {why}")))
        }
        (true, false) => Ok(notation::list_forest(&sheet, &names)),
        (false, false) => Ok(notation::list_named(&sheet, &names)),
        (false, true) => {
            (sheet.forest, sheet.root) = (Vec::new(), 0);
            Ok(notation::list_script(&sheet, &names))
        }
    }
}
