//! Where something was written, and what is wrong there.

use std::fmt;

/// A part of a source: the source by its index, and its bytes from `start` to before `end`.
#[derive(Clone, Copy, Debug, Default, PartialEq, Eq, PartialOrd, Ord, Hash)]
pub struct Place {
    pub file: usize,
    pub start: usize,
    pub end: usize,
}

impl Place {
    pub(crate) fn fault(self, message: impl Into<String>) -> Fault {
        Fault {
            place: self,
            message: message.into(),
            hint: None,
        }
    }

    /// From here to the end of another part of the same source.
    pub(crate) fn to(self, last: Place) -> Place {
        Place {
            end: last.end.max(self.start),
            ..self
        }
    }
}

/// Why a text is refused, where, and what may help; each said in one line.
#[derive(Clone, Debug, PartialEq, Eq)]
pub struct Fault {
    pub place: Place,
    pub message: String,
    pub hint: Option<String>,
}

impl Fault {
    pub(crate) fn hint(self, hint: impl Into<String>) -> Fault {
        Fault {
            hint: Some(hint.into()),
            ..self
        }
    }
}

/// The message, with its hint behind it.
impl fmt::Display for Fault {
    fn fmt(&self, f: &mut fmt::Formatter) -> fmt::Result {
        f.write_str(&self.message)?;
        match &self.hint {
            Some(hint) => write!(f, " ({hint})"),
            None => Ok(()),
        }
    }
}

impl std::error::Error for Fault {}

/// No message shows more of a text than this.
const SHOWN: usize = 40;

/// A word of the text as a message shows it.
pub(crate) fn shown(word: &str) -> String {
    match word.char_indices().nth(SHOWN) {
        Some((end, _)) => format!("`{}…`", &word[..end]),
        None => format!("`{word}`"),
    }
}

pub(crate) const BYTE_ORDER_MARK: &str = "\u{feff}";

/// The line and column of a byte, both from 1; columns count characters, and a byte order mark is none.
pub fn line_and_column(bytes: &[u8], offset: usize) -> (usize, usize) {
    let before = &bytes[..offset.min(bytes.len())];
    let before = before
        .strip_prefix(BYTE_ORDER_MARK.as_bytes())
        .unwrap_or(before);
    let line_start = before
        .iter()
        .rposition(|byte| *byte == b'\n')
        .map_or(0, |at| at + 1);
    let lines = before.iter().filter(|byte| **byte == b'\n').count();
    let column = String::from_utf8_lossy(&before[line_start..])
        .chars()
        .count();
    (lines + 1, column + 1)
}
