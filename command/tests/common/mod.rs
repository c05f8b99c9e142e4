//! The command, started on words and standard input.

#![allow(dead_code)] // each test file uses a part

use std::io::Write;
use std::path::{Path, PathBuf};
use std::process::{Command, Stdio};

#[derive(Debug, PartialEq, Eq)]
pub struct Said {
    pub status: i32,
    pub out: Vec<u8>,
    pub err: String,
}

impl Said {
    pub fn text(&self) -> &str {
        std::str::from_utf8(&self.out).expect("text on standard output")
    }

    /// The number of the refusal that is told, if a call refused.
    pub fn refusal(&self) -> Option<u16> {
        let code = self.err.strip_prefix("error[")?;
        code.split(' ').next()?.parse().ok()
    }
}

pub fn root() -> PathBuf {
    Path::new(env!("CARGO_MANIFEST_DIR")).join("..").canonicalize().expect("the repository")
}

/// Starts the command in the repository's root.
pub fn chukelowa(words: &[&str], input: &[u8]) -> Said {
    chukelowa_in(&root(), words, input, Stdio::piped())
}

pub fn chukelowa_in(folder: &Path, words: &[&str], input: &[u8], out: Stdio) -> Said {
    let mut command = Command::new(env!("CARGO_BIN_EXE_chukelowa"));
    let command = command.args(words).current_dir(folder);
    let mut child =
        command.stdin(Stdio::piped()).stdout(out).stderr(Stdio::piped()).spawn().expect("the command starts");
    // It may end before it has read all of it.
    let _ = child.stdin.take().expect("a pipe").write_all(input);
    let output = child.wait_with_output().expect("the command ends");
    Said {
        status: output.status.code().expect("no signal"),
        out: output.stdout,
        err: String::from_utf8(output.stderr).expect("text on standard error"),
    }
}

/// A folder of its own for a test's files, empty.
pub fn folder(name: &str) -> PathBuf {
    let folder = Path::new(env!("CARGO_TARGET_TMPDIR")).join(name);
    let _ = std::fs::remove_dir_all(&folder);
    std::fs::create_dir_all(&folder).expect("a folder for the test");
    folder
}
