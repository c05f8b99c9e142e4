//! Every command of the pages prints what the page says.

mod common;

use common::{folder, root};
use std::path::{Path, PathBuf};
use std::process::Command;

/// The commands of a page, each with the lines below it.
fn commands(page: &str) -> Vec<(String, String)> {
    let mut commands: Vec<(String, String)> = Vec::new();
    let (mut fenced, mut shown) = (false, false);
    for line in page.lines() {
        if line.starts_with("```") {
            (fenced, shown) = (!fenced, false);
        } else if let Some(command) = line.strip_prefix("$ ").filter(|_| fenced) {
            commands.push((command.into(), String::new()));
            shown = true;
        } else if shown {
            let (_, wanted) = commands.last_mut().expect("a command");
            wanted.push_str(line);
            wanted.push('\n');
        }
    }
    commands
}

/// A file or folder, copied: `rt ci` refuses links, also those of a test.
fn copy(from: &Path, to: &Path) {
    let copied = Command::new("cp").arg("-R").args([from, to]).status().expect("cp runs");
    assert!(copied.success(), "{} is copied", from.display());
}

/// A folder in which the page's commands find what they name: the repository's folders, the archive and the command.
fn place(name: &str) -> PathBuf {
    let place = folder(name);
    let program = Path::new(env!("CARGO_BIN_EXE_chukelowa"));
    let archive = std::env::var_os("CHUKELOWA_ARCHIVE").map_or(root().join("target/c"), PathBuf::from);
    std::fs::create_dir(place.join("target")).expect("a folder");
    for (from, to) in [
        (root().join("examples"), "examples"),
        (root().join("include"), "include"),
        (archive, "target/c"),
        (program.into(), "chukelowa"),
    ] {
        copy(&from, &place.join(to));
    }
    place
}

fn assert_true(page: &str, least: usize) {
    let text = std::fs::read_to_string(root().join(page)).expect("the page");
    let commands = commands(&text);
    assert!(commands.len() >= least, "{page}: {} commands", commands.len());
    let place = place(&page.replace(['/', '.'], "-"));
    if let Some((_, program)) = text.split_once("```c\n") {
        let (program, _) = program.split_once("```").expect("its end");
        std::fs::write(place.join("applied.c"), program).expect("the page's program");
    }
    let path = format!("{}:{}", place.display(), std::env::var("PATH").expect("a path"));
    for (command, wanted) in commands {
        // What is shown of a file that no command made is the file.
        if let Some(file) = command.strip_prefix("cat ").map(|file| place.join(file)).filter(|file| !file.exists()) {
            std::fs::write(file, &wanted).expect("the page's file");
            continue;
        }
        let mut shell = Command::new("sh");
        let shell = shell.args(["-c", &format!("exec 2>&1; {command}")]).current_dir(&place).env("PATH", &path);
        let output = shell.output().expect("the shell ends");
        assert_eq!(String::from_utf8_lossy(&output.stdout), wanted, "{page}: {command}");
    }
}

#[test]
fn the_readme_is_true() {
    assert_true("README.md", 2);
}

#[test]
fn the_page_of_the_command_is_true() {
    assert_true("docs/COMMAND.md", 13);
}

#[test]
fn the_page_for_script_writers_is_true() {
    assert_true("docs/SCRIPTS.md", 9);
}

#[test]
fn the_page_for_callers_in_c_is_true() {
    assert_true("docs/C.md", 3);
}
