//! `second compare` against itself and against a program that errs.
#![cfg(unix)]

use second::bundles::to_bundle;
use second::notation::assemble;
use std::os::unix::fs::PermissionsExt;
use std::path::{Path, PathBuf};
use std::process::{Command, Output};

const SECOND: &str = env!("CARGO_BIN_EXE_second");

/// A folder of its own for one test, with two cases in it.
fn cases(test: &str) -> PathBuf {
    let folder = PathBuf::from(env!("CARGO_TARGET_TMPDIR")).join(test);
    std::fs::create_dir_all(&folder).expect("a folder");
    let example = "labels a = 1, b = 2, c = 3, d = 4
        from a[b[]*, c[], b[]*], d[]
        to a[(b[], c[])*, c[], (b[], c[])*], d[]
        script iter [a? children [iter [b? right [insert c[]]]]]
        forest a[b[], c[], b[]], d[]";
    let sheet = assemble(example).expect("document 01's example");
    std::fs::write(folder.join("1.bundle"), to_bundle(&sheet)).expect("a bundle");
    std::fs::write(folder.join("1.args"), "6144 6\n").expect("lent rows");
    std::fs::write(folder.join("2.bundle"), "damaged").expect("a bundle");
    folder
}

/// A program that changes the answers of `second` by a `sed` command.
fn erring(folder: &Path, words: &str, change: &str) -> PathBuf {
    let path = folder.join("erring");
    let script = format!("#!/bin/sh\n{SECOND} {words} \"$@\" | sed '{change}'\n");
    std::fs::write(&path, script).expect("a script");
    let runnable = std::fs::Permissions::from_mode(0o755);
    std::fs::set_permissions(&path, runnable).expect("a script that can be run");
    path
}

fn compare(args: &[&str], folder: &Path) -> Output {
    let mut command = Command::new(SECOND);
    command.arg("compare").args(args).arg(folder);
    command.output().expect("second runs")
}

fn printed(output: &Output) -> String {
    String::from_utf8_lossy(&output.stdout).into()
}

#[test]
fn it_agrees_with_itself() {
    let folder = cases("itself");
    let answers = format!("{SECOND} answers");
    let apply = format!("{SECOND} apply");
    for args in [&[answers.as_str()][..], &["--apply", &apply]] {
        let output = compare(args, &folder);
        assert_eq!(printed(&output), "2 cases, 0 different\n");
        assert_eq!(output.status.code(), Some(0));
    }
}

#[test]
fn a_difference_is_shown_in_a_small_case() {
    let folder = cases("erring");
    let program = erring(&folder, "answers", "s/^run 13 /run 0 /");
    let output = compare(&[&program.to_string_lossy()], &folder);
    let report = printed(&output);
    assert_eq!(output.status.code(), Some(1));
    assert!(
        report.starts_with("2 cases, 1 different\ndifferent: 1\n"),
        "{report}"
    );
    assert!(
        report.contains("script\n  children [iter [right [insert l3[]]]]\n"),
        "{report}"
    );
    assert!(report.contains("second : run 13 "), "{report}");
    assert!(report.contains("program: run 0 "), "{report}");
}

#[test]
fn only_the_wanted_questions_are_compared() {
    let folder = cases("only");
    let program = erring(&folder, "answers", "s/^run /run 1/; s/^[0-9]/1&/");
    let program = program.to_string_lossy();
    let of = |only: &str| compare(&["--only", only, &program], &folder).status.code();
    assert_eq!(of("read,check,fit,apply"), Some(0));
    assert_eq!(of("read,run"), Some(1));
}

#[test]
fn a_refused_bundle_is_not_shrunk() {
    let folder = cases("refused");
    let program = erring(&folder, "answers", "s/^read 1/read 2/");
    let output = compare(&[&program.to_string_lossy()], &folder);
    assert!(
        printed(&output).contains("is refused"),
        "{}",
        printed(&output)
    );
    assert_eq!(output.status.code(), Some(1));
}

#[test]
fn what_cannot_be_done_is_said() {
    let folder = cases("cannot");
    let missing = folder.join("missing");
    let missing = missing.to_string_lossy();
    for args in [&[][..], &["--only"], &[&missing]] {
        let output = compare(args, &folder);
        assert_eq!(output.status.code(), Some(2));
        assert!(!output.stderr.is_empty());
    }
}

/// The one line of a call that is refused.
fn refused(args: &[&str], folder: &Path) -> String {
    let output = compare(args, folder);
    let line = String::from_utf8_lossy(&output.stderr).to_string();
    assert_eq!(output.status.code(), Some(2), "{line}");
    assert_eq!(
        (line.lines().count(), printed(&output)),
        (1, String::new()),
        "{line}"
    );
    line
}

#[test]
fn what_compares_nothing_is_refused() {
    let folder = cases("nothing");
    let answers = format!("{SECOND} answers");
    let apply = format!("{SECOND} apply");
    let line = refused(&["--only", "read,reed", &answers], &folder);
    assert!(
        line.contains("\"reed\" is unknown; there are read, check, fit, run, apply"),
        "{line}"
    );
    let line = refused(&["--apply", "--only", "read", &apply], &folder);
    assert!(
        line.contains("\"read\" is unknown; there are load, check, fit, run"),
        "{line}"
    );
    let line = refused(&["--onyl", "read", &answers], &folder);
    assert!(line.contains("there is no --onyl"), "{line}");
    let empty = folder.join("empty");
    std::fs::create_dir_all(&empty).expect("a folder");
    assert!(refused(&[&answers], &empty).contains("there is no case"));
    std::fs::write(empty.join("notes"), "no bundle").expect("a file");
    assert!(refused(&[&answers], &empty).contains("there is no case"));
    assert!(refused(&[" "], &folder).contains("usage"));
}
