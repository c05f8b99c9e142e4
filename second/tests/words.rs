//! The words of `second`: help for every command, one line and status 2 for what is not understood.

use std::process::{Command, Output};

fn second(words: &[&str]) -> Output {
    let mut command = Command::new(env!("CARGO_BIN_EXE_second"));
    command.args(words).stdin(std::process::Stdio::null());
    command.output().expect("second runs")
}

#[test]
fn every_command_has_its_help() {
    let all = second(&["--help"]);
    assert_eq!(all.status.code(), Some(0));
    let all = String::from_utf8_lossy(&all.stdout).to_string();
    let words = [
        "apply",
        "answers",
        "assemble",
        "list",
        "cases",
        "faults",
        "selfcheck",
        "splits",
        "compare",
    ];
    assert_eq!(all.matches("\n  second ").count(), words.len());
    for word in words {
        for flag in ["--help", "-h"] {
            let output = second(&[word, flag]);
            let text = String::from_utf8_lossy(&output.stdout).to_string();
            assert_eq!(output.status.code(), Some(0), "{word}");
            assert!(text.contains(&format!("\n  second {word}")), "{text}");
            assert_eq!(text.matches("\n  second ").count(), 1, "{text}");
            assert!(all.contains(text.trim_start_matches("usage:\n")), "{text}");
        }
    }
}

#[test]
fn what_is_not_understood_is_said_in_a_line() {
    for words in [
        &[][..],
        &["aply"],
        &["aply", "--help"],
        &["apply", "x"],
        &["answers", "1"],
        &["answers", "1", "x"],
        &["cases", "1"],
    ] {
        let output = second(words);
        assert_eq!(output.status.code(), Some(2), "{words:?}");
        let line = String::from_utf8_lossy(&output.stderr).to_string();
        assert_eq!(line.lines().count(), 1, "{line}");
        assert!(output.stdout.is_empty());
    }
}
