//! The manual page, the completions, help and version: all made of one command line.

mod common;

use common::{chukelowa, folder};
use std::process::Command;

/// The verbs and their options, by hand.
const VERBS: [(&str, &[&str]); 10] = [
    ("check", &["work-rows"]),
    ("apply", &["output", "rows", "bundle", "work-rows", "result-rows"]),
    ("fit", &["type"]),
    ("run", &["output", "rows", "bundle", "work-rows", "result-rows"]),
    ("diff", &["output", "work-rows", "result-rows"]),
    ("assemble", &["output"]),
    ("list", &["output"]),
    ("explain", &[]),
    ("completions", &[]),
    ("manual", &[]),
];

#[test]
fn help_and_version_of_each_verb() {
    let whole = chukelowa(&["--help"], b"");
    for (verb, options) in VERBS {
        assert!(whole.text().contains(&format!("\n  {verb} ")), "{verb}");
        let help = chukelowa(&[verb, "--help"], b"");
        assert_eq!((help.status, &*help.err, help.text()), (0, "", chukelowa(&["help", verb], b"").text()), "{verb}");
        for option in options {
            assert!(help.text().contains(&format!("--{option} ")), "{verb}: {option}");
        }
        let version = chukelowa(&[verb, "--version"], b"");
        assert!(version.status == 0 && version.text().starts_with(&format!("chukelowa-{verb} ")), "{}", version.text());
    }
    assert!(chukelowa(&["-V"], b"").text().starts_with("chukelowa "));
}

#[test]
fn the_manual_has_every_verb_and_option() {
    let page = chukelowa(&["manual"], b"");
    for (verb, options) in VERBS {
        let (_, rest) = page.text().split_once(&format!("\n.SS {verb}\n")).expect("the verb");
        let section = rest.split("\n.S").next().expect("its section");
        for option in options {
            let shown = format!("\\-\\-{}\\fR", option.replace('-', "\\-"));
            assert!(section.contains(&shown), "{verb}: {option}");
        }
    }
    assert!(page.text().lines().all(|line| line.len() <= 80));
}

/// As mandoc reads it, where there is one.
#[test]
fn the_manual_is_well_formed() {
    let file = folder("manual").join("chukelowa.1");
    std::fs::write(&file, chukelowa(&["manual"], b"").out).expect("a file");
    match Command::new("mandoc").args(["-Tlint", "-Wwarning"]).arg(&file).output() {
        Ok(output) => assert!(output.status.success() && output.stdout.is_empty(), "{output:?}"),
        Err(_) => println!("this machine has no mandoc"),
    }
}

/// Each shell's script has the verbs; bash reads its own.
#[test]
fn completions_of_each_shell() {
    for shell in ["bash", "elvish", "fish", "powershell", "zsh"] {
        let script = chukelowa(&["completions", shell], b"");
        assert!(script.status == 0 && VERBS.iter().all(|(verb, _)| script.text().contains(verb)), "{shell}");
    }
    let file = folder("completions").join("chukelowa.bash");
    std::fs::write(&file, chukelowa(&["completions", "bash"], b"").out).expect("a file");
    let asked = format!(
        "source {}; COMP_WORDS=(chukelowa app); COMP_CWORD=1; _chukelowa chukelowa app chukelowa; echo $COMPREPLY",
        file.display()
    );
    let output = Command::new("bash").args(["-c", &asked]).output().expect("bash");
    assert_eq!(String::from_utf8_lossy(&output.stdout), "apply\n", "{output:?}");
}
