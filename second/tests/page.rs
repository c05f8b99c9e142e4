//! What docs/NOTATION.md says is so: its commands print what it shows, and its limits stand where it says.
#![cfg(unix)]

use second::answers::apply_listing;
use second::bundles::to_bundle;
use second::notation::assemble;
use std::path::{Path, PathBuf};
use std::process::Command;

const SECOND: &str = env!("CARGO_BIN_EXE_second");

/// A file of the repository.
fn file(path: &str) -> PathBuf {
    Path::new(env!("CARGO_MANIFEST_DIR")).join("..").join(path)
}

fn text(path: &str) -> String {
    std::fs::read_to_string(file(path)).expect("a file of the repository")
}

/// The commands of the page, each with the lines below it.
fn commands(page: &str) -> Vec<(String, String)> {
    let mut commands: Vec<(String, String)> = Vec::new();
    for block in page.split("```").skip(1).step_by(2) {
        let mut shown = false;
        for line in block.lines().skip(1) {
            match (line.strip_prefix("$ "), commands.last_mut()) {
                (Some(command), _) => {
                    shown = true;
                    commands.push((command.into(), String::new()));
                }
                (None, Some((_, below))) if shown => *below += &format!("{line}\n"),
                _ => {}
            }
        }
    }
    commands
}

#[test]
fn the_commands_print_what_is_shown() {
    let folder = PathBuf::from(env!("CARGO_TARGET_TMPDIR")).join("page");
    drop(std::fs::remove_dir_all(&folder));
    std::fs::create_dir_all(&folder).expect("a folder");
    // A copy and no link: `rt ci` refuses links, also those of a test.
    let copied = Command::new("cp")
        .arg("-R")
        .args([file("examples"), folder.join("examples")])
        .status();
    assert!(copied.expect("cp runs").success());
    let mut tried = 0;
    for (command, shown) in commands(&text("docs/NOTATION.md")) {
        // What makes cases and compares them is tried in tests/compare.rs.
        if command.starts_with("second cases") || command.starts_with("second compare") {
            continue;
        }
        let script = format!("second() {{ {SECOND} \"$@\"; }}; {{ {command}; }} 2>&1");
        let output = Command::new("sh")
            .args(["-c", &script])
            .current_dir(&folder)
            .output();
        let output = output.expect("sh runs");
        assert_eq!(String::from_utf8_lossy(&output.stdout), shown, "{command}");
        tried += 1;
    }
    assert_eq!(tried, 10);
}

/// The number of the last question in the listing, 0 for done.
fn last_answer(text: &str) -> u16 {
    let sheet = assemble(text).unwrap_or_else(|error| panic!("{error}"));
    let listing = apply_listing(&to_bundle(&sheet));
    let mut questions = listing
        .lines()
        .filter(|line| line.starts_with(char::is_alphabetic));
    let last = questions.next_back().expect("an answer");
    let number = last.split(' ').nth(1).and_then(|word| word.parse().ok());
    number.expect("a number")
}

/// An example with another forest.
fn with_forest(example: &str, forest: &str) -> String {
    let text = text(&format!("examples/{example}.flux"));
    let (script, _) = text.split_once("\nforest").expect("a forest");
    format!("{script}\nforest {forest}")
}

fn machine(patterns: usize, operands: usize) -> String {
    let operands = "operand[\"reg\"], ".repeat(operands);
    let pattern = format!("pattern[op[\"add\"], {operands}emit[\"add\"]]");
    let patterns = vec![pattern; patterns].join(", ");
    with_forest("new-cost", &format!("machine[name[\"tiny\"], {patterns}]"))
}

fn address(levels: usize) -> String {
    let (open, close) = ("mem[".repeat(levels), "]".repeat(levels));
    let operand = format!("{open}reg[\"acc\"]{close}");
    with_forest(
        "rename-register",
        &format!("block[insn[op[\"x\"], operands[{operand}]]]"),
    )
}

fn steps(count: usize) -> String {
    vec!["skip"; count].join("; ")
}

#[test]
fn the_limits_stand_where_the_page_says() {
    const FUEL: u16 = 5;
    const DEPTH: u16 = 6;
    assert_eq!(
        (last_answer(&machine(120, 2)), last_answer(&machine(121, 2))),
        (0, FUEL)
    );
    assert_eq!(
        (last_answer(&machine(100, 1)), last_answer(&machine(125, 1))),
        (0, FUEL)
    );
    assert_eq!(
        (last_answer(&address(36)), last_answer(&address(37))),
        (0, DEPTH)
    );
    let script = |script: &str| last_answer(&format!("from () to bool* script {script}"));
    assert_eq!((script(&steps(200)), script(&steps(201))), (0, DEPTH));
    assert_eq!(script(&format!("({}); ({})", steps(120), steps(120))), 0);
    let trues = |count: usize| script(&format!("insert {}", vec!["true"; count].join(", ")));
    assert_eq!((trues(199), trues(200)), (0, DEPTH));
    let trees = |count: usize| {
        let trees = vec!["a[]"; count].join(", ");
        assemble(&format!("from () to () script insert {trees}")).is_ok()
    };
    assert!(trees(170) && !trees(172));
}

/// Two parts of a description, each edited, have as many rows for patterns as the whole one edited.
#[test]
fn a_description_may_be_cut() {
    let rows = |text: &str| {
        apply_listing(&to_bundle(&assemble(text).expect("a sheet")))
            .lines()
            .count()
    };
    let head = rows(&machine(0, 2).replace(", ]", "]"));
    assert_eq!(
        rows(&machine(100, 2)) - head,
        rows(&machine(60, 2)) - head + rows(&machine(40, 2)) - head
    );
}

/// The ways round that the page names pass the check and give what they should.
#[test]
fn the_ways_round_are_ways() {
    let inserted = |query: &str| {
        let text = format!(
            "labels yes, no from () to (yes[] | no[])
             script let t = true in let f = false in insert if {query} then yes[] else no[]"
        );
        let listing = apply_listing(&to_bundle(&assemble(&text).expect("a sheet")));
        listing.lines().last().expect("a row").to_string()
    };
    let (yes, no) = ("1 4 1 0 0", "1 4 2 0 0");
    assert_eq!(inserted("if t then false else true"), no);
    assert_eq!(inserted("if f then false else true"), yes);
    assert_eq!(inserted("if t then f else false"), no);
    assert_eq!(inserted("if t then t else false"), yes);
    assert_eq!(inserted("if f then true else f"), no);
    assert_eq!(inserted("if f then true else t"), yes);
    let parameters = "type Names = names[old[text], new[text]]
        procedure renamed(names: Names) from text to text =
          snapshot held in
          let old = for p in names return for o in children(p) :: old return children(o) in
          let new = for p in names return for n in children(p) :: new return children(n) in
          if held = old then (delete; insert new) else skip
        from reg[text]* to reg[text]*
        script iter [children [renamed(names[old[\"acc\"], new[\"r0\"]])]]
        forest reg[\"acc\"]";
    assert_eq!(last_answer(parameters), 0);
    assert_eq!(
        last_answer(
            "from bool to bool script snapshot x in if x then skip else delete forest true"
        ),
        9
    );
    assert_eq!(
        last_answer(
            "from bool to bool? script snapshot x in if x then skip else delete forest true"
        ),
        0
    );
}

/// The paper's updates, written out, do what the paper says.
#[test]
fn the_papers_updates_are_written_out() {
    let rows = [
        ("left [insert e[]]", "m[e[], n[k[]], x[]]"),
        ("right [insert e[]]", "m[n[k[]], e[], x[]]"),
        ("children [left [insert e[]]]", "m[n[e[], k[]], x[]]"),
        ("children [right [insert e[]]]", "m[n[k[], e[]], x[]]"),
        ("delete", "m[x[]]"),
        ("children [delete]", "m[n[], x[]]"),
        ("rename e", "m[e[k[]], x[]]"),
        ("(delete; insert e[])", "m[e[], x[]]"),
        ("children [delete; insert e[]]", "m[n[e[]], x[]]"),
    ];
    let page = text("docs/NOTATION.md");
    let labels = "labels m, n, k, x, e";
    for (update, result) in rows {
        let script = format!("children [iter [n? {update}]]");
        let written = script.replace("e[]", "e").replace("rename e", "rename m");
        assert!(page.contains(&format!("| `{written}` |")), "{written}");
        let types = "from m[n[k[]], x[]] to m[(n[(k[] | e[])*] | e[k[]?] | x[])*]";
        let text = format!("{labels} {types} script {script} forest m[n[k[]], x[]]");
        let listing = apply_listing(&to_bundle(&assemble(&text).expect("a sheet")));
        let found: Vec<&str> = listing.lines().skip(3).collect();
        let wanted = assemble(&format!(
            "{labels} from () to () script skip forest {result}"
        ));
        let wanted = wanted.expect("a sheet").forest;
        let wanted = (1..)
            .zip(wanted)
            .map(|(n, [kind, p, q, next])| format!("{n} {kind} {p} {q} {next}"));
        assert_eq!(
            found,
            wanted.collect::<Vec<String>>(),
            "{update}: {listing}"
        );
    }
}
