//! Files, forms and exit statuses; what is expected is written by hand from docs/NOTATION.md.

mod common;

use common::{chukelowa, folder, root};

const COSTED: &str = r#"labels machine = 1, name = 2, pattern = 3, op = 4, operand = 5, emit = 6, cost = 7
forest
  machine[
    name["tiny"],
    pattern[op["load"], operand["reg"], operand["mem"], emit["ld $1, $2"], cost["3"]],
    pattern[op["add"], operand["reg"], operand["reg"], emit["add $1, $2"], cost["1"]],
    pattern[op["halt"], emit["hlt"], cost["1"]]
  ]
"#;

/// A script that takes the costs off again; its labels have other numbers.
const CHEAP: &str = r#"labels cost = 1, emit = 2, operand = 3, op = 4, pattern = 5, name = 6, machine = 7
type Costed = pattern[op[text], operand[text]*, emit[text], cost[text]]
type Pattern = pattern[op[text], operand[text]*, emit[text]]
from machine[name[text], Costed*]
to machine[name[text], Pattern*]
script children [iter [pattern? children [iter [cost? delete]]]]
"#;

/// new-cost.flux in three files: types with labels, script, description with labels of other numbers.
fn three_files(name: &str) -> [String; 3] {
    let text = std::fs::read_to_string(root().join("examples/new-cost.flux")).expect("the example");
    let (types, rest) = text.split_once("script\n").expect("a script");
    let (script, forest) = rest.split_once("forest\n").expect("a forest");
    let folder = folder(name);
    let file = |name: &str, text: String| {
        let path = folder.join(name);
        std::fs::write(&path, text).expect("a file");
        path.to_str().expect("a name").to_string()
    };
    let labels = "labels emit = 1, pattern = 2, machine = 6, name = 7, op = 9, operand = 8";
    [
        file("types.flux", types.into()),
        file("script.flux", format!("script\n{script}")),
        file("description.flux", format!("{labels}\nforest\n{forest}")),
    ]
}

#[test]
fn the_edited_description_by_name() {
    let said = chukelowa(&["apply", "examples/new-cost.flux"], b"");
    assert_eq!((said.status, said.text(), &*said.err), (0, COSTED, ""));
    let split = r#"labels pattern = 2, op = 3, slow = 4, emit = 5, plain-list = 6, slow-list = 7
forest
  plain-list[
    pattern[op["add"], slow[false], emit["add $1, $2"]],
    pattern[op["sub"], slow[false], emit["sub $1, $2"]]
  ],
  slow-list[pattern[op["div"], slow[true], emit["call divide"]]]
"#;
    assert_eq!(chukelowa(&["apply", "examples/split-patterns.flux"], b"").text(), split);
    assert_eq!(chukelowa(&["run", "examples/split-patterns.flux"], b"").text(), split);
}

#[test]
fn separate_files_in_any_order() {
    let [types, script, description] = &three_files("any-order");
    for order in [
        [types, script, description],
        [types, description, script],
        [script, types, description],
        [script, description, types],
        [description, types, script],
        [description, script, types],
    ] {
        let said = chukelowa(&["apply", order[0], order[1], order[2]], b"");
        assert_eq!((said.status, said.text(), &*said.err), (0, COSTED, ""), "{order:?}");
    }
    let text = std::fs::read(description).expect("the description");
    assert_eq!(chukelowa(&["apply", "-", script, types], &text).text(), COSTED);
    let said = chukelowa(&["check", script, types], b"");
    assert_eq!((said.status, said.text()), (0, "done: the script takes `from` into `to` (58 of 4096 units)\n"));
}

#[test]
fn the_next_script_takes_what_apply_prints() {
    let folder = folder("next-script");
    let next = folder.join("next.flux");
    std::fs::write(&next, CHEAP).expect("a file");
    let next = next.to_str().expect("a name");
    let costed = chukelowa(&["apply", "examples/new-cost.flux"], b"").out;
    let said = chukelowa(&["apply", next, "-"], &costed);
    let wanted = r#"labels emit = 2, operand = 3, op = 4, pattern = 5, name = 6, machine = 7
forest
  machine[
    name["tiny"],
    pattern[op["load"], operand["reg"], operand["mem"], emit["ld $1, $2"]],
    pattern[op["add"], operand["reg"], operand["reg"], emit["add $1, $2"]],
    pattern[op["halt"], emit["hlt"]]
  ]
"#;
    assert_eq!((said.status, said.text(), &*said.err), (0, wanted, ""));
}

/// Labels go by name: the script's numbers stay, and a number that is taken is replaced.
#[test]
fn labels_of_several_files() {
    let folder = folder("labels");
    let script = folder.join("script.flux");
    std::fs::write(&script, "labels a = 1, c = 3\nscript skip\n").expect("a file");
    let script = script.to_str().expect("a name");
    let run = |description: &str| chukelowa(&["run", "-", script], description.as_bytes());
    let said = run("labels b = 1, a = 3, d = 9\nforest a[b[], d[]]");
    assert_eq!((said.text(), &*said.err), ("labels a = 1, b = 2, d = 9\nforest\n  a[b[], d[]]\n", ""));
    let said = run("labels b = 1,
  b = 2
forest b[]");
    assert!(
        said.status == 1 && said.err.contains("label `b`") && said.err.contains("--> standard input:2:3"),
        "{}",
        said.err
    );
    let said = run("labels b = 2000
forest b[]");
    assert!(
        said.status == 1 && said.err.contains("labels go from 0") && said.err.contains("--> standard input:1:12"),
        "{}",
        said.err
    );
}

#[test]
fn texts_are_written_so_that_they_are_read() {
    let text = r#"script skip forest "\"\\\t\n\r\x00\xff é ☃ #", "", true"#;
    let wanted = "forest\n  \"\\\"\\\\\\t\\n\\r\\x00\\xff é \\xe2\\x98\\x83 #\",\n  \"\",\n  true\n";
    let said = chukelowa(&["run"], text.as_bytes());
    assert_eq!((said.text(), &*said.err), (wanted, ""));
    assert_eq!(chukelowa(&["run"], format!("script skip {wanted}").as_bytes()).text(), wanted);
}

#[test]
fn a_bundle_is_taken_where_text_is() {
    let [types, script, description] = &three_files("bundle-for-text");
    let whole = chukelowa(&["assemble", types, script, description], b"").out;
    let costed = chukelowa(&["apply"], &whole);
    assert_eq!((costed.status, &*costed.err), (0, ""));
    assert!(costed.text().contains("l7[\"3\"]"), "{}", costed.text());
    // The bundle for the script, the text for the description; their numbers are the same.
    let scripted = chukelowa(&["assemble", types, script], b"").out;
    let tiny =
        b"labels machine = 1, name = 2, pattern = 3, op = 4, operand = 5, emit = 6\nforest machine[name[\"x\"]]\n";
    let folder = folder("bundle-and-text");
    let (bundle, text) = (folder.join("script.bundle"), folder.join("tiny.flux"));
    std::fs::write(&bundle, scripted).expect("a bundle");
    std::fs::write(&text, tiny).expect("a text");
    let (bundle, text) = (bundle.to_str().expect("a name"), text.to_str().expect("a name"));
    let said = chukelowa(&["apply", text, bundle], b"");
    let wanted = "labels machine = 1, name = 2\nforest\n  machine[name[\"x\"]]\n";
    assert_eq!((said.status, said.text(), &*said.err), (0, wanted, ""));
    // The bundle for the description, the texts for the script.
    let described = chukelowa(&["apply", types, script, description, "--bundle"], b"").out;
    let cheap = folder.join("cheap.flux");
    let labels = "labels machine = 1, name = 2, pattern = 3, op = 4, operand = 5, emit = 6, cost = 7";
    std::fs::write(&cheap, CHEAP.replacen(CHEAP.lines().next().expect("a line"), labels, 1)).expect("a text");
    let said = chukelowa(&["apply", cheap.to_str().expect("a name"), "-"], &described);
    assert_eq!((said.status, &*said.err), (0, ""));
    assert!(!said.text().contains("cost") && said.text().contains("emit[\"hlt\"]"), "{}", said.text());
    // Which of two bundles has the script cannot be seen.
    assert_eq!(chukelowa(&["apply", bundle, "-"], &described).status, 2);
}

#[test]
fn fit_names_its_type() {
    let fit = |words: &[&str]| chukelowa(&[&["fit", "examples/new-cost.flux"], words].concat(), b"").status;
    assert_eq!(fit(&[]), 0);
    assert_eq!(fit(&["--type", "A"]), 0);
    assert_eq!(fit(&["--type", "B"]), 1);
    assert_eq!(fit(&["--type", "Pattern"]), 1);
    assert_eq!(fit(&["--type", "Nothing"]), 2);
    let one = b"labels a = 1 type X = a[text] forest a[\"x\"]";
    assert_eq!(chukelowa(&["fit", "--type", "X"], one).status, 0);
    assert_eq!(chukelowa(&["run"], b"labels a = 1 script delete forest a[]").text(), "forest\n  ()\n");
}

#[test]
fn the_difference() {
    let wanted = r#"--- before
+++ after
@@ -1,6 +1,6 @@
   machine[
     name["tiny"],
-    pattern[op["load"], operand["reg"], operand["mem"], emit["ld $1, $2"]],
-    pattern[op["add"], operand["reg"], operand["reg"], emit["add $1, $2"]],
-    pattern[op["halt"], emit["hlt"]]
+    pattern[op["load"], operand["reg"], operand["mem"], emit["ld $1, $2"], cost["3"]],
+    pattern[op["add"], operand["reg"], operand["reg"], emit["add $1, $2"], cost["1"]],
+    pattern[op["halt"], emit["hlt"], cost["1"]]
   ]
"#;
    assert_eq!(chukelowa(&["diff", "examples/new-cost.flux"], b"").text(), wanted);
    assert_eq!(chukelowa(&["diff"], b"from () to () script skip").text(), "");
}
