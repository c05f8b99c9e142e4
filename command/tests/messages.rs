//! Where refusals of the stored examples are placed, by hand; and the examples that `explain` shows.

mod common;

use common::{chukelowa, root};

#[test]
fn other_bytes_that_are_right() {
    let crlf = "labels a = 1\r\nfrom a[] to a[]\r\nscript skip\r\n";
    assert_eq!(chukelowa(&["check"], crlf.as_bytes()).status, 0);
    assert_eq!(chukelowa(&["check"], "\u{feff}from () to () script skip".as_bytes()).status, 0);
}

/// Places in stored examples, by hand: the message, and the file's line and column.
#[test]
fn places_in_the_worked_examples() {
    for (name, place, wanted) in [
        ("order-bodies", "13:3", "error[8 Mismatch]: `rename`"),
        ("mismatch-else", "11:26", "error[8 Mismatch]: `rename`"),
        ("mismatch-insert", "11:3", "error[8 Mismatch]: `insert`"),
        ("not-included-focus", "16:3", "error[9 Not included]: the focus at the call of `kept`"),
        ("not-included-first", "14:3", "error[9 Not included]: `kept`'s first argument"),
        ("not-included-second", "14:3", "error[9 Not included]: `kept`'s second argument"),
        ("order-arguments", "14:19", "error[8 Mismatch]: each side of `=`"),
        ("not-included-body", "12:6", "error[9 Not included]: what procedure `made`"),
        ("wide-body", "10:6", "error[7 Wide]: the type of what procedure `made`"),
        ("wide-same-left", "18:48", "error[7 Wide]"),
        ("P7-reversed", "6:4", "error[9 Not included]: what the script"),
        ("recursion", "11:3", "error[6 Depth]: the run"),
        ("nested-201", "22:3", "error[6 Depth]: the check"),
        ("deep-query-201", "11:10", "error[6 Depth]: the check"),
        ("deep-iter", "25:9", "error[6 Depth]: the check"),
    ] {
        let file = format!("examples/worked/{name}.flux");
        let said = chukelowa(&["apply", &file], b"");
        assert!(said.err.starts_with(wanted), "{name}: {}", said.err);
        let first = said.err.lines().nth(1).expect("a place").trim();
        assert_eq!(first, format!("--> {file}:{place}"), "{name}: {}", said.err);
    }
}

/// Every refusal's example is refused so by the words that `explain` tells. 1 is for bytes, which no text has.
#[test]
fn explained_examples() {
    for number in 1..=13 {
        let word = number.to_string();
        let shown = chukelowa(&["explain", &word], b"");
        assert_eq!((shown.status, &*shown.err), (0, ""), "{number}");
        assert!(shown.text().starts_with(&format!("{number} ")), "{}", shown.text());
        let Some((_, rest)) = shown.text().split_once("refused so by `chukelowa ") else {
            assert_eq!(number, 1, "an example is wanted");
            continue;
        };
        let (words, example) = rest.split_once("`:\n\n").expect("the example");
        let text: String =
            example.lines().map(|line| line.strip_prefix("    ").unwrap_or(line).to_string() + "\n").collect();
        let file = root().join(format!("command/explain/{number}.flux"));
        assert_eq!(text, std::fs::read_to_string(file).expect("the example"), "{number}");
        let said = chukelowa(&words.split(' ').collect::<Vec<_>>(), text.as_bytes());
        assert_eq!((said.status, said.refusal()), (1, Some(number)), "{}", said.err);
    }
}

#[test]
fn explain_takes_a_name() {
    let by_name = chukelowa(&["explain", "not included"], b"");
    assert_eq!(by_name, chukelowa(&["explain", "9"], b""));
}
