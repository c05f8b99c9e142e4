//! Faults of a text: where they are, what they say, and which are told together.

use notation::{assemble, assemble_all, line_and_column, Fault, Source, Spare};

/// A text around the given script.
fn with(script: &str) -> String {
    format!("labels a = 1, b = 2, c = 3\nfrom ()\nto ()\nscript {script}\n")
}

#[test]
fn faults_are_named_with_their_places() {
    let faults = [
        (
            "",
            1,
            1,
            "there is no `from` (it is written `from TYPE to TYPE`)",
        ),
        (
            "labels a = 1\nfrom () to ()",
            2,
            14,
            "there is no `script` (it is written `script STATEMENT`)",
        ),
        (
            "labels a 1",
            1,
            10,
            "expected `=`, `,` or the next section, found `1`",
        ),
        (
            "labels a = 1024",
            1,
            12,
            "labels go from 0 to 1023, not 1024",
        ),
        ("labels a = 1, a = 2", 1, 15, "label `a` is there twice"),
        (
            "labels a = 1, b = 1",
            1,
            15,
            "label 1 has the name `a` already",
        ),
        (
            "labels iter = 1",
            1,
            8,
            "`iter` is a word of the notation, so it cannot be the name of a label",
        ),
        ("type X = text", 1, 10, "stands for one labelled tree"),
        (
            "labels a = 1 type X = a[] type X = a[]",
            1,
            32,
            "type `X` is there twice",
        ),
        ("from Y to ()", 1, 6, "unknown type name `Y`"),
        (
            "labels x = 1 from y[] to ()",
            1,
            19,
            "unknown label `y`: no `labels` line names it",
        ),
        (
            "labels a = 1\nfrom a[text bool] to ()",
            2,
            13,
            "expected `*`, `?`, `+`, `,`, `|` or `]`, found `bool`",
        ),
        (
            "from () to () from () to ()",
            1,
            15,
            "`from` is there twice",
        ),
        (
            "from () to () fuel check 4097, run 1",
            1,
            26,
            "fuels go from 0 to 4096, not 4097",
        ),
        (
            "from () to () fuel check 70000, run 1",
            1,
            26,
            "a number from 0 to 65535",
        ),
        (
            "from () to () forest $",
            1,
            22,
            "the character '$' has no use here",
        ),
        ("from () to () forest \"a", 1, 22, "no closing quote"),
        ("from () to () forest \"\\q\"", 1, 23, "expected one of"),
        (
            "from () to () script skip skip",
            1,
            27,
            "expected `;` or the next section, found `skip`",
        ),
        (
            "from () to () script skip forest true false",
            1,
            39,
            "expected `,` or the next section, found `false`",
        ),
        ("from () to () script p()", 1, 22, "unknown procedure `p`"),
        (
            "procedure p(x: text, y: text, z: text) from () to () = skip",
            1,
            31,
            "at most two parameters",
        ),
        (
            "procedure p(x: text, x: text) from () to () = skip",
            1,
            22,
            "parameter `x` is there twice",
        ),
        (
            "procedure p(x: text) from () to () = skip from () to () script p()",
            1,
            64,
            "takes 1 query, not 0",
        ),
    ];
    for (text, line, column, message) in faults {
        assert_fault(text, line, column, message);
    }
}

#[test]
fn faults_of_scripts_are_named_with_their_places() {
    let sixteen: String = (0..16).map(|n| format!("let v{n} = () in ")).collect();
    let many_rows = vec!["skip"; 257].join("; ");
    let deep = "(".repeat(3_000);
    let faults = [
        ("insert x", 15, "unknown variable `x`"),
        ("insert a", 15, "the tree of label `a` is written `a[]`"),
        ("let x = x in skip", 16, "unknown variable `x`"),
        (
            "let x = () in insert children(x)",
            38,
            "children needs a variable of `for`",
        ),
        ("iter [skip", 18, "expected `;` or `]`, found the end"),
        (
            "a children [skip]",
            8,
            "`a` begins no statement (a test is written `a? ...`, a call `a(...)`)",
        ),
        ("in", 8, "expected a statement, found `in`"),
        ("insert if true then a[]", 31, "`else`"),
        ("insert a[] :: d", 22, "unknown label `d`"),
        (
            "insert \"a\"@2",
            18,
            "there is no query row 2: they go from 1 to 1",
        ),
        ("insert true@1, false@1", 28, "two query rows are marked @1"),
        ("insert a@1[true]", 16, "query row 1 would refer to row 2"),
        (
            "insert \"a\" at 1",
            22,
            "the pool does not hold this text at 1",
        ),
        (
            &format!("{sixteen}let w = () in skip"),
            258,
            "more than 16 variables in scope with `w`",
        ),
        (
            &format!("{sixteen}insert for t in () return t"),
            265,
            "more than 16 variables in scope with `t`",
        ),
        (&many_rows, 12, "more than 512 statement rows"),
        (&deep, 2_056, "nested more than 2048 deep"),
    ];
    for (script, column, message) in faults {
        assert_fault(with(script).trim_end(), 4, column, message);
    }
}

#[test]
fn limits_are_named_with_their_places() {
    let head = "labels a = 1\n";
    let names: String = (0..33).map(|n| format!("type X{n} = a[]\n")).collect();
    assert_fault(&format!("{head}{names}"), 34, 6, "more than 32 types");
    let procedures: String = (0..17)
        .map(|n| format!("procedure p{n}() from () to () = skip\n"))
        .collect();
    assert_fault(&procedures, 17, 11, "more than 16 procedures");
    let trees = vec!["true"; 2_049].join(",\n");
    assert_fault(
        &format!("forest\n{trees}"),
        2_050,
        1,
        "more than 2048 forest rows",
    );
    let text = format!("pool \"{}\"", "x".repeat(16_385));
    assert_fault(&text, 1, 6, "more than 16384 pool bytes");
    let full = format!(
        "pool \"{}\"\nforest \"y\"\nfrom () to () script skip",
        "x".repeat(16_384)
    );
    assert_fault(&full, 2, 8, "more than 16384 pool bytes");
}

fn assert_fault(text: &str, line: usize, column: usize, message: &str) {
    let error = assemble(text).expect_err(text);
    assert_eq!((error.line, error.column), (line, column), "{error}");
    assert!(
        error.to_string().contains(message),
        "{error}, expected {message}"
    );
}

/// All faults of a text, as a person reads them.
fn told(text: &str) -> Vec<String> {
    let source = Source {
        name: "",
        bytes: text.as_bytes(),
    };
    let faults = assemble_all(&[source], Spare::default()).expect_err(text);
    let shown = |fault: &Fault| {
        let (line, column) = line_and_column(text.as_bytes(), fault.place.start);
        format!("{line}:{column} {fault}")
    };
    faults.iter().map(shown).collect()
}

#[test]
fn independent_faults_are_told_together() {
    let text = "labels a, b
from a[strin] to b[c[]]
script
  iter [a? childrn [skip]; delete x; b? rename d];
  insert y, if true then y else a;
  p(true)
forest a[fuel[], e[], $, b[]";
    let faults = [
        "2:8 unknown type name `strin` (a label is written `strin[...]`)",
        "2:20 unknown label `c`: no `labels` line names it",
        "4:12 `childrn` begins no statement (a test is written `childrn? ...`, a call `childrn(...)`)",
        "4:35 expected `;` or `]`, found `x`",
        "4:48 unknown label `d`: no `labels` line names it",
        "5:10 unknown variable `y`",
        "5:33 unknown variable `a` (the tree of label `a` is written `a[]`)",
        "6:3 unknown procedure `p`",
        "7:10 `fuel` begins a section, so it cannot be the name of a label (any other name will do)",
        "7:18 unknown label `e`: no `labels` line names it",
        "7:23 the character '$' has no use here (variables are written without a `$`)",
    ];
    assert_eq!(told(text), faults);
}

#[test]
fn no_fault_follows_from_another() {
    let alone = [
        // A word of the notation as a name, wherever names stand.
        "labels script = 1, b from script[] to b[] script script? skip forest script[]",
        "type forest = a[] from () to () script skip",
        "from () to () script let pool = () in skip",
        "from () to () script insert for from in () return ()",
        "procedure fuel(x: text) from () to () = skip from () to () script skip",
        "procedure in() from () to () = skip from () to () script skip",
        "type in = a[] from () to () script skip",
        "procedure p(type: text) from () to () = skip from () to () script p(true)",
        // Sections that cannot be read, or are lost.
        "labels a, 7, c from c[] to c[] script skip",
        "labels a, b, from script skip from () to ()",
        "labels a, b, from () to () script skip",
        "scrpt skip",
        "from () to () scrpt skip",
        "from () to () script",
        "from () to () script insert forest a[]",
        "type X = text from X to X script skip",
        "procedure p(x text) from () to () = skip script p(true) from () to ()",
        "procedure p(x: text) from () = skip script p(true); p() from () to ()",
        // Brackets that do not match: the section is given up.
        "from () to () script iter [skip; delete) forest true",
        "from () to () script iter [skip; (delete] ; insert forest true",
        "from () to () script iter [skip; delete; insert ()]]",
        // Characters and numbers without a use.
        "from () to () script let x = () in insert x/child",
        "from () to () script let x = () in (insert x/child::a; insert x)",
        "from () to () script skip forest 'a'",
        "from () to () script insert 70000; skip",
        "from () to () script insert \"\\q\"; skip",
        // The same unknown name again and again.
        "labels a from a[b[]], b[] to b[] script b? rename b",
        "from X, X to X* script skip",
        "from () to () script insert x, x; insert x",
    ];
    for text in alone {
        let faults = told(text);
        assert_eq!(faults.len(), 1, "{text}\n{faults:#?}");
    }
}

#[test]
fn reserved_words_are_told_as_such() {
    for word in [
        "labels",
        "type",
        "procedure",
        "pool",
        "from",
        "fuel",
        "script",
        "forest",
    ] {
        for text in [
            format!("labels {word} = 1 from () to () script skip"),
            format!("from {word}[] to () script skip"),
            format!("from () to () script {word}? skip"),
            format!("from () to () script insert {word}[()]"),
            format!("from () to () script skip forest {word}[]"),
            format!("from () to () script snapshot {word} in skip"),
        ] {
            let faults = told(&text);
            let wanted = format!("`{word}` begins a section, so it cannot be the name of a ");
            assert!(
                faults.len() == 1 && faults[0].contains(&wanted),
                "{text}\n{faults:?}"
            );
        }
    }
    let faults = told("from () to () script insert script");
    assert_eq!(
        faults,
        ["1:29 expected a query, found `script`, which begins a section"]
    );
}

#[test]
fn a_comma_that_can_be_read_in_two_ways_is_told() {
    let faults = told(&with("insert if true then a[], b[] else b[], c[]"));
    let told_if = "4:45 this comma, after `if`, can be read in two ways \
                   (write `(if ...), ...` or `else (..., ...)`)";
    assert_eq!(faults, [told_if]);
    for (query, word, last) in [
        ("let x = () in x, a[]", "let", "in"),
        ("for t in a[] return t, b[]", "for", "return"),
        ("a[let x = () in x, a[]]", "let", "in"),
        (
            "a[], if true then a[] else if true then b[] else c[], a[]",
            "if",
            "else",
        ),
    ] {
        let faults = told(&with(&format!("insert {query}")));
        assert_eq!(faults.len(), 1, "{query}\n{faults:?}");
        let ways = format!("after `{word}`, can be read in two ways");
        let hint = format!("(write `({word} ...), ...` or `{last} (..., ...)`)");
        assert!(
            faults[0].contains(&ways) && faults[0].ends_with(&hint),
            "{faults:?}"
        );
    }
}

#[test]
fn the_papers_spellings_get_a_hint() {
    for (text, hint) in [
        (
            "from string to () script skip",
            "the paper's `string` is written `text`",
        ),
        (
            "from () to () script insert for x in () return x/child",
            "the paper's `x/child` is written `children(x)`",
        ),
        (
            "from () to () script insert for x ∈ () return x",
            "is written `for x in q`",
        ),
        (
            "from () to () script insert \"a\" ≈ \"b\"",
            "is written `q = q`",
        ),
        ("from a[]∗ to () script skip", "a star is written `*`"),
        (
            "from () to () script DELETE a",
            "the paper's language in capitals is written out",
        ),
    ] {
        let faults = told(text);
        assert!(
            faults.len() == 1 && faults[0].contains(hint),
            "{text}\n{faults:?}"
        );
    }
}

#[test]
fn a_variable_that_has_ended_gets_a_hint() {
    let faults = told(&with("let x = () in skip; insert x"));
    let wanted = "4:35 unknown variable `x` (it is seen in one part only; round brackets make that part longer)";
    assert_eq!(faults, [wanted]);
    assert!(assemble(&with("let x = () in (skip; insert x)")).is_ok());
}

#[test]
fn no_message_is_longer_than_a_line() {
    let word = "w".repeat(5_000);
    for text in [
        word.clone(),
        format!("from {word} to () script skip"),
        format!("labels a from {word}[] to () script insert {word}; {word}(); {word} {word}"),
        format!("labels {word}, {word} from () to () script skip"),
        format!("from () to () fuel check 1{word}, run 2 script skip"),
        format!("from () to () script skip forest '{word}\n\u{1}\n'"),
        format!("type {word} = text type {word} = text procedure {word} from () to () script skip"),
    ] {
        for fault in told(&text) {
            let length = fault.chars().count();
            assert!(
                length < 200 && !fault.chars().any(char::is_control),
                "{fault}"
            );
        }
    }
}

#[test]
fn at_most_twenty_faults_are_told() {
    let names: Vec<String> = (0..100).map(|n| format!("x{n}")).collect();
    assert_eq!(
        told(&with(&format!("insert {}", names.join(", ")))).len(),
        20
    );
}

#[test]
fn what_is_not_utf_8_is_told_with_its_place() {
    let bytes = b"from () to ()\nscript insert \"\xc3\xa4\xff\"";
    let source = Source { name: "", bytes };
    let faults = assemble_all(&[source], Spare::default()).expect_err("not UTF-8");
    assert_eq!(faults.len(), 1);
    assert_eq!(line_and_column(bytes, faults[0].place.start), (2, 17));
    let message = "the byte 0xff here is not UTF-8 (between quotes it is written \\xff)";
    assert_eq!(faults[0].to_string(), message);
}

#[test]
fn deep_nesting_is_a_fault() {
    let many = 200_000;
    let nested = |open: &str, close: &str| open.repeat(many) + &close.repeat(many);
    for (text, message) in [
        (with(&nested("(", ")")), "nested more than 2048 deep"),
        (with(&nested("iter [", "]")), "nested more than 2048 deep"),
        (with(&"a? ".repeat(many)), "nested more than 2048 deep"),
        (with(&"skip;".repeat(many)), "more than 512 statement rows"),
        (
            with(&format!("insert {}", nested("(", ")"))),
            "nested more than 2048 deep",
        ),
        (
            with(&format!("insert {}", nested("a[", "]"))),
            "nested more than 2048 deep",
        ),
        (
            with(&format!("insert {}", "(), ".repeat(many))),
            "more than 512 query rows",
        ),
        (
            with(&"if true then ".repeat(many)),
            "more than 512 query rows",
        ),
        (
            format!("from {} to () script skip", nested("(", ")")),
            "nested more than 2048 deep",
        ),
        (
            format!("from {}() to () script skip", "() |".repeat(many)),
            "more than 512 type rows",
        ),
        (
            format!(
                "from {}a[]{} to () script skip",
                "(".repeat(40),
                ")+".repeat(40)
            ),
            "more than 512 type rows",
        ),
        (
            format!("from a[]{} to () script skip", "+".repeat(many)),
            "more than 512 type rows",
        ),
        (
            format!("from () to () script skip forest {}", nested("a[", "]")),
            "more than 2048 forest rows",
        ),
    ] {
        let faults = told(&text);
        assert!(
            faults.len() == 1 && faults[0].ends_with(message),
            "{faults:?}, not {message}"
        );
    }
    let brackets = format!("from () to () script skip forest {}", nested("(", ")"));
    assert!(assemble(&brackets).is_ok());
}

/// Numbers that look random, the same each time.
struct Random(u64);

impl Random {
    fn below(&mut self, end: usize) -> usize {
        self.0 ^= self.0 << 13;
        self.0 ^= self.0 >> 7;
        self.0 ^= self.0 << 17;
        (self.0 >> 11) as usize % end
    }
}

/// Whatever is done to a text, it is read or its faults are told: in order, within the text, in a line each.
#[test]
fn damaged_texts_are_read_or_refused() {
    const TEXT: &str = "labels a, b = 7, c # some\n type X = a[b[]+, (text | X?)*]\n from X to ()\n
        procedure p(x: X, y: bool) from () to X = if y then insert x else skip\n fuel check 9, run 8 pool \"t\\x00ä\"\n
        script (a? children [iter [skip; rename b]]); let z = \"t\\x00ä\" at 0, true in\n
        p((for t in z return children(t)) :: a, z = \"u\"); delete; left [text()? node()? snapshot s in skip]\n
        forest b[], (a[\"t\", (b[])], true)";
    let pieces: Vec<&str> = TEXT
        .split_inclusive(|c: char| !c.is_alphanumeric())
        .collect();
    let junk = [
        "$", "\"", "ä", "]", "(", "\u{0}", "99999", "@0", "script", "from ", " in ", "\\", "::",
        ";", "string",
    ];
    let mut random = Random(11);
    let (mut read, mut refused) = (0, 0);
    for _ in 0..20_000 {
        let mut text = pieces.clone();
        for _ in 0..=random.below(4) {
            let (place, other) = (random.below(text.len()), random.below(pieces.len()));
            match random.below(5) {
                0 if text.len() > 1 => drop(text.remove(place)),
                1 => text[place] = pieces[other],
                2 => text.insert(place, pieces[other]),
                3 => text.insert(place, junk[random.below(junk.len())]),
                _ => text.truncate(place.max(1)),
            }
        }
        let text = text.concat();
        let source = Source {
            name: "",
            bytes: text.as_bytes(),
        };
        match assemble_all(&[source], Spare::default()) {
            Ok(_) => read += 1,
            Err(faults) => {
                refused += 1;
                assert!((1..=20).contains(&faults.len()));
                assert!(faults.is_sorted_by_key(|fault| fault.place));
                for fault in faults {
                    let (start, end) = (fault.place.start, fault.place.end);
                    assert!(text.get(start..end).is_some(), "{fault:?}\n{text}");
                    assert!(
                        !fault.to_string().chars().any(char::is_control),
                        "{fault:?}"
                    );
                }
            }
        }
    }
    assert!(
        read > 500 && refused > 10_000,
        "{read} read, {refused} refused"
    );
}
