//! The short forms say what their long ones say, and each text is read as docs/NOTATION.md says.

use notation::tables::Sheet;
use notation::{assemble, assemble_all, list, list_forest, list_named, list_script};
use notation::{Assembled, Names, Source, Spare};

fn sheet(text: &str) -> Sheet {
    assemble(text).unwrap_or_else(|error| panic!("{error}\n{text}"))
}

/// Both texts give the same sheet, which comes back from its listing.
fn same(short: &str, long: &str) {
    assert_eq!(sheet(short), sheet(long), "{short}\n{long}");
    let listed = list(&sheet(short));
    assert_eq!(sheet(&listed), sheet(short), "{listed}");
}

fn typed(of: &str) -> String {
    format!("labels a, b type X = a[] from {of} to () script skip")
}

fn with_forest(forest: &str) -> String {
    format!("labels a, b from () to () script skip forest {forest}")
}

fn inserted(query: &str) -> String {
    format!("labels a, b, c from () to () script insert {query}")
}

#[test]
fn a_question_mark_is_a_choice_with_nothing() {
    same(&typed("text?"), &typed("text | ()"));
    same(
        &typed("a[b[]?, text?]"),
        &typed("a[(b[] | ()), (text | ())]"),
    );
    same(&typed("X?*"), &typed("(X | ())*"));
    same(&typed("a[]*?"), &typed("a[]* | ()"));
}

#[test]
fn a_plus_is_one_and_a_star() {
    same(&typed("text+"), &typed("text, text*"));
    same(
        &typed("a[(b[] | X)]+"),
        &typed("a[(b[] | X)], a[(b[] | X)]*"),
    );
    same(
        &typed("b[], (a[], text*)+"),
        &typed("b[], (a[], text*), (a[], text*)*"),
    );
    same(&typed("X+?"), &typed("(X, X*) | ()"));
}

#[test]
fn a_plus_after_what_may_be_empty_is_a_star() {
    same(&typed("()+"), &typed("()*"));
    same(&typed("a[]?+"), &typed("(a[] | ())*"));
    same(&typed("(a[]*, b[]?)+"), &typed("(a[]*, (b[] | ()))*"));
    same(&typed("(a[] | text*)+"), &typed("(a[] | text*)*"));
}

#[test]
fn a_mark_after_a_short_form_is_the_outermost_rows() {
    same(&typed("text?@6"), &typed("text |@6 ()"));
    same(&typed("b[]+@9"), &typed("b[] ,@9 b[]*"));
    same(&typed("()+@5"), &typed("()*@5"));
}

#[test]
fn round_brackets_group_trees() {
    same(&with_forest("(a[])"), &with_forest("a[]"));
    same(&with_forest("a[()]"), &with_forest("a[]"));
    same(
        &with_forest("((a[], (b[], true)), \"x\")"),
        &with_forest("a[], b[], true, \"x\""),
    );
    same(
        &with_forest("(), a[(), (b[(a[])]), ()], ()"),
        &with_forest("a[b[a[]]]"),
    );
    same(&with_forest("()"), "labels a, b from () to () script skip");
    same(&inserted("a[()], (b[])"), &inserted("a[], b[]"));
    same(&typed("a[()], (b[])"), &typed("a[], b[]"));
}

#[test]
fn labels_without_numbers_take_free_ones_in_order() {
    let forest = "from () to () script skip forest a[], b[], c[], d[]";
    let labels = |labels: &str| sheet(&format!("labels {labels} {forest}"));
    assert_eq!(labels("a, b, c, d"), labels("a = 1, b = 2, c = 3, d = 4"));
    assert_eq!(
        labels("a, b = 1, c = 7, d"),
        labels("a = 2, b = 1, c = 7, d = 3")
    );
    assert_eq!(
        labels("d, c labels b, a = 0"),
        labels("d = 1, c = 2, b = 3, a = 0")
    );
}

#[test]
fn a_text_without_labels_numbers_them_as_they_appear() {
    let text = "type X = d[b[]] from X to c[] script b? rename a forest a[d[]], b[]";
    let labels = "labels d = 1, b = 2, c = 3, a = 4";
    same(text, &format!("{labels} {text}"));
}

#[test]
fn labels_may_stand_below_their_uses() {
    same(
        "from a[] to () script skip labels a = 5",
        "labels a = 5 from a[] to () script skip",
    );
}

#[test]
fn a_listing_with_names_is_read_as_the_same_sheet() {
    let text = "labels b, l5 = 3 type Pair = b[l5[], Pair?] from Pair to Pair
        procedure twice(x: Pair) from () to Pair = insert x script twice(b[l5[]])
        forest b[l5[]]";
    let assembled = sources(&[text]);
    let listed = list_named(&assembled.sheet, &assembled.names);
    assert_eq!(sheet(&listed), assembled.sheet, "{listed}");
    for word in [
        "labels b = 1, l5 = 3",
        "type Pair = b[",
        "procedure twice(",
        "twice(b[l5[]])",
    ] {
        assert!(listed.contains(word), "{listed}");
    }
    // A name that is made up is never one that is taken.
    let mut names = assembled.names;
    names.labels.remove(&1);
    names.labels.insert(3, "l1".into());
    let listed = list_named(&assembled.sheet, &names);
    assert_eq!(sheet(&listed), assembled.sheet, "{listed}");
    assert!(listed.contains("labels l1_ = 1, l1 = 3"), "{listed}");
    // A name that two labels have is that of the lower.
    names.labels.insert(1, "l1".into());
    let listed = list_named(&assembled.sheet, &names);
    assert_eq!(sheet(&listed), assembled.sheet, "{listed}");
    assert!(listed.contains("labels l1 = 1, l3 = 3"), "{listed}");
}

/// The comma binds loosest: brackets that say so change nothing, others do.
#[test]
fn lists_and_open_ended_queries() {
    same(
        &inserted("a[], if true then b[] else c[]"),
        &inserted("a[], (if true then b[] else c[])"),
    );
    same(
        &inserted("if true then a[], b[] else c[]"),
        &inserted("if true then (a[], b[]) else c[]"),
    );
    same(
        &inserted("let x = a[], b[] in x"),
        &inserted("let x = (a[], b[]) in x"),
    );
    same(
        &inserted("for t in a[], b[] return t"),
        &inserted("for t in (a[], b[]) return t"),
    );
    let whole = sheet(&inserted("(if true then a[] else b[]), c[]"));
    let part = sheet(&inserted("if true then a[] else (b[], c[])"));
    let kind = |sheet: &Sheet| sheet.queries[usize::from(sheet.statements[0][1]) - 1][0];
    assert_eq!((kind(&whole), kind(&part)), (2, 9));
    for sheet_of in [&whole, &part] {
        assert_eq!(sheet(&list(sheet_of)), *sheet_of);
    }
}

#[test]
fn line_ends_and_a_byte_order_mark_make_no_difference() {
    let text = "labels a, b # both\nfrom a[]\nto b[]\nscript\n  rename b\nforest\n  a[\"x\"]\n";
    let other = format!("\u{feff}{}", text.replace('\n', "\r\n"));
    same(&other, text);
    assert!(assemble(&text.replace("labels", "\u{feff}labels")).is_ok());
    assert!(assemble(&text.replace("from", "\u{feff}from")).is_err());
}

#[test]
fn a_listing_in_two_parts_says_the_same() {
    let text = "labels a, b, c pool \"xyz\" type X = a[text] from X* to X* procedure p() from X to X = skip
        script iter [p()]; snapshot s in iter [b? children [delete; insert \"yz\"]]
        forest a[\"z\"], c[a[\"x\"], true]";
    let whole = sources(&[text]);
    let script = list_script(&whole.sheet, &whole.names);
    let forest = list_forest(&whole.sheet, &whole.names);
    assert!(
        !script.contains("forest") && !script.contains("c = 3"),
        "{script}"
    );
    assert_eq!(
        forest,
        "labels a = 1, c = 3\nforest\n  a[\"z\"], c[a[\"x\"], true]\n"
    );
    let again = sources(&[&forest, &script]);
    assert_eq!(again.sheet, whole.sheet);
    // A description by itself, whatever its rows are numbered and wherever its texts stand.
    let other = Sheet {
        forest: vec![[1, 1, 1, 0], [3, 0, 0, 0], [4, 7, 1, 2]],
        root: 3,
        pool: b"abc".to_vec(),
        ..Sheet::default()
    };
    assert_eq!(
        list_forest(&other, &Names::default()),
        "labels l7 = 7\nforest\n  l7[\"b\"], true\n"
    );
    assert_eq!(
        list_forest(&Sheet::default(), &Names::default()),
        "forest\n  ()\n"
    );
}

fn sources(texts: &[&str]) -> Assembled {
    let sources: Vec<Source> = texts
        .iter()
        .map(|text| Source {
            name: "",
            bytes: text.as_bytes(),
        })
        .collect();
    assemble_all(&sources, Spare::default())
        .unwrap_or_else(|faults| panic!("{faults:?}\n{texts:?}"))
}
