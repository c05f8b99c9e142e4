//! Several sources, in any order.

use notation::{assemble, assemble_all, outline, Assembled, Fault, Source, Spare};

const SCRIPT: &str = "labels machine = 1, cost\nscript children [right [insert cost[\"1\"]]]\n";
const TYPES: &str = "type M = machine[cost[text]*]\nfrom M to machine[cost[text]+]\n";
const DESCRIPTION: &str =
    "labels cost = 1, machine = 2, note = 1023\nforest machine[cost[\"3\"]]\n";

fn read(texts: &[&str], spare: Spare) -> Result<Assembled, Vec<Fault>> {
    let sources: Vec<Source> = texts
        .iter()
        .map(|text| Source {
            name: "some",
            bytes: text.as_bytes(),
        })
        .collect();
    assemble_all(&sources, spare)
}

#[test]
fn the_order_of_sources_makes_no_difference() {
    let one = "labels machine = 1, cost = 2 script children [right [insert cost[\"1\"]]]
        type M = machine[cost[text]*] from M to machine[cost[text]+] forest machine[cost[\"3\"]]";
    let whole = assemble(one).expect("a sheet");
    let texts = [SCRIPT, TYPES, DESCRIPTION];
    for order in [
        [0, 1, 2],
        [0, 2, 1],
        [1, 0, 2],
        [1, 2, 0],
        [2, 0, 1],
        [2, 1, 0],
    ] {
        let given = order.map(|at| texts[at]);
        let it = read(&given, Spare::default()).expect("a sheet");
        assert_eq!(it.sheet, whole, "{order:?}");
        // Places are in the source that was given at that index.
        let root = it.places.forest[usize::from(it.sheet.root) - 1];
        assert_eq!(given[root.whole.file], DESCRIPTION);
        assert_eq!(
            &DESCRIPTION[root.whole.start..root.whole.end],
            "machine[cost[\"3\"]]"
        );
        let a = it.places.types[usize::from(it.sheet.a) - 1];
        assert_eq!(
            (given[a.sign.file], &TYPES[a.sign.start..a.sign.end]),
            (TYPES, "M")
        );
        let labels: Vec<(u16, &str)> = it
            .names
            .labels
            .iter()
            .map(|(number, name)| (*number, name.as_str()))
            .collect();
        assert_eq!(labels, [(1, "machine"), (2, "cost"), (1023, "note")]);
    }
}

#[test]
fn labels_go_by_name() {
    let script = "labels a = 1, b = 2 from a[] to a[] script skip";
    let taken = "labels c = 2, a = 5 forest a[c[]]";
    let it = read(&[taken, script], Spare::default()).expect("a sheet");
    // `a` keeps the script's number; the number of `c` is taken, so it gets a free one.
    assert_eq!(it.sheet.forest, [[4, 3, 0, 0], [4, 1, 1, 0]]);
    // A number that a later source gives to a label without one is taken.
    let it = read(
        &[
            "labels a from a[] to () script skip",
            "labels a = 9 forest a[]",
        ],
        Spare::default(),
    );
    assert_eq!(it.expect("a sheet").sheet.forest, [[4, 9, 0, 0]]);
    // A source without `labels` may use any.
    let it = read(
        &["from a[d[]] to () script skip", "labels a = 9 forest a[]"],
        Spare::default(),
    );
    let types = it.expect("a sheet").sheet.types;
    assert_eq!((types[1], types[2]), ([4, 1, 1], [4, 9, 2]));
    // One with `labels` may use what another declares, and nothing else.
    assert!(read(
        &[
            "labels a from a[] to b[] script skip",
            "labels b forest b[]"
        ],
        Spare::default()
    )
    .is_ok());
    let faults = read(
        &[
            "labels a from a[] to b[] script skip",
            "labels c forest c[]",
        ],
        Spare::default(),
    );
    let faults = faults.expect_err("no `b`");
    assert_eq!((faults.len(), faults[0].place.file), (1, 0));
    assert_eq!(
        faults[0].message,
        "unknown label `b`: no `labels` line names it"
    );
}

#[test]
fn what_is_spared_may_be_absent() {
    let script = Spare {
        script: true,
        types: false,
    };
    let types = Spare {
        script: false,
        types: true,
    };
    let both = Spare {
        script: true,
        types: true,
    };
    let description = "labels a forest a[]";
    let it = read(&[description], both).expect("a sheet");
    let wanted = assemble("labels a forest a[] from () to () script skip").expect("a sheet");
    assert_eq!(it.sheet, wanted);
    assert_eq!(it.places.statements[0].whole.start, description.len());
    let faults = |spare| read(&[description], spare).expect_err("something is absent");
    assert_eq!(faults(script)[0].message, "there is no `from`");
    assert_eq!(faults(types)[0].message, "there is no `script`");
    assert_eq!(faults(Spare::default()).len(), 2);
    assert_eq!(read(&[], Spare::default()).expect_err("nothing").len(), 2);
    assert!(read(&[], both).is_ok());
    // What is there is read, spared or not.
    assert_eq!(
        read(&["from () to text script delete"], both)
            .expect("a sheet")
            .sheet
            .statements,
        [[5, 0, 0, 0]]
    );
}

#[test]
fn faults_name_their_source() {
    let faults = read(
        &[DESCRIPTION, "from X to () script insert", SCRIPT],
        Spare::default(),
    )
    .expect_err("faults");
    let told: Vec<(usize, &str)> = faults
        .iter()
        .map(|it| (it.place.file, it.message.as_str()))
        .collect();
    let wanted = [
        (1, "unknown type name `X`"),
        (1, "expected a query, found the end"),
        (2, "`script` is there twice"),
    ];
    assert_eq!(told, wanted);
    let bad = [&b"from ()"[..], b"\xff", b"forest \xc3"];
    let sources = bad.map(|bytes| Source { name: "", bytes });
    let faults = assemble_all(&sources, Spare::default()).expect_err("not UTF-8");
    let places: Vec<(usize, usize)> = faults
        .iter()
        .map(|it| (it.place.file, it.place.start))
        .collect();
    assert_eq!(places, [(1, 0), (2, 7)]);
}

#[test]
fn an_outline_has_the_sections() {
    assert_eq!(outline(SCRIPT.as_bytes()), ["labels", "script"]);
    let text =
        "procedure p() from () to () = skip forest script[] from () to () # type\n pool \"fuel\"";
    assert_eq!(
        outline(text.as_bytes()),
        ["procedure", "forest", "from", "pool"]
    );
    assert!(outline(b"\xff script skip").is_empty());
}
