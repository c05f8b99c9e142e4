//! The files of the second program use each other without going round in a circle.

use std::collections::{BTreeMap, BTreeSet};
use std::path::Path;

/// For each module of `src`, parts included, the modules that it names.
fn uses() -> BTreeMap<String, BTreeSet<String>> {
    let mut uses: BTreeMap<String, BTreeSet<String>> = BTreeMap::new();
    let mut folders = vec![Path::new(env!("CARGO_MANIFEST_DIR")).join("src")];
    while let Some(folder) = folders.pop() {
        for entry in std::fs::read_dir(folder).expect("a folder") {
            let path = entry.expect("an entry").path();
            if path.is_dir() {
                folders.push(path);
                continue;
            }
            let inner = path
                .strip_prefix(env!("CARGO_MANIFEST_DIR"))
                .expect("a file of src");
            let module = inner.components().nth(1).expect("a module").as_os_str();
            let module = module.to_string_lossy().trim_end_matches(".rs").to_string();
            let text = std::fs::read_to_string(&path).expect("a file");
            let named = text.split("crate::").skip(1).flat_map(first_modules);
            let named = named
                .filter(|other| *other != module)
                .collect::<Vec<String>>();
            uses.entry(module).or_default().extend(named);
        }
    }
    uses
}

/// The modules that stand behind `crate::`, one or several in braces.
fn first_modules(path: &str) -> Vec<String> {
    let word = |text: &str| -> String {
        text.trim_start()
            .chars()
            .take_while(|c| c.is_alphanumeric() || *c == '_')
            .collect()
    };
    match path.strip_prefix('{') {
        Some(list) => list
            .split('}')
            .next()
            .unwrap_or_default()
            .split(',')
            .map(word)
            .collect(),
        None => vec![word(path)],
    }
}

#[test]
fn no_module_uses_itself_through_others() {
    let uses = uses();
    assert!(uses["answers"].contains("refusals") && uses["check"].contains("refusals"));
    for start in uses.keys() {
        let mut reached = BTreeSet::new();
        let mut ahead: Vec<&String> = uses[start].iter().collect();
        while let Some(module) = ahead.pop() {
            assert_ne!(module, start, "{start} uses itself by way of {reached:?}");
            if reached.insert(module) {
                ahead.extend(uses.get(module).into_iter().flatten());
            }
        }
    }
}
