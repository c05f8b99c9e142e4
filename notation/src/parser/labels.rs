//! The labels of all sources: by name, each with the number that is given, or else one that is free.

use super::{Parsed, Parser};
use crate::faults::{shown, Place};
use crate::limits::LAST_LABEL;
use std::collections::{BTreeMap, BTreeSet};

/// A label as one source declares it.
struct Declared<'a> {
    name: &'a str,
    number: Option<u16>,
    place: Place,
}

/// Labels by name and by number.
#[derive(Default)]
pub struct Labels<'a> {
    numbers: BTreeMap<&'a str, u16>,
    pub names: BTreeMap<u16, &'a str>,
    pub places: BTreeMap<u16, Place>,
    /// A `labels` line cannot be read, so that no label is known to be absent.
    pub broken: bool,
    /// The sources with a `labels` line; in the others labels are declared by being there.
    declaring: BTreeSet<usize>,
}

impl<'a> Labels<'a> {
    pub fn has(&self, name: &str) -> bool {
        self.numbers.contains_key(name)
    }

    /// Does this source name its labels in a `labels` line?
    pub fn declared_in(&self, file: usize) -> bool {
        self.declaring.contains(&file)
    }

    /// The label's number; in a source without `labels` one that is new gets its number here.
    pub fn number(&mut self, name: &'a str, place: Place) -> Option<u16> {
        let known = self.numbers.get(name).copied();
        known.or_else(|| {
            let number = self.free().filter(|_| !self.declared_in(place.file))?;
            self.set(name, number, place);
            Some(number)
        })
    }

    fn set(&mut self, name: &'a str, number: u16, place: Place) {
        self.numbers.insert(name, number);
        self.names.insert(number, name);
        self.places.insert(number, place);
    }

    /// The lowest number from 1 that no label has; 0 is the last resort.
    fn free(&self) -> Option<u16> {
        let mut numbers = (1..=LAST_LABEL).chain([0]);
        numbers.find(|number| !self.names.contains_key(number))
    }
}

impl<'a> Parser<'a> {
    /// Reads every `labels` section; these stand at the tokens given.
    pub(super) fn read_labels(&mut self, sections: &[usize]) {
        let mut declared = Vec::new();
        for at in sections {
            self.labels.declaring.insert(self.tokens[*at].1.file);
            self.at = at + 1;
            self.tried.clear();
            if self.label_table(&mut declared).is_err() {
                self.labels.broken = true;
            }
        }
        self.check_labels(&declared);
        self.number_labels(&declared);
    }

    fn label_table(&mut self, declared: &mut Vec<Declared<'a>>) -> Parsed<()> {
        loop {
            let place = self.place();
            let name = self.name("a label", &["=", ","])?;
            let number = if self.accept("=") {
                Some(self.number_up_to(LAST_LABEL, "labels")?)
            } else {
                None
            };
            declared.push(Declared {
                name,
                number,
                place,
            });
            if !self.accept(",") {
                return self.end_section();
            }
        }
    }

    /// Within one source a label stands once, and so does a number.
    fn check_labels(&mut self, declared: &[Declared<'a>]) {
        let mut names = BTreeSet::new();
        let mut numbers: BTreeMap<(usize, u16), &str> = BTreeMap::new();
        for Declared {
            name,
            number,
            place,
        } in declared
        {
            if !names.insert((place.file, name)) {
                let message = format!("label {} is there twice", shown(name));
                self.faults.push(place.fault(message));
                continue;
            }
            let Some(number) = number else { continue };
            if let Some(other) = numbers.insert((place.file, *number), name) {
                let message = format!("label {number} has the name {} already", shown(other));
                self.faults.push(place.fault(message));
            }
        }
    }

    /// Given numbers stay, the first source's before those of others; then the rest take what is free.
    fn number_labels(&mut self, declared: &[Declared<'a>]) {
        for Declared {
            name,
            number,
            place,
        } in declared
        {
            let taken = |number: &u16| self.labels.names.contains_key(number);
            if let Some(number) = number.filter(|number| !taken(number) && !self.labels.has(name)) {
                self.labels.set(name, number, *place);
            }
        }
        for Declared { name, place, .. } in declared {
            if self.labels.has(name) {
                continue;
            }
            match self.labels.free() {
                Some(number) => self.labels.set(name, number, *place),
                None => {
                    let most = usize::from(LAST_LABEL) + 1;
                    self.tell_once(place.fault(format!("more than {most} labels")));
                    self.labels.broken = true;
                }
            }
        }
    }
}
