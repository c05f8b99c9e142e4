//! Random and damaged bundles, the same each time for a seed.

pub(crate) mod random;
pub mod special;

use crate::answers::{answers, deep, Judged, Lent, RESULT_ROWS, WORKING_ROWS};
use crate::bundles;
use crate::dice::Dice;
use crate::faults::{block_faults, edges, faults};
use crate::forests::Forest;
use crate::places;
use crate::shape::FUEL;
use crate::tables::{last_row, Sheet};
use crate::types::Types;
use std::collections::BTreeMap;
use std::fmt;
use std::path::Path;
use std::time::{Duration, Instant};

/// A bundle and the rows lent with it: working and result rows.
pub struct Case {
    pub bundle: Vec<u8>,
    pub lent: Option<(usize, usize)>,
}

impl Case {
    fn of(sheet: &Sheet) -> Case {
        Case {
            bundle: bundles::to_bundle(sheet),
            lent: None,
        }
    }

    fn lent(&self) -> (usize, usize) {
        self.lent.unwrap_or((WORKING_ROWS, RESULT_ROWS))
    }

    pub fn answers(&self) -> String {
        let (work, result) = self.lent();
        answers(&self.bundle, work, result)
    }

    /// Writes the bundle and, where other rows are lent, their numbers beside it.
    fn write(&self, file: &Path) -> std::io::Result<()> {
        std::fs::write(file, &self.bundle)?;
        let lent = file.with_extension("args");
        match self.lent {
            Some((work, result)) => std::fs::write(lent, format!("{work} {result}\n")),
            None if lent.exists() => std::fs::remove_file(lent),
            None => Ok(()),
        }
    }
}

/// The cases of a seed.
pub struct Cases {
    seed: u64,
    /// Every other case has a forest one fault away from A.
    half_unfit: bool,
    faults: Vec<Sheet>,
    edges: Vec<Sheet>,
    blocks: Vec<Vec<u8>>,
}

impl Cases {
    pub fn new(seed: u64) -> Cases {
        Cases {
            seed,
            half_unfit: false,
            faults: faults().into_iter().map(|fault| fault.sheet).collect(),
            edges: edges(),
            blocks: block_faults(),
        }
    }

    /// The cases of a seed, and between them as many whose forest is one fault away from A, at every depth.
    pub fn half_unfit(seed: u64) -> Cases {
        Cases {
            half_unfit: true,
            ..Cases::new(seed)
        }
    }

    /// The case of this number, from 0.
    pub fn case(&self, number: usize) -> Case {
        match (self.half_unfit, number % 2) {
            (false, _) => self.usual(number),
            (true, 0) => self.usual(number / 2),
            (true, _) => varied(&mut self.dice(number), |dice| {
                let sizes = [3, 6, 10, 16];
                let size = *dice.one_of(&sizes);
                let mut sheet = random::unfit::script(dice, size).sheet();
                reorder(dice, &mut sheet);
                sheet
            }),
        }
    }

    fn dice(&self, number: usize) -> Dice {
        Dice::new(self.seed.wrapping_mul(0x1_0000_0001) ^ number as u64)
    }

    /// Of ten one breaks a rule, one is at the edge of a rule or breaks a block, one is special and
    /// the others are random.
    fn usual(&self, number: usize) -> Case {
        let mut dice = self.dice(number);
        let turn = number / 10;
        match number % 10 {
            7 => Case::of(&self.faults[turn % self.faults.len()]),
            8 if turn.is_multiple_of(2) => Case::of(&self.edges[turn / 2 % self.edges.len()]),
            8 => Case {
                bundle: self.blocks[turn / 2 % self.blocks.len()].clone(),
                lent: None,
            },
            9 => varied(&mut dice, |dice| special::script(dice).sheet()),
            _ => varied(&mut dice, |dice| {
                let sizes = [3, 6, 10, 16, 30, 80];
                let size = *dice.one_of(&sizes);
                random::script(dice, size).sheet()
            }),
        }
    }
}

/// The same forest with its rows in another order, each still behind those that it refers to.
fn reorder(dice: &mut Dice, sheet: &mut Sheet) {
    let old = std::mem::take(&mut sheet.forest);
    let mut numbers: Vec<Option<u16>> = vec![None; old.len() + 1];
    numbers[0] = Some(0);
    while sheet.forest.len() < old.len() {
        let row = |number: usize| moved(old[number - 1], &numbers);
        let free = (1..=old.len()).filter(|&number| numbers[number].is_none());
        let ready: Vec<_> = free.filter_map(|it| Some((it, row(it)?))).collect();
        let &(number, row) = dice.one_of(&ready);
        sheet.forest.push(row);
        numbers[number] = Some(last_row(&sheet.forest));
    }
    sheet.root = numbers[usize::from(sheet.root)].expect("all rows are moved");
}

/// A forest row that refers to the new numbers, if all that it refers to have one.
fn moved([kind, p, q, next]: [u16; 4], numbers: &[Option<u16>]) -> Option<[u16; 4]> {
    let new = |number: u16| numbers[usize::from(number)];
    let q = if kind == 4 { new(q)? } else { q };
    Some([kind, p, q, new(next)?])
}

/// A script's case with its fuel, or the rows lent, as needed or one less.
fn varied(dice: &mut Dice, make: fn(&mut Dice) -> Sheet) -> Case {
    let mut sheet = make(dice);
    let judged = Judged::new(&sheet);
    let lent = Lent::new(WORKING_ROWS, usize::MAX);
    let (check_units, run) = (judged.check(lent).units, judged.run(lent));
    let less = dice.below(2);
    let mut rows = None;
    match dice.below(16) {
        0 | 1 => sheet.run_fuel = run.units.saturating_sub(less as u16),
        2 | 3 => sheet.check_fuel = check_units.saturating_sub(less as u16),
        4 => sheet.run_fuel = dice.below(usize::from(run.units) + 1) as u16,
        5 => sheet.check_fuel = dice.below(usize::from(check_units) + 1) as u16,
        6 | 7 => {
            // A result that needs more than the 65,535 rows that count is refused all the same.
            let needed = run.result.map_or(70_000, |forest| forest.rows() as usize);
            rows = Some((WORKING_ROWS, needed.saturating_sub(less)));
        }
        8 => rows = Some((usize::from(sheet.check_fuel) - less, RESULT_ROWS)),
        9 => {
            let needed = sheet.forest.len() + usize::from(sheet.run_fuel);
            rows = Some((needed - less, RESULT_ROWS));
        }
        _ => {}
    }
    Case {
        lent: rows,
        ..Case::of(&sheet)
    }
}

/// How often each question was answered with each number.
#[derive(Default)]
pub struct Histogram(BTreeMap<(&'static str, u16), usize>);

/// The numbers that each question can answer; a passed script is never Stuck, so apply gives no 11.
const POSSIBLE: [(&str, &[u16]); 5] = [
    ("read", &[0, 1, 2]),
    ("check", &[0, 3, 4, 5, 6, 7, 8, 9, 12]),
    ("fit", &[0, 3, 4, 10]),
    ("run", &[0, 3, 4, 5, 6, 11, 12, 13]),
    ("apply", &[0, 3, 4, 5, 6, 7, 8, 9, 10, 12, 13]),
];

impl Histogram {
    /// Counts the lines of one case's answers.
    fn add(&mut self, answers: &str) {
        for line in answers.lines() {
            let mut words = line.split(' ');
            let first = words.next();
            let known = POSSIBLE
                .iter()
                .find(|(question, _)| Some(*question) == first);
            let Some(&(question, _)) = known else {
                continue;
            };
            let skipped = usize::from(question == "fit");
            let number = words.nth(skipped).and_then(|word| word.parse().ok());
            let number = number.expect("an answer has a number");
            *self.0.entry((question, number)).or_default() += 1;
        }
    }

    /// The answers that are possible and did not occur.
    pub fn missing(&self) -> Vec<(&'static str, u16)> {
        let possible = POSSIBLE
            .iter()
            .flat_map(|&(question, numbers)| numbers.iter().map(move |&number| (question, number)));
        possible.filter(|key| !self.0.contains_key(key)).collect()
    }
}

impl fmt::Display for Histogram {
    fn fmt(&self, out: &mut fmt::Formatter) -> fmt::Result {
        for (question, _) in POSSIBLE {
            write!(out, "{question}:")?;
            let answers = self.0.iter().filter(|((of, _), _)| *of == question);
            for ((_, number), times) in answers {
                write!(out, " {number} x {times},")?;
            }
            writeln!(out)?;
        }
        for (question, number) in self.missing() {
            writeln!(out, "missing: {question} {number}")?;
        }
        Ok(())
    }
}

/// Writes so many cases, `NNN.bundle` and, where other rows are lent, `NNN.args`.
pub fn write_cases(cases: Cases, count: usize, directory: &Path) -> Result<Histogram, String> {
    let directory = directory.to_path_buf();
    deep(move || {
        let told = |error: std::io::Error| format!("{}: {error}", directory.display());
        std::fs::create_dir_all(&directory).map_err(told)?;
        let mut histogram = Histogram::default();
        for number in 0..count {
            let case = cases.case(number);
            histogram.add(&case.answers());
            let file = directory.join(format!("{number:05}.bundle"));
            case.write(&file).map_err(told)?;
        }
        Ok(histogram)
    })
}

/// Writes a bundle for each rule of Shape broken alone, each sheet at the edge of a rule, and each fault of
/// blocks: `RULE-NN.bundle`, `edge-NN.bundle`, `block-NN.bundle`.
pub fn write_faults(directory: &Path) -> Result<(), String> {
    let told = |error: std::io::Error| format!("{}: {error}", directory.display());
    std::fs::create_dir_all(directory).map_err(told)?;
    let rules = faults().into_iter();
    let rules = rules.map(|it| (it.rule.replace(' ', "-"), bundles::to_bundle(&it.sheet)));
    let edges = edges().into_iter();
    let edges = edges.map(|it| ("edge".into(), bundles::to_bundle(&it)));
    let blocks = block_faults().into_iter();
    let blocks = blocks.map(|it| ("block".to_string(), it));
    for (number, (name, bundle)) in rules.chain(edges).chain(blocks).enumerate() {
        let file = directory.join(format!("{name}-{number:03}.bundle"));
        std::fs::write(file, bundle).map_err(told)?;
    }
    Ok(())
}

/// Answers so many cases and holds them against demand 3; what was seen, or the first failure.
pub fn self_check(seed: u64, count: usize) -> Result<String, String> {
    deep(move || {
        let cases = Cases::new(seed);
        let mut histogram = Histogram::default();
        let mut slowest = (Duration::ZERO, 0);
        let mut applied = 0;
        for number in 0..count {
            let case = cases.case(number);
            let started = Instant::now();
            let answers = std::panic::catch_unwind(|| case.answers());
            histogram.add(&answers.map_err(|_| format!("case {number}: a panic"))?);
            slowest = slowest.max((started.elapsed(), number));
            if let Ok(sheet) = bundles::read(&case.bundle) {
                let held = demands(&sheet).map_err(|fault| format!("case {number}: {fault}"))?;
                applied += usize::from(held);
            }
        }
        let (time, number) = slowest;
        Ok(format!(
            "{histogram}{count} cases, {applied} of them passed scripts on fitting forests; slowest: \
             case {number}, {} ms\n",
            time.as_millis()
        ))
    })
}

/// Demand 3 and the stability of answers under more fuel; true if the script passes the check and
/// the forest fits.
pub fn demands(sheet: &Sheet) -> Result<bool, String> {
    let judged = Judged::new(sheet);
    let lent = Lent::new(WORKING_ROWS, RESULT_ROWS);
    let passed = judged.check(lent).result.is_ok() && judged.fit(sheet.a).is_ok();
    same_with_other_fuel(sheet, lent)?;
    if !passed {
        return Ok(false);
    }
    match judged.run(Lent::new(WORKING_ROWS, usize::MAX)).result {
        Ok(forest) if !is_of_b(sheet, &forest) => Err("the result is not of B".to_string()),
        Err(refusal) if refusal.number() == 11 => Err("a passed script is stuck".to_string()),
        _ => Ok(true),
    }
}

fn is_of_b(sheet: &Sheet, forest: &Forest) -> bool {
    places::is_of(&Types::of(sheet), forest, sheet.b)
}

/// A verdict other than Fuel is the same with the units it took, and with all fuel; with one unit
/// less it is Fuel.
fn same_with_other_fuel(sheet: &Sheet, lent: Lent) -> Result<(), String> {
    let with = |check_fuel: u16, run_fuel: u16| Sheet {
        check_fuel,
        run_fuel,
        ..sheet.clone()
    };
    let most = with(FUEL, FUEL);
    let most = Judged::new(&most);
    let (check, run) = (most.check(lent), most.run(lent));
    let exact = with(check.units, run.units);
    let exact = Judged::new(&exact);
    if exact.check(lent) != check || exact.run(lent) != run {
        return Err("less fuel that suffices gives another answer".to_string());
    }
    let (Some(check_fuel), Some(run_fuel)) = (check.units.checked_sub(1), run.units.checked_sub(1))
    else {
        return Ok(());
    };
    let less = with(check_fuel, run_fuel);
    let less = Judged::new(&less);
    let numbers = [less.check(lent).result.err(), less.run(lent).result.err()];
    if numbers.iter().any(|it| it.map(|it| it.number()) != Some(5)) {
        return Err("one unit less is not Fuel".to_string());
    }
    Ok(())
}
