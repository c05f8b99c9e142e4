//! Mutated bundles through the archive for C and through the second program, in one process: every answer, unit, root and lent byte compared.
//! `mutated SEED COUNT` prints how many cases there were, how many answers of each number, how many different.

mod mutants;

use archive::Reply;
use second::answers::{deep, Judged, Lent, RESULT_ROWS, WORKING_ROWS};
use second::bundles;
use second::cases::Cases;
use second::dice::Dice;
use second::forests::Forest;
use second::refusals::Refusal;
use second::tables::Sheet;
use std::process::ExitCode;

const USAGE: &str = "usage: mutated SEED COUNT";

/// What lent bytes hold before a call.
const PAINT: u8 = 0xa5;
/// Painted bytes on both sides of what is lent.
const GUARD: usize = 64;
/// As many bytes as any tables have.
const TABLES: usize = 88 * 508;
/// More than count.
const MANY_ROWS: usize = 70_000;
/// How many mutants are made of one case.
const OF_ONE: usize = 16;

fn main() -> ExitCode {
    let args: Vec<String> = std::env::args().skip(1).collect();
    let [seed, count] = &args[..] else {
        panic!("{USAGE}")
    };
    let (seed, count) = (seed.parse().expect(USAGE), count.parse().expect(USAGE));
    deep(move || {
        let mut bench = Bench::new();
        bench.compare(seed, count);
        ExitCode::from(u8::from(bench.different > 0))
    })
}

#[derive(Clone, Copy)]
enum Call {
    Read,
    Write,
    Check,
    Fit,
    Run,
    Apply,
}

const CALLS: [&str; 6] = ["read", "write", "check", "fit", "run", "apply"];

/// What the second program says, and what it writes.
type Wanted = (Reply, Vec<u8>);

/// What was lent, kept from call to call, and what was seen.
struct Bench {
    work: Bytes,
    result: Bytes,
    copy: Bytes,
    /// The seed, and the number of the case.
    at: (u64, usize),
    answers: [[usize; 14]; CALLS.len()],
    different: usize,
}

/// Bytes to lend from, with guards; `used` of them are lent to a call.
struct Bytes {
    all: Vec<u8>,
    used: usize,
}

impl Bytes {
    fn new(most: usize) -> Bytes {
        Bytes {
            all: vec![PAINT; most + 2 * GUARD],
            used: 0,
        }
    }

    /// So many bytes, painted.
    fn lend(&mut self, used: usize) -> &mut [u8] {
        self.used = used;
        self.all[..used + 2 * GUARD].fill(PAINT);
        &mut self.all[GUARD..GUARD + used]
    }

    /// True if what was lent begins with these bytes and nothing else is changed.
    fn holds(&self, bytes: &[u8]) -> bool {
        static PAINTED: [u8; 8 * MANY_ROWS + 2 * GUARD] = [PAINT; 8 * MANY_ROWS + 2 * GUARD];
        let (before, lent) = self.all[..self.used + 2 * GUARD].split_at(GUARD);
        let Some((written, rest)) = lent.split_at_checked(bytes.len()) else {
            return false;
        };
        before == &PAINTED[..GUARD] && written == bytes && rest == &PAINTED[..rest.len()]
    }

    /// True if all that was lent is zero and nothing else is changed.
    fn is_zero(&self) -> bool {
        static ZERO: [u8; 8 * WORKING_ROWS + 7] = [0; 8 * WORKING_ROWS + 7];
        self.holds(&ZERO[..self.used])
    }
}

/// An answer without units.
fn answer<T>(result: &Result<T, Refusal>) -> Reply {
    let (number, (a, b)) = match result {
        Ok(_) => (0, (0, 0)),
        Err(refusal) => (refusal.number(), refusal.carried()),
    };
    Reply {
        number: number.into(),
        a: a.into(),
        b: b.into(),
        ..Reply::default()
    }
}

/// The answer of a run or of apply, and its rows.
fn edited(check_units: u16, run_units: u16, result: &Result<Forest, Refusal>) -> Wanted {
    let (rows, root) = result.as_ref().map_or((Vec::new(), 0), Forest::to_rows);
    let reply = Reply {
        check_units: check_units.into(),
        run_units: run_units.into(),
        root: root.into(),
        ..answer(result)
    };
    let words = rows.as_flattened().iter();
    (reply, words.flat_map(|word| word.to_le_bytes()).collect())
}

/// The tables of a sheet in bytes: what is in its bundle, without frames and padding.
fn tables_of(sheet: &Sheet) -> Vec<u8> {
    let bundle = bundles::to_bundle(sheet);
    let mut bytes: Vec<u8> = bundle
        .chunks(512)
        .flat_map(|it| &it[2..510])
        .copied()
        .collect();
    let [names, types, queries, statements, procedures, forest, pool] = bundles::counts(sheet);
    let words = 13 + names + 3 * types + 4 * queries + 4 * statements + 5 * procedures + 4 * forest;
    bytes.truncate(2 * words + pool);
    bytes
}

/// As much as is needed, one less, some of it, or the most.
fn about(dice: &mut Dice, needed: usize, most: usize) -> usize {
    match dice.below(8) {
        0 | 1 => needed.min(most),
        2 => needed.saturating_sub(1).min(most),
        3 => dice.below(needed + 1).min(most),
        _ => most,
    }
}

/// Working and result rows: about what the sheet needs.
fn lent_rows(dice: &mut Dice, sheet: &Sheet, judged: &Judged) -> (usize, usize) {
    let run_needs = sheet.forest.len() + usize::from(sheet.run_fuel);
    let needed = *dice.one_of(&[sheet.check_fuel.into(), run_needs]);
    let work = about(dice, needed, WORKING_ROWS);
    let run = judged.run(Lent::new(WORKING_ROWS, MANY_ROWS));
    let needed = run.result.map_or(8, |forest| forest.rows() as usize);
    let most = *dice.one_of(&[RESULT_ROWS, RESULT_ROWS, RESULT_ROWS, MANY_ROWS]);
    (work, about(dice, needed, most))
}

impl Bench {
    fn new() -> Bench {
        Bench {
            work: Bytes::new(8 * WORKING_ROWS + 7),
            result: Bytes::new(8 * MANY_ROWS + 7),
            copy: Bytes::new(TABLES + 1024),
            at: (0, 0),
            answers: [[0; 14]; CALLS.len()],
            different: 0,
        }
    }

    fn compare(&mut self, seed: u64, count: usize) {
        let cases = Cases::new(seed);
        let mut dice = Dice::new(!seed);
        let mut case = cases.case(0);
        for number in 0..count {
            if number % OF_ONE == 0 {
                case = cases.case(number / OF_ONE);
            }
            self.at = (seed, number);
            let bundle = mutants::mutant(&mut dice, &case.bundle);
            self.try_bundle(&mut dice, &bundle);
        }
        println!(
            "seed {seed}: {count} mutated bundles, {} answers, {} different",
            self.answers.as_flattened().iter().sum::<usize>(),
            self.different
        );
        for (call, answers) in CALLS.iter().zip(&self.answers) {
            let seen = answers.iter().enumerate().filter(|(_, &times)| times > 0);
            let seen: Vec<String> = seen
                .map(|(number, times)| format!("{number} x {times}"))
                .collect();
            println!("{call}: {}", seen.join(", "));
        }
    }

    /// Counts an answer, and says so if it is not the second program's, or if a lent byte is not as it should be.
    fn tell(&mut self, call: Call, wanted: Reply, said: Reply, bytes: bool) {
        self.answers[call as usize][wanted.number] += 1;
        if said == wanted && bytes {
            return;
        }
        self.different += 1;
        if self.different <= 20 {
            let (seed, number) = self.at;
            println!("seed {seed}, case {number}, {}: second {wanted:?}, archive {said:?}, bytes right: {bytes}", CALLS[call as usize]);
        }
    }

    fn try_bundle(&mut self, dice: &mut Dice, bundle: &[u8]) {
        let unframed = bundles::unframe(bundle);
        let read = bundles::read(bundle);
        self.try_copies(dice, bundle, unframed.as_ref(), &read);
        match &read {
            Ok(sheet) => self.try_sheet(dice, bundle, sheet),
            Err(refusal) => self.try_refused(dice, bundle, *refusal),
        }
    }

    /// The reader; and the writer, of what was read and of what Shape refuses.
    fn try_copies(
        &mut self,
        dice: &mut Dice,
        bundle: &[u8],
        unframed: Option<&Sheet>,
        read: &Result<Sheet, Refusal>,
    ) {
        let tables = unframed.map_or(Vec::new(), tables_of);
        let room = about(dice, tables.len(), TABLES);
        let wanted = match read {
            Ok(_) if room < tables.len() => Err(Refusal::Room),
            Ok(_) => Ok(tables.clone()),
            Err(refusal) => Err(*refusal),
        };
        let said = archive::read(bundle, self.copy.lend(room));
        self.tell_copy(Call::Read, &wanted, said);
        let Some(sheet) = unframed else { return };
        let room = about(dice, bundle.len(), TABLES + 1024);
        let said = archive::write(&tables, self.copy.lend(room));
        self.tell_copy(Call::Write, &bundles::write(sheet, room / 512), said);
    }

    fn tell_copy(&mut self, call: Call, wanted: &Result<Vec<u8>, Refusal>, said: Reply) {
        let held = self.copy.holds(wanted.as_deref().unwrap_or_default());
        self.tell(call, answer(wanted), said, held);
    }

    /// The questions about what the reader refuses.
    fn try_refused(&mut self, dice: &mut Dice, bundle: &[u8], refusal: Refusal) {
        let lent = (dice.below(512), dice.below(512));
        let wanted = (answer(&Err::<(), _>(refusal)), Vec::new());
        self.try_check(bundle, lent.0, wanted.0);
        self.tell(
            Call::Fit,
            wanted.0,
            archive::fit(bundle, dice.below(8)),
            true,
        );
        self.try_edits(bundle, lent, &wanted, &wanted);
    }

    /// The questions about a sheet.
    fn try_sheet(&mut self, dice: &mut Dice, bundle: &[u8], sheet: &Sheet) {
        let judged = Judged::new(sheet);
        let (work, room) = lent_rows(dice, sheet, &judged);
        let rows = Lent::new(work, room);
        let odd = dice.below(8);
        let lent = (8 * work + odd, 8 * room + odd);

        let check = judged.check(rows);
        let wanted = Reply {
            check_units: check.units.into(),
            ..answer(&check.result)
        };
        self.try_check(bundle, lent.0, wanted);

        let told = [sheet.a, dice.below(sheet.types.len() + 2) as u16];
        for (row, fit) in told.into_iter().zip(judged.fits(told.into_iter())) {
            self.tell(
                Call::Fit,
                answer(&fit),
                archive::fit(bundle, row.into()),
                true,
            );
        }

        let run = judged.run(rows);
        let apply = judged.apply(rows);
        let ran = edited(0, run.units, &run.result);
        let applied = edited(apply.check_units, apply.run_units, &apply.result);
        self.try_edits(bundle, lent, &ran, &applied);
    }

    fn try_check(&mut self, bundle: &[u8], work: usize, wanted: Reply) {
        let said = archive::check(bundle, self.work.lend(work));
        let zero = self.work.is_zero();
        self.tell(Call::Check, wanted, said, zero);
    }

    /// Run and apply, with so many working and result bytes lent.
    fn try_edits(&mut self, bundle: &[u8], lent: (usize, usize), ran: &Wanted, applied: &Wanted) {
        let said = archive::run(bundle, self.work.lend(lent.0), self.result.lend(lent.1));
        let held = self.work.is_zero() && self.result.holds(&ran.1);
        self.tell(Call::Run, ran.0, said, held);
        let said = archive::apply(bundle, self.work.lend(lent.0), self.result.lend(lent.1));
        let held = self.work.is_zero() && self.result.holds(&applied.1);
        self.tell(Call::Apply, applied.0, said, held);
    }
}
