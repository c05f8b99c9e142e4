//! Random cases through the proved calls and the second program in one process. The program `answers` is compared by
//! `second compare`; this is a second way, which is quick enough for very many cases.

use crate::{packed, proved, TABLES};
use second::answers::Judged;
use second::bundles;
use second::cases::{Case, Cases};

/// Compares so many cases of a seed, half of them one fault away from fitting: the reader's answer, the check's and the run's, and
/// fit's to each type row, to row 0 and to the row past the last.
pub fn agree(seed: u64, count: usize) {
    let cases = Cases::half_unfit(seed);
    let (mut answers, mut different) = (0, 0);
    for number in 0..count {
        let case = cases.case(number);
        for (own, theirs) in both(&case) {
            answers += 1;
            if own != theirs {
                different += 1;
                println!("seed {seed}, case {number}: second {own:#x}, proved {theirs:#x}");
            }
        }
    }
    println!("seed {seed}: {count} cases, {answers} answers, {different} different");
    assert_eq!(different, 0);
}

/// The second program's answers and the proved ones, packed.
fn both(case: &Case) -> Vec<(u64, u64)> {
    let mut tables = vec![0; TABLES];
    let read = bundles::read(&case.bundle);
    let mut answers = vec![(packed(&read), proved::read(&case.bundle, &mut tables))];
    let Ok(sheet) = read else {
        // nothing is written where the reader refuses
        answers.push((0, tables.iter().map(|&byte| u64::from(byte)).sum()));
        return answers;
    };
    let judged = Judged::new(&sheet);
    let past = sheet.types.len() as u16 + 1;
    let fits = judged.fits(0..=past);
    for (row, fit) in (0..).zip(&fits) {
        answers.push((packed(fit), proved::fit(&tables, row)));
    }
    #[cfg(feature = "run")]
    {
        answers.extend(checks(case, &judged, &tables));
        answers.extend(runs(case, &judged, &tables));
    }
    answers
}

/// The second program's check, packed as the proved one.
#[cfg(feature = "run")]
pub fn second_check(judged: &Judged, working: usize) -> u64 {
    let reply = judged.check(second::answers::Lent::new(working, 0));
    let units = u64::from(reply.units) << 16;
    reply.result.as_ref().map_or_else(
        |refusal| {
            let (a, b) = refusal.carried();
            u64::from(refusal.number()) + units + (u64::from(a) << 32) + (u64::from(b) << 48)
        },
        |()| units,
    )
}

/// The check's answer; and the working rows, which are to be zero.
#[cfg(feature = "run")]
fn checks(case: &Case, judged: &Judged, tables: &[u8]) -> Vec<(u64, u64)> {
    let (work, _) = case.lent.unwrap_or((6144, 8192));
    let mut working = vec![PAINT; 8 * work];
    let theirs = proved::check(tables, &mut working);
    let zero = working.iter().all(|&byte| byte == 0);
    vec![(second_check(judged, work), theirs), (1, u64::from(zero))]
}

/// What lent rows hold before a call.
#[cfg(feature = "run")]
const PAINT: u8 = 0xa5;

/// The second program's run, packed as the proved one, and its rows.
#[cfg(feature = "run")]
pub fn second_run(judged: &Judged, working: usize, result: usize) -> (u64, Vec<[u16; 4]>) {
    use second::answers::Lent;
    let reply = judged.run(Lent::new(working, result));
    let units = u64::from(reply.units) << 16;
    match &reply.result {
        Ok(forest) => {
            let (rows, root) = forest.to_rows();
            (units + (u64::from(root) << 32), rows)
        }
        Err(refusal) => {
            let (a, b) = refusal.carried();
            let carried = (u64::from(a) << 32) + (u64::from(b) << 48);
            (u64::from(refusal.number()) + units + carried, Vec::new())
        }
    }
}

/// How many units a sheet's run takes.
#[cfg(feature = "run")]
pub fn units(sheet: &second::tables::Sheet) -> u64 {
    second_run(&Judged::new(sheet), 6144, 8192).0 >> 16 & 0xffff
}

/// The run's answer; its rows, with what is past them; and the working rows, which are to be zero.
#[cfg(feature = "run")]
fn runs(case: &Case, judged: &Judged, tables: &[u8]) -> Vec<(u64, u64)> {
    let (work, room) = case.lent.unwrap_or((6144, 8192));
    let (mut working, mut result) = (vec![PAINT; 8 * work], vec![PAINT; 8 * room]);
    let theirs = proved::run(tables, &mut working, &mut result);
    let (own, rows) = second_run(judged, work, room);
    let mut wanted = vec![PAINT; 8 * room];
    for (place, word) in wanted.chunks_mut(2).zip(rows.as_flattened()) {
        place.copy_from_slice(&word.to_le_bytes());
    }
    let zero = working.iter().all(|&byte| byte == 0);
    vec![
        (own, theirs),
        (1, u64::from(result == wanted)),
        (1, u64::from(zero)),
    ]
}
