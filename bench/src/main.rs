//! The proved calls and the second program side by side: how fast (`speed`), and whether they agree (`agree`).

mod agree;
mod clock;
mod inputs;
mod proved;

use clock::{compare, head, row, Compared};
use inputs::Input;
use second::answers::{deep, Judged};
use second::bundles;
use second::cases::Cases;
use second::refusals::Refusal;
use second::shape::well_shaped;
use second::tables::Sheet;
use std::path::Path;

const USAGE: &str =
    "usage: bench speed | bench agree SEED COUNT | bench repeat COUNT | bench bundles DIR | bench counted | bench once PLACE";

/// As many bytes as the largest sheet needs.
const TABLES: usize = 88 * 508;

fn main() {
    let args: Vec<String> = std::env::args().skip(1).collect();
    let words: Vec<&str> = args.iter().map(String::as_str).collect();
    match words[..] {
        ["speed"] => deep(speed),
        ["agree", seed, count] => {
            let (seed, count) = (seed.parse().expect(USAGE), count.parse().expect(USAGE));
            deep(move || agree::agree(seed, count));
        }
        ["repeat", count] => repeat(count.parse().expect(USAGE)),
        ["bundles", folder] => write_bundles(Path::new(folder)),
        ["counted"] => list_counted(),
        ["once", place] => once(place.parse().expect(USAGE)),
        _ => panic!("{USAGE}"),
    }
}

/// An answer in the form of the proved calls.
fn packed<T>(result: &Result<T, Refusal>) -> u64 {
    result.as_ref().map_or_else(
        |refusal| {
            let (a, b) = refusal.carried();
            u64::from(refusal.number()) + (u64::from(a) << 16) + (u64::from(b) << 32)
        },
        |_| 0,
    )
}

/// The second program's reader, then its fit: 2 was judged by the reader.
fn second_read_and_fit(bundle: &[u8]) -> u64 {
    match bundles::read(bundle) {
        Ok(sheet) => packed(&Judged::new(&sheet).fit(sheet.a)),
        refused => packed(&refused),
    }
}

/// The proved reader, then the proved fit, which judges 2 again.
fn proved_read_and_fit(bundle: &[u8], tables: &mut [u8]) -> u64 {
    match proved::read(bundle, tables) {
        0 => proved::fit(tables, u16::from_le_bytes([tables[14], tables[15]])),
        refused => refused,
    }
}

/// The second program's fit over tables that it is handed: 2, 3, 4, 10.
fn second_fit(sheet: &Sheet) -> u64 {
    if !well_shaped(sheet) {
        return 2;
    }
    packed(&Judged::new(sheet).fit(sheet.a))
}

/// The tables of an input, as the proved reader leaves them.
fn tables_of(input: &Input) -> Vec<u8> {
    let mut tables = vec![0; TABLES];
    assert_eq!(proved::read(&input.bundle, &mut tables), 0);
    tables
}

fn compare_read(input: &Input) -> Compared {
    let mut tables = vec![0; TABLES];
    compare(
        &mut || proved::read(&input.bundle, &mut tables),
        &mut || packed(&bundles::read(&input.bundle)),
    )
}

fn compare_read_and_fit(bundles: &[&[u8]]) -> Compared {
    let mut tables = vec![0; TABLES];
    let sum = |one: &mut dyn FnMut(&[u8]) -> u64| {
        bundles
            .iter()
            .fold(0, |sum: u64, bundle| sum.wrapping_mul(31) + one(bundle))
    };
    compare(
        &mut || sum(&mut |bundle| proved_read_and_fit(bundle, &mut tables)),
        &mut || sum(&mut second_read_and_fit),
    )
}

fn compare_fit(input: &Input) -> Compared {
    let tables = tables_of(input);
    compare(&mut || proved::fit(&tables, input.sheet.a), &mut || {
        second_fit(&input.sheet)
    })
}

fn speed() {
    let largest = [inputs::largest(), inputs::largest_wide()];
    head("Reading: a bundle to a sheet (refusals 1, 2)");
    for input in largest.iter().chain([&inputs::p1()]) {
        row(&input.name, &compare_read(input));
    }
    head("Reading and judging: a bundle to fit's answer (1, 2, 3, 4, 10)");
    for input in largest.iter().chain([&inputs::p1()]) {
        row(&input.name, &compare_read_and_fit(&[&input.bundle]));
    }
    let cases = Cases::new(1);
    let cases: Vec<Vec<u8>> = (0..1000).map(|at| cases.case(at).bundle).collect();
    let cases: Vec<&[u8]> = cases.iter().map(Vec::as_slice).collect();
    row("1,000 random cases, all", &compare_read_and_fit(&cases));
    head("Fit: a sheet to its answer (2, 3, 4, 10)");
    for input in largest.iter().chain([&inputs::p1()]) {
        row(&input.name, &compare_fit(input));
    }
    for input in SIZES.into_iter().flat_map(forests) {
        row(&input.name, &compare_fit(&input));
    }
    growth();
    runs();
}

const SIZES: [usize; 4] = [256, 512, 1024, 2048];
/// What the growth is counted from.
const FEW: usize = 8;

fn forests(rows: usize) -> [Input; 3] {
    [
        inputs::siblings(rows),
        inputs::nest(rows),
        inputs::machine_rows(rows),
    ]
}

/// The proved reader and fit when the rows double: the nanoseconds of each row past the first few.
fn growth() {
    println!("\nGrowth of the proved calls: nanoseconds for each row past the first {FEW}");
    println!("{:<40} {:>12} {:>12}", "", "read", "fit");
    let few = forests(FEW);
    for rows in SIZES {
        for (input, few) in forests(rows).iter().zip(&few) {
            let more = (input.sheet.forest.len() - few.sheet.forest.len()) as f64 * 1e-9;
            let read = (read_time(input) - read_time(few)) / more;
            let fit = (fit_time(input) - fit_time(few)) / more;
            println!("{:<40} {read:>9.2} ns {fit:>9.2} ns", input.name);
        }
    }
}

fn read_time(input: &Input) -> f64 {
    let mut tables = vec![0; TABLES];
    clock::alone(&mut || proved::read(&input.bundle, &mut tables))
}

fn fit_time(input: &Input) -> f64 {
    let tables = tables_of(input);
    clock::alone(&mut || proved::fit(&tables, input.sheet.a))
}

#[cfg(not(feature = "run"))]
fn runs() {
    println!("\nThe run: crates.txt lists no `desk`, so there is nothing proved to time");
}

#[cfg(feature = "run")]
fn runs() {
    head("The run: a sheet to its answer and rows (2 to 6, 11 to 13)");
    for input in [
        inputs::p1(),
        inputs::groups(64),
        inputs::few_touched(),
        inputs::nested_loops(9, 4096),
        inputs::nested_loops(10, 4096),
    ] {
        let name = format!("{}, {} units", input.name, agree::units(&input.sheet));
        row(&name, &compare_run(&input));
    }
    head("The same loops over 32 trees, stopped by fuel");
    let of_fuel = |fuel| inputs::nested_loops(32, fuel);
    each_unit(&of_fuel(0), &[512, 1024, 2048, 4096].map(of_fuel));
    head("S on more groups, with its result rows");
    each_unit(&inputs::groups(0), &[8, 16, 32, 64].map(inputs::groups));
    head("The check: a sheet to its answer (2 to 9, 12)");
    for input in checked() {
        let units = check_units(&input.sheet);
        let name = format!("{}, {units} units", input.name);
        row(&name, &compare_check(&input));
    }
}

/// The sheets whose check is timed.
#[cfg(feature = "run")]
fn checked() -> [Input; 7] {
    [
        inputs::p3(),
        inputs::largest(),
        inputs::largest_wide(),
        inputs::full(),
        inputs::many_inclusions(),
        inputs::one_inclusion_again(),
        inputs::limits(),
    ]
}

/// How many units a sheet's check takes.
#[cfg(feature = "run")]
fn check_units(sheet: &Sheet) -> u64 {
    let answer = agree::second_check(&Judged::new(sheet), second::answers::WORKING_ROWS);
    answer >> 16 & 0xffff
}

#[cfg(feature = "run")]
fn compare_check(input: &Input) -> Compared {
    use second::answers::WORKING_ROWS;
    let tables = tables_of(input);
    let mut working = vec![0; 8 * WORKING_ROWS];
    compare(&mut || proved::check(&tables, &mut working), &mut || {
        if !well_shaped(&input.sheet) {
            return 2;
        }
        agree::second_check(&Judged::new(&input.sheet), WORKING_ROWS)
    })
}

/// Times, and what each unit takes past the run that has next to none.
#[cfg(feature = "run")]
fn each_unit(idle: &Input, inputs: &[Input]) {
    let none = compare_run(idle);
    row(&format!("{} units", agree::units(&idle.sheet)), &none);
    for input in inputs {
        let units = agree::units(&input.sheet);
        let it = compare_run(input);
        let more = (units - agree::units(&idle.sheet)) as f64 * 1e-9;
        let (first, other) = (
            (it.first - none.first) / more,
            (it.other - none.other) / more,
        );
        row(&format!("{units} units"), &it);
        println!(
            "{:<40} {first:>9.2} ns {other:>9.2} ns",
            "    for each unit more"
        );
    }
}

#[cfg(feature = "run")]
fn compare_run(input: &Input) -> Compared {
    use second::answers::{RESULT_ROWS, WORKING_ROWS};
    let tables = tables_of(input);
    let (mut working, mut result) = (vec![0; 8 * WORKING_ROWS], vec![0; 8 * RESULT_ROWS]);
    compare(
        &mut || proved::run(&tables, &mut working, &mut result),
        &mut || {
            if !well_shaped(&input.sheet) {
                return 2;
            }
            agree::second_run(&Judged::new(&input.sheet), WORKING_ROWS, RESULT_ROWS).0
        },
    )
}

/// The proved calls alone on the largest machine, for a profiler.
fn repeat(count: usize) {
    let input = inputs::largest();
    let mut tables = vec![0; TABLES];
    for _ in 0..count {
        assert_eq!(proved_read_and_fit(&input.bundle, &mut tables), 0);
    }
}

/// What `bench/instructions` counts: the call, as the archive names it, and its input.
fn counted() -> Vec<(&'static str, Input)> {
    let mut all = vec![
        ("bench_read", inputs::largest()),
        ("bench_read", inputs::p1()),
        ("bench_fit", inputs::largest()),
        ("bench_fit", inputs::largest_wide()),
        ("bench_fit", inputs::p1()),
    ];
    if cfg!(feature = "run") {
        all.extend([
            ("bench_run", inputs::groups(64)),
            ("bench_run", inputs::groups(0)),
            ("bench_run", inputs::nested_loops(9, 4096)),
            ("bench_run", inputs::few_touched()),
            ("bench_run", inputs::p1()),
            ("bench_check", inputs::p3()),
            ("bench_check", inputs::largest()),
            ("bench_check", inputs::full()),
            ("bench_check", inputs::many_inclusions()),
        ]);
    }
    all
}

fn list_counted() {
    for (place, (call, input)) in counted().iter().enumerate() {
        println!("{place} {call} {}", input.name);
    }
}

/// One call, for a profiler that counts while it runs.
fn once(place: usize) {
    let (call, input) = counted().swap_remove(place);
    if call == "bench_read" {
        assert_eq!(proved::read(&input.bundle, &mut vec![0; TABLES]), 0);
        return;
    }
    let tables = tables_of(&input);
    if call == "bench_fit" {
        assert_eq!(proved::fit(&tables, input.sheet.a), 0);
        return;
    }
    #[cfg(feature = "run")]
    {
        use second::answers::{RESULT_ROWS, WORKING_ROWS};
        let (mut working, mut result) = (vec![0; 8 * WORKING_ROWS], vec![0; 8 * RESULT_ROWS]);
        if call == "bench_check" {
            proved::check(&tables, &mut working);
            return;
        }
        assert_eq!(proved::run(&tables, &mut working, &mut result) % 65536, 0);
    }
}

/// Writes each input as a bundle, with the type row A in its name.
fn write_bundles(folder: &Path) {
    let mut all = vec![inputs::largest(), inputs::largest_wide()];
    all.extend([1, 2000].map(inputs::siblings));
    all.extend([1, 2000].map(inputs::siblings_asked));
    all.extend([1, 500, 1000, 2000, 2048].map(inputs::nest));
    all.extend([inputs::p1(), inputs::groups(64), inputs::few_touched()]);
    all.push(inputs::nested_loops(9, 4096));
    all.extend([inputs::calls(), inputs::deep_query(), inputs::deep_loops()]);
    all.extend(inputs::deep_types());
    all.extend([
        inputs::deep_ifs(),
        inputs::many_inclusions(),
        inputs::limits(),
    ]);
    for input in all {
        let name = input.name.replace(',', "").replace(' ', "-");
        let path = folder.join(format!("{name}.{}.bundle", input.sheet.a));
        std::fs::write(&path, &input.bundle).expect("a bundle can be written");
    }
}
