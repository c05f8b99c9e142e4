//! Apply through the archive for C and through the second program, from a bundle to its rows; and the reader's share of it.

#[allow(dead_code)]
#[allow(dead_code)]
mod clock;
#[allow(dead_code)]
mod inputs;

use clock::{compare, head, row};
use inputs::Input;
use second::answers::{deep, Judged, Lent, RESULT_ROWS, WORKING_ROWS};
use second::bundles;

/// As many bytes as the largest sheet needs.
const TABLES: usize = 88 * 508;

fn main() {
    deep(|| {
        let inputs = [
            inputs::p1(),
            inputs::groups_of_a(64),
            inputs::machine_edited(),
        ];
        head("Apply: a bundle to its rows (0 to 10, 12, 13)");
        inputs.iter().for_each(compare_apply);
        head("The reader's share of it (1, 2)");
        inputs.iter().for_each(compare_read);
    });
}

/// Units and root in one number: both have to be done.
fn packed(number: usize, check_units: usize, run_units: usize, root: usize) -> u64 {
    assert_eq!(number, 0, "apply is done");
    (check_units as u64) + ((run_units as u64) << 16) + ((root as u64) << 32)
}

fn compare_apply(input: &Input) {
    let (mut work, mut result) = (vec![0; 8 * WORKING_ROWS], vec![0; 8 * RESULT_ROWS]);
    let times = compare(
        &mut || {
            let it = archive::apply(&input.bundle, &mut work, &mut result);
            packed(it.number, it.check_units, it.run_units, it.root)
        },
        &mut || {
            let sheet = bundles::read(&input.bundle).expect("a sheet");
            let it = Judged::new(&sheet).apply(Lent::new(WORKING_ROWS, RESULT_ROWS));
            let (rows, root) = it.result.expect("done").to_rows();
            assert_eq!(rows.len(), usize::from(root));
            packed(0, it.check_units.into(), it.run_units.into(), root.into())
        },
    );
    row(&input.name, &times);
}

fn compare_read(input: &Input) {
    let mut tables = vec![0; TABLES];
    let times = compare(
        &mut || archive::read(&input.bundle, &mut tables).number as u64,
        &mut || u64::from(bundles::read(&input.bundle).is_err()),
    );
    row(&input.name, &times);
}
