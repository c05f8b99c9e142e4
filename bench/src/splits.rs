//! Descriptions split over two desks, through the archive for C and through the second program: the three runs of each split compared
//! with the second program's, and with each other. `splits SEED COUNT` prints how the splits ended.

use second::answers::deep;
use second::bundles;
use second::forests::Forest;
use second::splits::{law, of_seed, Desk, Seen, Tally};

const USAGE: &str = "usage: splits SEED COUNT";

fn main() {
    let args: Vec<String> = std::env::args().skip(1).collect();
    let [seed, count] = &args[..] else {
        panic!("{USAGE}")
    };
    let (seed, count) = (seed.parse().expect(USAGE), count.parse().expect(USAGE));
    print!("seed {seed}: {}", deep(move || compare(seed, count)));
}

/// Runs splits until so many are compared, and panics at the first that is not as it should be.
fn compare(seed: u64, count: usize) -> Tally {
    let mut tally = Tally::default();
    for split in of_seed(seed) {
        if tally.compared() == count {
            break;
        }
        let [whole, first, second] = split.desks().map(|desk| {
            let (own, proved) = (desk.seen(), proved(desk));
            assert_eq!(own, proved, "the second program, the archive");
            proved
        });
        match law(&whole, &first, &second) {
            Ok(ending) => tally.add(ending),
            Err(fault) => panic!("{fault}"),
        }
    }
    tally
}

/// What the archive's run replies.
fn proved(desk: &Desk) -> Seen {
    let bundle = bundles::to_bundle(&desk.sheet);
    let (mut work, mut result) = (vec![0xa5; 8 * desk.working], vec![0xa5; 8 * desk.result]);
    let reply = archive::run(&bundle, &mut work, &mut result);
    assert!(work.iter().all(|&byte| byte == 0), "working rows are zero");
    let word = |at: &[u8]| u16::from_le_bytes([at[0], at[1]]);
    let rows: Vec<[u16; 4]> = result
        .chunks_exact(8)
        .map(|row| [0, 2, 4, 6].map(|at| word(&row[at..])))
        .collect();
    let short = |number: usize| u16::try_from(number).expect("a word");
    Seen {
        number: short(reply.number),
        carried: (short(reply.a), short(reply.b)),
        units: short(reply.run_units),
        forest: (reply.number == 0).then(|| Forest::of_rows(&rows, short(reply.root))),
    }
}
