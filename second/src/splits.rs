//! A description split over two desks: an iter run on two forests, and on the two joined. Random splits, the same each time for
//! a seed, and what must hold of the three runs where none stops for fuel, depth, scratch or room.

use crate::answers::{deep, Judged, Lent, Reply};
use crate::cases::random;
use crate::dice::Dice;
use crate::forests::{Forest, Tree};
use crate::refusals::Refusal;
use crate::scripts::{Script, St};
use crate::shape::{well_shaped, FUEL};
use crate::tables::Sheet;
use std::fmt;

/// A sheet and the rows lent for its run.
pub struct Desk {
    pub sheet: Sheet,
    pub working: usize,
    pub result: usize,
}

/// Three sheets that differ in forest, root and fuels, and whose main row is an iter.
pub struct Split {
    pub whole: Desk,
    pub first: Desk,
    pub second: Desk,
}

/// What a run replied: its number with what it carries, its units, and the forest that it hands out.
#[derive(Clone, Debug, PartialEq)]
pub struct Seen {
    pub number: u16,
    pub carried: (u16, u16),
    pub units: u16,
    pub forest: Option<Forest>,
}

/// How the halves ended.
#[derive(Clone, Copy, Debug, PartialEq, Eq)]
pub enum Ending {
    Finished,
    FirstStuck,
    SecondStuck,
    /// One of the three stopped for fuel, depth, scratch or room: nothing is said of them.
    Stopped,
}

impl Desk {
    /// The script on this forest, lent at least what its run needs, and often no more.
    fn new(dice: &mut Dice, script: &Script, forest: Forest) -> Desk {
        let mut sheet = Script {
            forest,
            run_fuel: FUEL,
            ..script.clone()
        }
        .sheet();
        let all = Lent::new(usize::MAX, usize::MAX);
        let run = Judged::new(&sheet).run(all);
        let room = run.result.as_ref().map_or(0, Forest::rows);
        sheet.run_fuel = more(dice, usize::from(run.units)).min(usize::from(FUEL)) as u16;
        let working = sheet.forest.len() + usize::from(sheet.run_fuel);
        Desk {
            working: more(dice, working),
            result: more(dice, usize::try_from(room).unwrap_or(usize::MAX)),
            sheet,
        }
    }

    /// The second program's run.
    pub fn seen(&self) -> Seen {
        let judged = Judged::new(&self.sheet);
        Seen::of(judged.run(Lent::new(self.working, self.result)))
    }
}

/// So much, or a little more.
fn more(dice: &mut Dice, least: usize) -> usize {
    least.saturating_add(if dice.once_in(2) { 0 } else { dice.below(100) })
}

impl Seen {
    fn of(reply: Reply<Forest>) -> Seen {
        let refusal = reply.result.as_ref().err().copied();
        Seen {
            number: refusal.map_or(0, Refusal::number),
            carried: refusal.map_or((0, 0), Refusal::carried),
            units: reply.units,
            forest: reply.result.ok(),
        }
    }

    fn stopped(&self) -> bool {
        [5, 6, 12, 13].contains(&self.number)
    }
}

impl Split {
    /// A random script under iter, and trees from all levels of its forest on two desks; none where refusal 2, 3 or 4 is given.
    pub fn random(dice: &mut Dice) -> Option<Split> {
        let size = *dice.one_of(&[3, 6, 10, 16]);
        let mut script = random::script(dice, size);
        script.main = St::Iter(Box::new(script.main));
        let mut trees = Vec::new();
        gather(&script.forest, &mut trees);
        let mut some = |most| -> Forest {
            let count = if trees.is_empty() {
                0
            } else {
                dice.below(most)
            };
            (0..count).map(|_| dice.one_of(&trees).clone()).collect()
        };
        let (first, second) = (some(6), some(6));
        let split = Split {
            whole: Desk::new(dice, &script, first.join(&second)),
            first: Desk::new(dice, &script, first),
            second: Desk::new(dice, &script, second),
        };
        let sound = |desk: &Desk| well_shaped(&desk.sheet) && ![3, 4].contains(&desk.seen().number);
        let loads = split.desks().into_iter().all(sound);
        loads.then_some(split)
    }

    /// The whole, the first half, the second.
    pub fn desks(&self) -> [&Desk; 3] {
        [&self.whole, &self.first, &self.second]
    }
}

/// The trees of a forest, from all levels.
fn gather(forest: &Forest, trees: &mut Vec<Tree>) {
    for tree in forest.trees() {
        trees.push(tree.clone());
        if let Tree::Label(_, content) = tree {
            gather(content, trees);
        }
    }
}

/// "joined, gives the forest that iter gives on the joined input, and the units of the whole are the two sums together less 1 …
/// the whole is stuck exactly if the first half is, or the first finishes and the second is stuck", at the same row.
pub fn law(whole: &Seen, first: &Seen, second: &Seen) -> Result<Ending, String> {
    if [whole, first, second].into_iter().any(Seen::stopped) {
        return Ok(Ending::Stopped);
    }
    let less_one = first.units + second.units - 1;
    let (ending, wanted) = match (first.number, second.number) {
        (0, 0) => {
            let halves = first.forest.as_ref().zip(second.forest.as_ref());
            let joined = halves.map(|(first, second)| first.join(second));
            (Ending::Finished, seen(first, less_one, joined))
        }
        (0, 11) => (Ending::SecondStuck, seen(second, less_one, None)),
        (11, _) => (Ending::FirstStuck, seen(first, first.units, None)),
        numbers => return Err(format!("the halves gave {numbers:?}")),
    };
    if *whole == wanted {
        Ok(ending)
    } else {
        Err(format!(
            "{first:?}\nand {second:?}\nwant {wanted:?}\nnot {whole:?}"
        ))
    }
}

/// The reply of a half, with other units and another forest.
fn seen(half: &Seen, units: u16, forest: Option<Forest>) -> Seen {
    Seen {
        units,
        forest,
        ..half.clone()
    }
}

/// How the splits of a seed ended.
#[derive(Default)]
pub struct Tally {
    pub finished: usize,
    pub first_stuck: usize,
    pub second_stuck: usize,
    pub stopped: usize,
}

impl Tally {
    pub fn add(&mut self, ending: Ending) {
        *match ending {
            Ending::Finished => &mut self.finished,
            Ending::FirstStuck => &mut self.first_stuck,
            Ending::SecondStuck => &mut self.second_stuck,
            Ending::Stopped => &mut self.stopped,
        } += 1;
    }

    pub fn compared(&self) -> usize {
        self.finished + self.first_stuck + self.second_stuck
    }
}

impl fmt::Display for Tally {
    fn fmt(&self, out: &mut fmt::Formatter) -> fmt::Result {
        writeln!(
            out,
            "{} splits: {} finished, {} stuck in the first half, {} in the second; {} more stopped, and are not compared",
            self.compared(),
            self.finished,
            self.first_stuck,
            self.second_stuck,
            self.stopped
        )
    }
}

/// The splits of a seed, without end.
pub fn of_seed(seed: u64) -> impl Iterator<Item = Split> {
    let dice = move |number: u64| Dice::new(seed.wrapping_mul(0x1_0000_0001) ^ number);
    (0..).filter_map(move |number| Split::random(&mut dice(number)))
}

/// Runs splits of a seed by this program until so many are compared; how they ended, or the first that does not keep the law.
pub fn compare(seed: u64, count: usize) -> Result<Tally, String> {
    deep(move || {
        let mut tally = Tally::default();
        for split in of_seed(seed) {
            if tally.compared() == count {
                break;
            }
            let [whole, first, second] = split.desks().map(Desk::seen);
            tally.add(law(&whole, &first, &second)?);
        }
        Ok(tally)
    })
}
