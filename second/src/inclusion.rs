//! Inclusion: "a found type lies within a declared one exactly if every forest of the first is one
//! of the second". Decided for any two types by a search for a forest of the first that is not of
//! the second, over partial derivatives of both; a "no" is that forest.
//!
//! A goal asks for a forest of one rest of the found type that is of none of a set of rests of the
//! wanted type. It is met by `()`, or by a tree and a further forest:
//!
//! - the tree's head is that of an atom which may stand first in the found rest;
//! - of the wanted rests, only those with a first atom of that head matter ("rivals"), and for each
//!   rival either the tree's content is not of its content or the further forest is not of what
//!   follows it. Each way to share the rivals out between the two gives two smaller goals.
//!
//! All goals within reach are gathered, then those that are met are marked, from `()` upwards. A
//! wanted type without ties has at most one rival at a time; each further one doubles the ways.

use crate::forests::{Forest, Tree};
use crate::tables::Type;
use crate::types::{Head, Types};
use std::collections::{HashMap, VecDeque};
use std::hash::{BuildHasherDefault, Hasher};
use std::rc::Rc;

/// A forest of the found type that is not of the wanted type, if there is one.
pub fn refute(types: &Types, found: u16, wanted: u16) -> Option<Forest> {
    let mut search = Search::new(types);
    let goal = search.content_goal(found, &[wanted]);
    search.gather();
    search.mark();
    search.met[goal as usize]?;
    Some(search.forest(goal, &mut Map::default()))
}

/// A map whose keys are small numbers, which spends little on hashing them.
type Map<K, V> = HashMap<K, V, BuildHasherDefault<Mix>>;

#[derive(Default)]
struct Mix(u64);

impl Hasher for Mix {
    fn write(&mut self, bytes: &[u8]) {
        for &byte in bytes {
            self.write_u32(byte.into());
        }
    }

    fn write_u16(&mut self, number: u16) {
        self.write_u32(number.into());
    }

    fn write_u32(&mut self, number: u32) {
        let mixed = (self.0 ^ u64::from(number)).wrapping_mul(0x9e37_79b9_7f4a_7c15);
        self.0 = mixed ^ (mixed >> 32);
    }

    fn finish(&self) -> u64 {
        self.0
    }
}

/// A rest is the type rows still to come, as a number in `Search::rests`.
type RestId = u32;
/// A set of rests, as a number in `Search::sets`.
type SetId = u32;
type GoalId = u32;

/// The rest in which no row is to come.
const NOTHING: RestId = 0;

/// A row to come and what comes after it.
struct Rest {
    row: u16,
    then: RestId,
    nullable: bool,
    /// The rests, at most two, that it is the choice of, once asked for.
    unfolded: Option<[Option<RestId>; 2]>,
    /// Its partial derivatives in order, once asked for.
    steps: Option<Rc<[Step]>>,
}

/// A partial derivative: an atom that may stand first, and the rest after it.
#[derive(Clone, Copy, PartialEq, Eq, PartialOrd, Ord)]
struct Step {
    head: Head,
    content: Option<u16>,
    then: RestId,
}

/// A forest of `found` that is of none of `wanted`.
#[derive(Clone, Copy, PartialEq, Eq, Hash)]
struct Goal {
    found: RestId,
    wanted: SetId,
}

/// How the rivals of a first tree are shared out: its content is to be none of some rivals'
/// contents, and the further forest is to be of none of the rests after the others.
struct Share {
    inside: Option<GoalId>,
    avoided: SetId,
}

/// How a goal may be met.
#[derive(Clone, Copy)]
enum Way {
    Nothing,
    Tree {
        head: Head,
        inside: Option<GoalId>,
        then: GoalId,
    },
}

struct Search<'a> {
    types: &'a Types,
    rests: Vec<Rest>,
    rest_ids: Map<(u16, RestId), RestId>,
    sets: Vec<Rc<[RestId]>>,
    set_ids: Map<Rc<[RestId]>, SetId>,
    goals: Vec<Goal>,
    goal_ids: Map<Goal, GoalId>,
    ways: Vec<Vec<Way>>,
    met: Vec<Option<Way>>,
}

impl<'a> Search<'a> {
    fn new(types: &'a Types) -> Search<'a> {
        let nothing = Rest {
            row: 0,
            then: NOTHING,
            nullable: true,
            unfolded: Some([None, None]),
            steps: Some(Rc::new([])),
        };
        Search {
            types,
            rests: vec![nothing],
            rest_ids: Map::default(),
            sets: Vec::new(),
            set_ids: Map::default(),
            goals: Vec::new(),
            goal_ids: Map::default(),
            ways: Vec::new(),
            met: Vec::new(),
        }
    }

    /// The rest of this row and then that rest.
    fn rest(&mut self, row: u16, then: RestId) -> RestId {
        if let Some(&known) = self.rest_ids.get(&(row, then)) {
            return known;
        }
        let nullable = self.types.nullable(row) && self.nullable(then);
        let id = number(self.rests.len());
        self.rests.push(Rest {
            row,
            then,
            nullable,
            unfolded: None,
            steps: None,
        });
        self.rest_ids.insert((row, then), id);
        id
    }

    fn nullable(&self, rest: RestId) -> bool {
        self.rests[rest as usize].nullable
    }

    /// The partial derivatives of a rest, in order.
    fn steps(&mut self, rest: RestId) -> Rc<[Step]> {
        if let Some(known) = &self.rests[rest as usize].steps {
            return known.clone();
        }
        let mut steps = Vec::new();
        let mut reached = vec![rest];
        let mut seen = vec![false; self.rests.len()];
        seen[rest as usize] = true;
        while let Some(rest) = reached.pop() {
            steps.extend(self.step(rest));
            let unfolded = self.unfold(rest);
            seen.resize(self.rests.len(), false);
            for rest in unfolded.into_iter().flatten() {
                if !std::mem::replace(&mut seen[rest as usize], true) {
                    reached.push(rest);
                }
            }
        }
        steps.sort_unstable();
        steps.dedup();
        let steps: Rc<[Step]> = steps.into();
        self.rests[rest as usize].steps = Some(steps.clone());
        steps
    }

    /// The one step of a rest whose row is an atom.
    fn step(&self, rest: RestId) -> Option<Step> {
        if rest == NOTHING {
            return None;
        }
        let Rest { row, then, .. } = self.rests[rest as usize];
        Some(Step {
            head: self.types.head(row)?,
            content: self.types.content(row),
            then,
        })
    }

    /// The rests, at most two, that a rest is the choice of, if its row is no atom.
    fn unfold(&mut self, rest: RestId) -> [Option<RestId>; 2] {
        let Rest {
            row,
            then,
            unfolded,
            ..
        } = self.rests[rest as usize];
        if let Some(known) = unfolded {
            return known;
        }
        let unfolded = match self.types.row(row) {
            Type::Empty => [Some(then), None],
            Type::Sequence(p, q) => {
                let after = self.rest(q, then);
                [Some(self.rest(p, after)), None]
            }
            Type::Choice(p, q) => [Some(self.rest(p, then)), Some(self.rest(q, then))],
            Type::Star(p) => [Some(then), Some(self.rest(p, rest))],
            Type::Text | Type::Bool | Type::Label { .. } | Type::Name(_) => [None, None],
        };
        self.rests[rest as usize].unfolded = Some(unfolded);
        unfolded
    }

    fn set(&mut self, mut rests: Vec<RestId>) -> SetId {
        rests.sort_unstable();
        rests.dedup();
        if let Some(&known) = self.set_ids.get(rests.as_slice()) {
            return known;
        }
        let id = number(self.sets.len());
        let rests: Rc<[RestId]> = rests.into();
        self.sets.push(rests.clone());
        self.set_ids.insert(rests, id);
        id
    }

    fn goal(&mut self, found: RestId, wanted: SetId) -> GoalId {
        let goal = Goal { found, wanted };
        if let Some(&known) = self.goal_ids.get(&goal) {
            return known;
        }
        let id = number(self.goals.len());
        self.goals.push(goal);
        self.goal_ids.insert(goal, id);
        id
    }

    /// A forest of the one row that is of none of the others.
    fn content_goal(&mut self, found: u16, wanted: &[u16]) -> GoalId {
        let found = self.rest(found, NOTHING);
        let wanted = wanted.iter().map(|&row| self.rest(row, NOTHING)).collect();
        let wanted = self.set(wanted);
        self.goal(found, wanted)
    }

    /// Finds the ways of every goal within reach.
    fn gather(&mut self) {
        while let Some(&goal) = self.goals.get(self.ways.len()) {
            let ways = self.ways_of(goal);
            self.ways.push(ways);
        }
        self.met = vec![None; self.goals.len()];
    }

    fn ways_of(&mut self, goal: Goal) -> Vec<Way> {
        let wanted = self.sets[goal.wanted as usize].clone();
        if self.nullable(goal.found) && !wanted.iter().any(|&rest| self.nullable(rest)) {
            return vec![Way::Nothing];
        }
        let mut ways = Vec::new();
        let steps = self.steps(goal.found);
        for like in steps.chunk_by(|p, q| (p.head, p.content) == (q.head, q.content)) {
            let (head, content) = (like[0].head, like[0].content);
            let shares = self.shares(head, content, &wanted);
            for step in like {
                for &Share { inside, avoided } in &shares {
                    let then = self.goal(step.then, avoided);
                    ways.push(Way::Tree { head, inside, then });
                }
            }
        }
        ways
    }

    /// The ways to share out the rivals, in these rests, of a tree of an atom.
    fn shares(&mut self, head: Head, content: Option<u16>, wanted: &[RestId]) -> Vec<Share> {
        let rivals = self.rivals(head, wanted);
        let mut rests: Vec<RestId> = rivals.iter().map(|rival| rival.then).collect();
        rests.sort_unstable();
        rests.dedup();
        let Some(content) = content else {
            // Every text is of text and every bool of bool: all rivals are left to the rest.
            let avoided = self.set(rests);
            return vec![Share {
                inside: None,
                avoided,
            }];
        };
        let mut shares = Vec::new();
        for avoided in subsets(&rests) {
            let others = rivals.iter().filter(|it| !avoided.contains(&it.then));
            let contents: Vec<u16> = others.filter_map(|rival| rival.content).collect();
            shares.push(Share {
                inside: Some(self.content_goal(content, &contents)),
                avoided: self.set(avoided),
            });
        }
        shares
    }

    /// The steps of these rests that have this head.
    fn rivals(&mut self, head: Head, wanted: &[RestId]) -> Vec<Step> {
        let mut rivals = Vec::new();
        for &rest in wanted {
            let steps = self.steps(rest);
            let from = steps.partition_point(|step| step.head < head);
            let like = steps[from..].iter().take_while(|step| step.head == head);
            rivals.extend(like);
        }
        rivals
    }

    /// Marks the goals that are met with a way whose own goals were met before.
    fn mark(&mut self) {
        let mut users: Vec<Vec<(GoalId, u32)>> = vec![Vec::new(); self.goals.len()];
        let mut open = VecDeque::new();
        for (goal, ways) in (0..).zip(&self.ways) {
            for (index, &way) in (0..).zip(ways) {
                match way {
                    Way::Nothing => open.push_back((goal, index)),
                    Way::Tree { inside, then, .. } => {
                        for part in inside.into_iter().chain([then]) {
                            users[part as usize].push((goal, index));
                        }
                    }
                }
            }
        }
        while let Some((goal, index)) = open.pop_front() {
            let way = self.ways[goal as usize][index as usize];
            if self.met[goal as usize].is_none() && self.is_met(way) {
                self.met[goal as usize] = Some(way);
                open.extend(&users[goal as usize]);
            }
        }
    }

    fn is_met(&self, way: Way) -> bool {
        match way {
            Way::Nothing => true,
            Way::Tree { inside, then, .. } => {
                let met = |goal: GoalId| self.met[goal as usize].is_some();
                met(then) && inside.is_none_or(met)
            }
        }
    }

    /// The forest that meets a goal; contents that meet one goal are shared.
    fn forest(&self, goal: GoalId, contents: &mut Map<GoalId, Forest>) -> Forest {
        let mut trees = Vec::new();
        let mut goal = goal;
        while let Some(Way::Tree { head, inside, then }) = self.met[goal as usize] {
            trees.push(match (head, inside) {
                (Head::Label(label), Some(inside)) => {
                    Tree::Label(label, self.content(inside, contents))
                }
                (Head::Bool, _) => Tree::Bool(false),
                _ => Tree::Text {
                    offset: 0,
                    length: 0,
                },
            });
            goal = then;
        }
        trees.into_iter().collect()
    }

    fn content(&self, goal: GoalId, contents: &mut Map<GoalId, Forest>) -> Forest {
        if let Some(known) = contents.get(&goal) {
            return known.clone();
        }
        let forest = self.forest(goal, contents);
        contents.insert(goal, forest.clone());
        forest
    }
}

/// The number of the next item of a list.
fn number(count: usize) -> u32 {
    u32::try_from(count).expect("a search stays within 32 bits")
}

/// All subsets of a list.
fn subsets(list: &[RestId]) -> Vec<Vec<RestId>> {
    list.iter().fold(vec![Vec::new()], |subsets, &item| {
        let with = |subset: &Vec<RestId>| [subset.as_slice(), &[item]].concat();
        let more: Vec<_> = subsets.iter().map(with).collect();
        [subsets, more].concat()
    })
}
