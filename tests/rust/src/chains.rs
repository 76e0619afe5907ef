//! The derived conditions of a text, its tables' sets, and what a plan's pairs leave missing in them, for comparing and
//! counting: worked out from its lines without the engine.

use crate::{BEST_MATCH, BLANKING, OUTER, Step};
use std::collections::{BTreeMap, BTreeSet};

/// A table and one of its columns.
pub type Place = (usize, usize);
/// Condition numbers.
pub type Set = BTreeSet<usize>;

pub struct Chains {
    /// The count of C and K lines.
    pub written: usize,
    /// The derived conditions that no line states, by their numbers.
    pub derived: Vec<Link>,
    /// For each table its set by the set rule alone, and with what follows from it.
    pub ruled: Vec<Set>,
    pub sets: Vec<Set>,
    /// For each condition, written or derived, the tables that it names, and its two places if it is an equality.
    named: Vec<Set>,
    links: Vec<Option<Link>>,
    /// For each two places that a condition links, its lowest number.
    numbers: BTreeMap<Link, usize>,
}

/// Two places, the one in the lower table first.
pub type Link = (Place, Place);

/// A join or a pair: whether it is outer, the tables of its sides, the preserved one first, and its conditions.
type Join = (bool, [Set; 2], Set);

impl Chains {
    pub fn conditions(&self) -> usize {
        self.written + self.derived.len()
    }

    /// Whether a written line joined a set, and whether a derived condition that no line states did.
    pub fn joined(&self) -> [bool; 2] {
        let joined = || self.ruled.iter().zip(&self.sets).flat_map(|(ruled, set)| set - ruled);
        [joined().any(|number| number < self.written), joined().any(|number| number >= self.written)]
    }

    /// Whether two tables have different derived conditions that no line states.
    pub fn of_several_sets(&self) -> bool {
        let of_table = |set: &Set| set.range(self.written..).copied().collect::<Set>();
        let different: BTreeSet<Set> = self.sets.iter().map(of_table).filter(|set| !set.is_empty()).collect();
        different.len() > 1
    }

    /// For each table what is in its set and not in the applied set after the pairs of a plan.
    pub fn missing(&self, steps: &[Step]) -> Vec<Set> {
        let mut under: Vec<Set> = (0..self.sets.len()).map(|table| Set::from([table])).collect();
        let mut pairs: Vec<Join> = vec![];
        for step in steps.iter().filter(|step| ![0, BLANKING, BEST_MATCH].contains(&step.kind)) {
            let sides = [step.first, step.second].map(|node| under[usize::from(node)].clone());
            under.push(&sides[0] | &sides[1]);
            pairs.push((step.kind == OUTER, sides, (0..64).filter(|bit| step.conditions >> bit & 1 == 1).collect()));
        }
        let applied = set_rule(self.sets.len(), &self.named, &pairs);
        let missing = |(set, applied): (&Set, &Set)| {
            let follows = linked(applied.iter().filter_map(|&number| self.links[number]));
            let closed = applied | &follows.iter().map(|link| self.numbers[link]).collect();
            set - &closed
        };
        self.sets.iter().zip(&applied).map(missing).collect()
    }
}

/// Those of a text that questions 2 to 7 and 12 let pass.
pub fn chains(text: &[u8]) -> Chains {
    // For each node its tables; for each line the tables that it names, and its two places if it is a C line with `=`.
    let mut under: Vec<Set> = vec![];
    let (mut named, mut links): (Vec<Set>, Vec<Option<Link>>) = (vec![], vec![]);
    let mut joins: Vec<Join> = vec![];
    for line in std::str::from_utf8(text).expect("such a text is ASCII").lines() {
        let fields: Vec<&str> = line.split('\t').collect();
        let number = |at: usize| fields[at].parse::<usize>().expect("such a field is a number");
        match fields[0] {
            "T" => under.push(Set::from([under.len()])),
            "J" => {
                let mut sides = [number(2), number(3)].map(|side| under[side].clone());
                under.push(&sides[0] | &sides[1]);
                // The preserved side first; a full outer join has the sets of a left outer join.
                if fields[1] == "R" {
                    sides.reverse();
                }
                joins.push((fields[1] != "I", sides, Set::new()));
            }
            letter @ ("C" | "K") => {
                let first = (number(1), number(2));
                let second = if letter == "C" { Some((number(4), number(5))) } else { None };
                joins.last_mut().expect("a join before it").2.insert(named.len());
                named.push(second.iter().map(|second| second.0).chain([first.0]).collect());
                let equal = second.filter(|_| fields[3] == "=");
                links.push(equal.map(|second| (first.min(second), first.max(second))));
            }
            _ => (),
        }
    }
    let ruled = set_rule(under.len() - joins.len(), &named, &joins);
    with_chains(ruled, named, links)
}

/// The set rule, without what follows from the sets.
fn set_rule(tables: usize, named: &[Set], joins: &[Join]) -> Vec<Set> {
    let mut sets = vec![Set::new(); tables];
    for (outer, [left, right], conditions) in joins {
        let mut gain = conditions.clone();
        for &table in conditions.iter().flat_map(|&number| &named[number]) {
            gain.extend(&sets[table]);
        }
        let blanked = if *outer { right.clone() } else { left | right };
        blanked.into_iter().for_each(|table| sets[table].extend(&gain));
    }
    sets
}

/// Every two places of different tables that a chain of these links leads from and to. All places of a chain get the
/// same label, by going over the links until nothing changes.
fn linked(links: impl Iterator<Item = Link>) -> BTreeSet<Link> {
    let links: Vec<Link> = links.collect();
    let mut labels: BTreeMap<Place, Place> = BTreeMap::new();
    loop {
        let before = labels.clone();
        for &(one, other) in &links {
            let label = |place: Place| before.get(&place).copied().unwrap_or(place);
            let least = label(one).min(label(other));
            for place in [one, other] {
                let kept = labels.entry(place).or_insert(least);
                *kept = least.min(*kept);
            }
        }
        if labels == before {
            break;
        }
    }
    let pairs = labels.iter().flat_map(|one| labels.iter().map(move |other| (one, other)));
    let alike = pairs.filter(|(one, other)| one.1 == other.1 && one.0.0 < other.0.0);
    alike.map(|(one, other)| (*one.0, *other.0)).collect()
}

fn with_chains(ruled: Vec<Set>, mut named: Vec<Set>, mut links: Vec<Option<Link>>) -> Chains {
    let written = links.len();
    let follows: Vec<BTreeSet<Link>> =
        ruled.iter().map(|set| linked(set.iter().filter_map(|&number| links[number]))).collect();
    let mut numbers: BTreeMap<Link, usize> = BTreeMap::new();
    for (number, link) in links.iter().enumerate() {
        if let Some(link) = *link {
            numbers.entry(link).or_insert(number);
        }
    }
    let all: BTreeSet<Link> = follows.iter().flatten().copied().collect();
    let derived: Vec<Link> = all.into_iter().filter(|link| !numbers.contains_key(link)).collect();
    numbers.extend(derived.iter().copied().zip(written..));
    named.extend(derived.iter().map(|(one, other)| Set::from([one.0, other.0])));
    links.extend(derived.iter().copied().map(Some));
    let closed = |(set, follows): (&Set, &BTreeSet<_>)| set | &follows.iter().map(|link| numbers[link]).collect();
    let sets = ruled.iter().zip(&follows).map(closed).collect();
    Chains { written, derived, ruled, sets, named, links, numbers }
}
