//! Report texts for comparing implementations: reports at the limits, and, by chance from a seed, valid reports,
//! reports that each question turns down, and damaged texts. The same seed gives the same texts.

mod damage;
mod faults;
mod limits;
mod reports;

pub use reports::OPERATORS;
use reports::Report;

/// Two reports, the first with every form of line, damaged in every place. The second has a right outer join and a full
/// outer join, and is damaged by lines, and in every place of its J lines.
const SMALL: &str = "T\t2\t0\nD\t10\t-1\nD\t11\t-\nT\t2\nD\t10\t7\nD\t11\t8\nT\t1\nD\t7\n\
    J\tI\t1\t2\nC\t1\t1\t=\t2\t0\nK\t1\t0\t>=\t-5\nJ\tL\t0\t3\nC\t0\t0\t<=\t1\t0\n\
    P\t0\t1\nP\t3\t2\n";
const SMALL_FULL_OUTER: &str = "T\t1\nT\t1\nD\t2\nT\t1\nD\t3\nJ\tR\t0\t1\nC\t0\t0\t=\t1\t0\n\
    J\tF\t3\t2\nC\t1\t0\t=\t2\t0\nP\t0\t1\nP\t3\t2\n";

/// Calls `take` with each text of a fixed list, which does not depend on the seed: reports at the limits, and two
/// small reports with damage.
pub fn each_fixed_text(take: &mut dyn FnMut(&[u8])) {
    limits::each(take);
    take(SMALL.as_bytes());
    damage::everywhere(SMALL.as_bytes(), |_| true, take);
    take(SMALL_FULL_OUTER.as_bytes());
    damage::everywhere(SMALL_FULL_OUTER.as_bytes(), |line| line.starts_with(b"J"), take);
}

/// Calls `take` with `count` texts made by chance.
pub fn each_random_text(seed: u64, count: usize, take: &mut dyn FnMut(&[u8])) {
    let mut random = Random::new(seed);
    for _ in 0..count {
        take(&text(&mut random));
    }
}

/// One text: half of them valid but for the row counts, a fourth with one or two faults, a fourth damaged.
fn text(random: &mut Random) -> Vec<u8> {
    let mut report = Report::random(random);
    let damaged = random.one_in(4);
    if random.one_in(if damaged { 8 } else { 3 }) {
        faults::add(&mut report, random);
        if random.one_in(3) {
            faults::add(&mut report, random);
        }
    }
    let mut text = report.text();
    if damaged {
        damage::apply(&mut text, random);
        while random.one_in(3) {
            damage::apply(&mut text, random);
        }
    }
    text
}

/// Numbers by xorshift64*.
pub struct Random(u64);

impl Random {
    pub fn new(seed: u64) -> Random {
        // The state must not be 0.
        Random(seed.wrapping_mul(0x9e37_79b9_7f4a_7c15) | 1)
    }

    pub fn next_u64(&mut self) -> u64 {
        self.0 ^= self.0 >> 12;
        self.0 ^= self.0 << 25;
        self.0 ^= self.0 >> 27;
        self.0.wrapping_mul(0x2545_f491_4f6c_dd1d)
    }

    /// A number below `end`, which is not 0.
    pub fn below(&mut self, end: usize) -> usize {
        ((self.next_u64() >> 32) as usize) % end
    }

    pub fn one_in(&mut self, chances: usize) -> bool {
        self.below(chances) == 0
    }

    pub fn pick<T: Copy>(&mut self, items: &[T]) -> T {
        items[self.below(items.len())]
    }
}
