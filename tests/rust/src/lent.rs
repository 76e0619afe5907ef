//! The memory that a caller lends, filled with marks, so that what a call leaves in it can be compared.

use crate::{Answer, CELLS, RESULT, STEPS, Step, WORK};

#[derive(Clone, Debug, PartialEq, Eq)]
pub struct Lent {
    pub cells: Vec<i32>,
    pub work: Vec<u16>,
    pub result: Vec<u16>,
    pub steps: Vec<Step>,
}

/// What question 1 asks for: cells, work, result and steps.
pub const LEAST: [usize; 4] = [CELLS, WORK, RESULT, STEPS];

/// A number that no call writes.
pub const MARK: u16 = 40_000;
pub const MARK_STEP: Step = Step { kind: 99, first: MARK, second: MARK, rows: MARK, conditions: MARK as u64 };

impl Lent {
    pub fn marked([cells, work, result, steps]: [usize; 4]) -> Lent {
        Lent {
            cells: vec![MARK.into(); cells],
            work: vec![MARK; work],
            result: vec![MARK; result],
            steps: vec![MARK_STEP; steps],
        }
    }

    pub fn report(&mut self, text: &[u8]) -> Answer {
        crate::report(text, &mut self.cells, &mut self.work, &mut self.result, &mut self.steps)
    }

    pub fn direct(&mut self, text: &[u8]) -> Answer {
        crate::direct(text, &mut self.cells, &mut self.work, &mut self.result)
    }
}
