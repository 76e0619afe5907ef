//! The join tree, the blanking sets and the plan: questions 5 to 7 and 9.

use crate::text::{Condition, Operand, Query};
use crate::{BEST_MATCH, BLANKING, INNER, OUTER, PRODUCT, STEPS, Step, TABLES, WRITTEN, bits};

/// For each node of a tree the tables under it, bit t for table t.
pub struct Tree {
    pub under: [u8; 2 * TABLES - 1],
}

impl Condition {
    /// The tables that it names, bit t for table t.
    pub fn named(&self) -> u8 {
        let second = match self.second {
            Operand::Column(column) => 1 << column.table,
            Operand::Constant(_) => 0,
        };
        1 << self.first.table | second
    }

    /// Whether it compares a cell of one side with a cell of the other.
    pub fn links(&self, left: u8, right: u8) -> bool {
        let named = self.named();
        named & left != 0 && named & right != 0
    }
}

impl Query {
    /// The tree of the J lines: questions 5 to 7.
    pub fn join_tree(&self) -> Result<Tree, u8> {
        let joins = self.joins.as_slice();
        let tree = self.tree(self.joins.len(), joins.iter().map(|join| join.sides)).ok_or(5)?;
        if !self.conditions_fit(&tree) {
            return Err(6);
        }
        let linked = joins.iter().all(|join| {
            let (left, right) = tree.sides(join.sides);
            bits(join.conditions).any(|c| self.condition(c).links(left, right))
        });
        if linked { Ok(tree) } else { Err(7) }
    }

    /// The tree of the P lines, or of the J lines where there are none: question 9.
    pub fn joining_order(&self, tree: &Tree) -> Result<Tree, u8> {
        if self.order.len() == 0 {
            return Ok(Tree { under: tree.under });
        }
        self.tree(self.order.len(), self.order.as_slice().iter().copied()).ok_or(9)
    }

    fn tree(&self, count: usize, pairs: impl Iterator<Item = (u16, u16)>) -> Option<Tree> {
        let tables = self.tables.len();
        if count + 1 != tables {
            return None;
        }
        let mut under = [0; 2 * TABLES - 1];
        for (table, under) in under[..tables].iter_mut().enumerate() {
            *under = 1 << table;
        }
        let mut used = 0u16;
        for (node, (left, right)) in (tables..).zip(pairs) {
            for side in [left, right].map(usize::from) {
                if side >= node || used & 1 << side != 0 {
                    return None;
                }
                used |= 1 << side;
                under[node] |= under[side];
            }
        }
        Some(Tree { under })
    }

    /// Question 6.
    fn conditions_fit(&self, tree: &Tree) -> bool {
        let tables = self.tables.as_slice();
        self.conditions.len() <= WRITTEN
            && (tables.len()..).zip(self.joins.as_slice()).all(|(node, join)| {
                let exists = |table: usize, column: usize| {
                    table < tables.len() && tree.under[node] & 1 << table != 0 && column < tables[table].columns
                };
                bits(join.conditions).map(|c| self.condition(c)).all(|condition| {
                    let first = condition.first;
                    exists(first.table, first.column)
                        && match condition.second {
                            Operand::Constant(_) => true,
                            Operand::Column(second) => {
                                second.table != first.table && exists(second.table, second.column)
                            }
                        }
                })
            })
    }

    /// The sets by the set rule, without what follows from them.
    pub fn blanking_sets(&self, tree: &Tree) -> [u64; TABLES] {
        let mut sets = [0; TABLES];
        for join in self.joins.as_slice() {
            self.extend_sets(&mut sets, join.outer, join.conditions, tree.sides(join.sides));
        }
        sets
    }

    /// The set rule at one join of a left and a right side: what it blanks takes the conditions and the sets of all
    /// tables that these name.
    fn extend_sets(&self, sets: &mut [u64; TABLES], outer: bool, conditions: u64, (left, right): (u8, u8)) {
        let gain = bits(self.named(conditions)).fold(conditions, |gain, table| gain | sets[table]);
        let blanked = if outer { right } else { left | right };
        bits(blanked).for_each(|table| sets[table] |= gain);
    }

    /// Writes the plan, its row counts still 0, and gives its length.
    pub fn plan(&self, order: &Tree, sets: &[u64; TABLES], steps: &mut [Step]) -> usize {
        let mut plan = steps[..STEPS].iter_mut();
        let mut add = |step| plan.next().map(|place| *place = step).expect("a plan has at most STEPS steps");
        let mut applied = [0; TABLES];
        let mut length = 0;
        let pairs = self.joins.len();
        for pair in 0..pairs {
            let (s, l) = self.pair(pair);
            let (under_s, under_l) = order.sides((s, l));
            let links = (0..self.conditions.len())
                .filter(|&c| self.condition(c).links(under_s, under_l))
                .fold(0, |links, c| links | 1 << c);
            let shared = |side: u8| bits(side).fold(links, |shared, table| shared & sets[table]);
            let (in_s, in_l) = (shared(under_s), shared(under_l));
            let conditions = in_s | in_l;
            let (kind, first, second) = if conditions == 0 {
                (PRODUCT, s, l)
            } else if in_s == in_l {
                (INNER, s, l)
            } else if in_l == conditions {
                (OUTER, s, l)
            } else {
                // Document 02, item 5: two usable conditions never pull a pair different ways.
                assert_eq!(in_s, conditions, "usable conditions pull a pair different ways");
                (OUTER, l, s)
            };
            if kind != PRODUCT {
                self.extend_sets(&mut applied, kind == OUTER, conditions, order.sides((first, second)));
            }
            add(Step { kind, first, second, rows: 0, conditions });
            length += 1;
        }
        for table in 0..self.tables.len() {
            let conditions = sets[table] & !self.closed(applied[table]);
            if conditions != 0 {
                add(Step { kind: BLANKING, first: table as u16, conditions, ..Step::default() });
                length += 1;
            }
        }
        if length > pairs {
            add(Step { kind: BEST_MATCH, ..Step::default() });
            length += 1;
        }
        length
    }

    fn pair(&self, pair: usize) -> (u16, u16) {
        match self.order.as_slice() {
            [] => self.joins.as_slice()[pair].sides,
            order => order[pair],
        }
    }

    fn condition(&self, number: usize) -> &Condition {
        &self.conditions.as_slice()[number]
    }

    fn named(&self, conditions: u64) -> u8 {
        bits(conditions).fold(0, |named, c| named | self.condition(c).named())
    }
}

impl Tree {
    /// The tables under two nodes.
    pub fn sides(&self, (left, right): (u16, u16)) -> (u8, u8) {
        (self.under[usize::from(left)], self.under[usize::from(right)])
    }
}
