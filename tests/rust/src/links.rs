//! Conditions that follow from chains of equalities: document 02, item 6, and question 13.

use crate::text::{Column, Condition, Operand, Query};
use crate::{COLUMNS, CONDITIONS, TABLES, bits};

/// For each column a set of columns. Column c of table t is number 8 t + c, and bit 8 t + c of a set, so that numbers
/// rise by table and then by column.
type ColumnSets = [u64; TABLES * COLUMNS];

const EQUAL: u8 = 2;

impl Condition {
    /// The two columns of a C line with `=`.
    fn link(&self) -> Option<[usize; 2]> {
        match self.second {
            Operand::Column(second) if self.operator == EQUAL => Some([self.first.number(), second.number()]),
            _ => None,
        }
    }
}

impl Column {
    fn number(self) -> usize {
        COLUMNS * self.table + self.column
    }

    fn numbered(number: usize) -> Column {
        Column { table: number / COLUMNS, column: number % COLUMNS }
    }
}

impl Query {
    /// Adds the derived conditions that no line states behind the written ones: question 13. The sets are those of
    /// the set rule alone.
    pub fn derive(&mut self, sets: &[u64; TABLES]) -> Result<(), u8> {
        let mut stated: ColumnSets = [0; TABLES * COLUMNS];
        let (mut columns, mut shared) = (0, 0);
        for (number, condition) in self.conditions.as_slice().iter().enumerate() {
            if let Some([one, other]) = condition.link() {
                shared |= columns & (1 << one | 1 << other);
                columns |= 1 << one | 1 << other;
                if stated[one] >> other & 1 == 0 {
                    self.lowest |= 1 << number;
                }
                stated[one] |= 1 << other;
                stated[other] |= 1 << one;
            }
        }
        if shared == 0u64 {
            // Each chain is one line, which no other states: nothing follows from any set.
            self.lowest = 0;
            return Ok(());
        }
        let mut linked: ColumnSets = [0; TABLES * COLUMNS];
        for (table, &set) in sets.iter().enumerate() {
            if !sets[..table].contains(&set) {
                let of_table = self.linked(set);
                linked.iter_mut().zip(of_table).for_each(|(linked, more)| *linked |= more);
            }
        }
        for lower in 0..TABLES * COLUMNS {
            let higher_tables = (!0u64).checked_shl((COLUMNS * (lower / COLUMNS + 1)) as u32).unwrap_or(0);
            for higher in bits(linked[lower] & !stated[lower] & higher_tables) {
                self.lowest |= 1u64.checked_shl(self.conditions.len() as u32).unwrap_or(0);
                let second = Operand::Column(Column::numbered(higher));
                self.conditions.push(Condition { first: Column::numbered(lower), operator: EQUAL, second });
            }
        }
        if self.conditions.len() <= CONDITIONS { Ok(()) } else { Err(13) }
    }

    /// The set with all that follows from it: of each two columns that it links, the lowest-numbered condition that
    /// states them.
    pub fn closed(&self, set: u64) -> u64 {
        if set == 0 || self.lowest & !set == 0 {
            return set;
        }
        let linked = self.linked(set);
        let follows = |&number: &usize| {
            let link = self.conditions.as_slice()[number].link();
            link.is_some_and(|[one, other]| linked[one] >> other & 1 == 1)
        };
        bits(self.lowest & !set).filter(follows).fold(set, |closed, number| closed | 1 << number)
    }

    /// For each column those that a chain of the set's equalities leads to, by a search from one column after another.
    fn linked(&self, set: u64) -> ColumnSets {
        let mut next_to: ColumnSets = [0; TABLES * COLUMNS];
        let mut left = 0u64;
        for [one, other] in bits(set).filter_map(|number| self.conditions.as_slice()[number].link()) {
            next_to[one] |= 1 << other;
            next_to[other] |= 1 << one;
            left |= 1 << one | 1 << other;
        }
        let mut linked: ColumnSets = [0; TABLES * COLUMNS];
        while left != 0 {
            let mut found = left & left.wrapping_neg();
            let mut latest = found;
            while latest != 0 {
                latest = bits(latest).fold(0, |more, column| more | next_to[column]) & !found;
                found |= latest;
            }
            bits(found).for_each(|column| linked[column] = found);
            left &= !found;
        }
        linked
    }
}
