//! The report text, read in one pass: questions 2 to 4, and 12, which is put to what was read.

use crate::{BLANK, CELLS, COLUMNS, CONDITIONS, ROWS, TABLES, TEXT};

/// The first `N` items of a list, and how many there are in all.
pub struct Bounded<T, const N: usize> {
    items: [T; N],
    len: usize,
}

impl<T: Copy + Default, const N: usize> Bounded<T, N> {
    fn new() -> Self {
        Bounded { items: [T::default(); N], len: 0 }
    }

    pub fn push(&mut self, item: T) {
        if let Some(place) = self.items.get_mut(self.len) {
            *place = item;
        }
        self.len += 1;
    }

    /// The latest item, unless it had no room.
    fn latest(&mut self) -> Option<&mut T> {
        self.items.get_mut(self.len.wrapping_sub(1))
    }

    pub fn len(&self) -> usize {
        self.len
    }

    pub fn as_slice(&self) -> &[T] {
        &self.items[..self.len.min(N)]
    }
}

/// The table's cells begin at `start` in the cell buffer.
#[derive(Clone, Copy, Default)]
pub struct Table {
    pub columns: usize,
    pub rows: usize,
    pub start: usize,
    key_column: Option<usize>,
}

impl Table {
    /// Question 12: the key column, where the table has one, exists, has no blank and no two equal cells.
    fn key_column_fits(&self, cells: &[i32]) -> bool {
        let Some(column) = self.key_column else { return true };
        if column >= self.columns {
            return false;
        }
        let mut numbers = [0; ROWS];
        let numbers = &mut numbers[..self.rows];
        for (row, number) in numbers.iter_mut().enumerate() {
            *number = cells[self.start + row * self.columns + column];
        }
        numbers.sort_unstable();
        // A blank cell is the smallest number.
        numbers.first() != Some(&BLANK) && numbers.windows(2).all(|pair| pair[0] < pair[1])
    }
}

#[derive(Clone, Copy, Default)]
pub struct Column {
    pub table: usize,
    pub column: usize,
}

#[derive(Clone, Copy)]
pub enum Operand {
    Column(Column),
    Constant(i32),
}

/// The operator's code has bit 0 where it is true of less, bit 1 of equal, bit 2 of greater.
#[derive(Clone, Copy)]
pub struct Condition {
    pub first: Column,
    pub operator: u8,
    pub second: Operand,
}

impl Default for Condition {
    fn default() -> Self {
        Condition { first: Column::default(), operator: 0, second: Operand::Constant(0) }
    }
}

/// A J line's kind: I, L, R or F.
enum JoinKind {
    Inner,
    LeftOuter,
    RightOuter,
    FullOuter,
}

/// A J line as sets and plan see it: one of kind R is one of kind L with its sides exchanged, one of kind F is one of
/// kind L.
#[derive(Clone, Copy, Default)]
pub struct Join {
    pub outer: bool,
    /// Of an outer join the preserved side first.
    pub sides: (u16, u16),
    /// Bit i for condition number i.
    pub conditions: u64,
}

pub struct Query {
    pub tables: Bounded<Table, TABLES>,
    pub joins: Bounded<Join, { TABLES - 1 }>,
    /// Whether the last join is a full outer join, kind F.
    pub full_outer: bool,
    /// Those that the text writes, and behind them the derived ones.
    pub conditions: Bounded<Condition, CONDITIONS>,
    /// The equalities of columns that no lower-numbered condition states, bit i for condition number i; found with the
    /// derived ones, and none where nothing can follow.
    pub lowest: u64,
    pub order: Bounded<(u16, u16), { TABLES - 1 }>,
    /// Cells written in all, and whether each row has its table's width.
    cells: usize,
    even: bool,
}

#[derive(PartialEq, PartialOrd)]
enum Part {
    Tables,
    Joins,
    /// Behind the J line of a full outer join, which is the last.
    LastJoin,
    Order,
}

impl Query {
    /// Reads the text and puts the cells into the cell buffer.
    pub fn read(text: &[u8], cells: &mut [i32]) -> Result<Query, u8> {
        if text.len() > TEXT {
            return Err(2);
        }
        let query = Query::lines(text, cells).ok_or(2)?;
        let tables = query.tables.as_slice();
        let fits = |t: &Table| (1..=COLUMNS).contains(&t.columns) && t.rows <= ROWS;
        if !(1..=TABLES).contains(&query.tables.len()) || !tables.iter().all(fits) || query.cells > CELLS {
            return Err(3);
        }
        if !query.even {
            return Err(4);
        }
        let keyed = tables.iter().all(|table| table.key_column_fits(cells));
        if keyed { Ok(query) } else { Err(12) }
    }

    /// `None` if a line has no form or is out of place.
    fn lines(text: &[u8], cells: &mut [i32]) -> Option<Query> {
        let mut query = Query {
            tables: Bounded::new(),
            joins: Bounded::new(),
            full_outer: false,
            conditions: Bounded::new(),
            lowest: 0,
            order: Bounded::new(),
            cells: 0,
            even: true,
        };
        let mut cursor = Cursor { text, at: 0 };
        let mut part = Part::Tables;
        while cursor.at < text.len() {
            match cursor.next() {
                b'T' if part == Part::Tables => {
                    let columns = cursor.field()?.into();
                    let key_column = if cursor.peek() == b'\t' { Some(cursor.field()?.into()) } else { None };
                    query.tables.push(Table { columns, rows: 0, start: query.cells, key_column });
                }
                b'D' if part == Part::Tables && query.tables.len() > 0 => {
                    query.row(&mut cursor, cells)?;
                }
                b'J' if part <= Part::Joins => {
                    let kind = cursor.join_kind()?;
                    let (left, right) = (cursor.field()?, cursor.field()?);
                    query.full_outer = matches!(kind, JoinKind::FullOuter);
                    part = if query.full_outer { Part::LastJoin } else { Part::Joins };
                    let sides = if matches!(kind, JoinKind::RightOuter) { (right, left) } else { (left, right) };
                    query.joins.push(Join { outer: !matches!(kind, JoinKind::Inner), sides, conditions: 0 });
                }
                letter @ (b'C' | b'K') if matches!(part, Part::Joins | Part::LastJoin) => {
                    let first = cursor.column()?;
                    let operator = cursor.operator()?;
                    let second = match letter {
                        b'C' => Operand::Column(cursor.column()?),
                        _ => Operand::Constant(cursor.cell().filter(|&c| c != BLANK)?),
                    };
                    let bit = 1u64.checked_shl(query.conditions.len() as u32).unwrap_or(0);
                    if let Some(join) = query.joins.latest() {
                        join.conditions |= bit;
                    }
                    query.conditions.push(Condition { first, operator, second });
                }
                b'P' => {
                    part = Part::Order;
                    query.order.push((cursor.field()?, cursor.field()?));
                }
                _ => return None,
            }
            cursor.take(b'\n')?;
        }
        Some(query)
    }

    /// One row of the latest table.
    fn row(&mut self, cursor: &mut Cursor, cells: &mut [i32]) -> Option<()> {
        let start = self.cells;
        loop {
            let cell = cursor.cell()?;
            if self.cells < CELLS {
                cells[self.cells] = cell;
            }
            self.cells += 1;
            if cursor.peek() == b'\n' {
                break;
            }
        }
        if let Some(table) = self.tables.latest() {
            table.rows += 1;
            self.even &= self.cells - start == table.columns;
        }
        Some(())
    }
}

/// A place in the text. Its functions give `None` where the text has not the form they look for.
struct Cursor<'a> {
    text: &'a [u8],
    at: usize,
}

impl Cursor<'_> {
    /// The next byte; at the end of the text 0, which no form has.
    fn peek(&self) -> u8 {
        self.text.get(self.at).copied().unwrap_or(0)
    }

    fn next(&mut self) -> u8 {
        let byte = self.peek();
        self.at += 1;
        byte
    }

    fn take(&mut self, byte: u8) -> Option<()> {
        (self.next() == byte).then_some(())
    }

    /// A number of at most `most` digits. A digit after these is found by whoever takes the next tab or line feed.
    fn digits(&mut self, most: usize) -> Option<u64> {
        let start = self.at;
        let mut value = 0;
        while self.at - start < most && self.peek().is_ascii_digit() {
            value = 10 * value + u64::from(self.next() - b'0');
        }
        let length = self.at - start;
        (length == 1 || length > 1 && self.text[start] != b'0').then_some(value)
    }

    /// A tab and a count, table, column or node.
    fn field(&mut self) -> Option<u16> {
        self.take(b'\t')?;
        self.digits(4).map(|value| value as u16)
    }

    fn column(&mut self) -> Option<Column> {
        Some(Column { table: self.field()?.into(), column: self.field()?.into() })
    }

    /// A tab and a cell.
    fn cell(&mut self) -> Option<i32> {
        self.take(b'\t')?;
        if self.peek() != b'-' {
            return self.digits(10).and_then(|value| i32::try_from(value).ok());
        }
        self.next();
        if matches!(self.peek(), b'\t' | b'\n') {
            return Some(BLANK);
        }
        let value = i32::try_from(self.digits(10)?).ok()?;
        (value != 0).then_some(-value)
    }

    /// A tab and a join's kind.
    fn join_kind(&mut self) -> Option<JoinKind> {
        self.take(b'\t')?;
        match self.next() {
            b'I' => Some(JoinKind::Inner),
            b'L' => Some(JoinKind::LeftOuter),
            b'R' => Some(JoinKind::RightOuter),
            b'F' => Some(JoinKind::FullOuter),
            _ => None,
        }
    }

    /// A tab and an operator; its code.
    fn operator(&mut self) -> Option<u8> {
        self.take(b'\t')?;
        let (code, more): (u8, &[(u8, u8)]) = match self.next() {
            b'<' => (1, &[(b'=', 3), (b'>', 5)]),
            b'=' => (2, &[]),
            b'>' => (4, &[(b'=', 6)]),
            _ => return None,
        };
        let longer = more.iter().find(|&&(byte, _)| byte == self.peek());
        self.at += longer.map_or(0, |_| 1);
        Some(longer.map_or(code, |&(_, code)| code))
    }
}
