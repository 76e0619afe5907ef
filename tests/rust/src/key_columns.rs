//! The key columns of a text, for comparing and counting: read from its T and D lines without the engine.

pub struct KeyColumn<'a> {
    /// The columns of its table, and its own number.
    pub columns: usize,
    pub number: usize,
    /// Its cells as they are written; a number is written in one way only. None where it does not exist.
    pub cells: Vec<&'a str>,
}

impl KeyColumn<'_> {
    pub fn exists(&self) -> bool {
        self.number < self.columns
    }

    pub fn has_blank(&self) -> bool {
        self.cells.contains(&"-")
    }

    /// Whether two cells are equal, by all pairs of them.
    pub fn has_equal(&self) -> bool {
        self.cells.iter().enumerate().any(|(at, cell)| self.cells[..at].contains(cell))
    }

    /// Question 12.
    pub fn fits(&self) -> bool {
        self.exists() && !self.has_blank() && !self.has_equal()
    }
}

/// The key columns of a text that questions 2 to 4 let pass.
pub fn key_columns(text: &[u8]) -> Vec<KeyColumn<'_>> {
    let mut found: Vec<KeyColumn> = vec![];
    let mut of_table = false;
    for line in std::str::from_utf8(text).expect("such a text is ASCII").lines() {
        let fields: Vec<&str> = line.split('\t').collect();
        match fields[..] {
            ["T", _] => of_table = false,
            ["T", columns, number] => {
                let [columns, number] = [columns, number].map(|field| field.parse().expect("such a field is a number"));
                found.push(KeyColumn { columns, number, cells: vec![] });
                of_table = true;
            }
            ["D", ref cells @ ..] if of_table => {
                let column = found.last_mut().expect("the table's own");
                column.cells.extend(cells.get(column.number));
            }
            _ => (),
        }
    }
    found
}
