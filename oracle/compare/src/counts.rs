//! Cases counted by their sorts and by what becomes of them.

use std::fmt;

use crate::run::Parting;

/// The least width of a column, and of that of the names.
const WIDTH: usize = 9;
const NAME_WIDTH: usize = 20;

/// What can become of a case, by name.
pub type Fates = &'static [&'static str];

/// The place of a refusal among them, by its number.
pub fn refused(fates: Fates, number: u8) -> Result<usize, Parting> {
    let place = fates.iter().position(|fate| fate.parse() == Ok(number));
    place.ok_or(Parting::Unrefused(number))
}

/// Cases of one sort, counted by fate.
pub struct Row<C> {
    name: String,
    takes: Box<dyn Fn(&C) -> bool>,
    fates: Vec<u64>,
}

/// Cases sorted by one thing: the first row that takes a case counts it.
pub struct Table<C> {
    pub name: &'static str,
    pub rows: Vec<Row<C>>,
}

/// Tables of the same cases, with their fates as columns.
pub struct Counts<C> {
    pub cases: u64,
    fates: Fates,
    tables: Vec<Table<C>>,
}

impl<C> Row<C> {
    pub fn of(name: impl ToString, takes: impl Fn(&C) -> bool + 'static) -> Self {
        Self { name: name.to_string(), takes: Box::new(takes), fates: Vec::new() }
    }
}

impl<C: 'static> Table<C> {
    pub fn of(name: &'static str, rows: impl IntoIterator<Item = Row<C>>) -> Self {
        Self { name, rows: rows.into_iter().collect() }
    }

    /// A row for each value.
    pub fn by<V: ToString + PartialEq + 'static>(
        name: &'static str,
        values: impl IntoIterator<Item = V>,
        of: impl Fn(&C) -> V + Copy + 'static,
    ) -> Self {
        let row = |value: V| Row::of(value.to_string(), move |case| of(case) == value);
        Self::of(name, values.into_iter().map(row))
    }

    /// A last row, of what no other takes.
    pub fn and(mut self, name: impl ToString) -> Self {
        self.rows.push(Row::of(name, |_| true));
        self
    }

    /// One row for all.
    pub fn all() -> Self {
        Self::of("", []).and("all")
    }
}

impl<C> Counts<C> {
    pub fn new(fates: Fates, mut tables: Vec<Table<C>>) -> Self {
        let rows = tables.iter_mut().flat_map(|table| &mut table.rows);
        rows.for_each(|row| row.fates = vec![0; fates.len()]);
        Self { cases: 0, fates, tables }
    }

    /// Counts a case; its fate is a place among the fates.
    pub fn see(&mut self, case: &C, fate: usize) {
        self.cases += 1;
        for table in &mut self.tables {
            if let Some(row) = table.rows.iter_mut().find(|row| (row.takes)(case)) {
                row.fates[fate] += 1;
            }
        }
    }

    /// The sorts, and the fates, that no case had.
    pub fn missing(&self) -> Vec<String> {
        let rows = |table: &Table<C>| {
            let empty = table.rows.iter().filter(|row| row.fates.iter().all(|n| *n == 0));
            empty.map(|row| format!("{} {}", table.name, row.name)).collect::<Vec<_>>()
        };
        let met = |n: usize| self.tables.iter().flat_map(|t| &t.rows).any(|row| row.fates[n] > 0);
        let unmet = (0..self.fates.len()).filter(|n| !met(*n)).map(|n| self.fates[n].to_string());
        self.tables.iter().flat_map(rows).chain(unmet).collect()
    }

    /// The fates that no case had, sort by sort.
    pub fn missing_by_row(&self) -> Vec<String> {
        let mut missing = Vec::new();
        for Table { name: table, rows } in &self.tables {
            for Row { name, fates, .. } in rows {
                let unmet = self.fates.iter().zip(fates).filter(|(_, n)| **n == 0);
                missing.extend(unmet.map(|(fate, _)| format!("{table} {name}, {fate}")));
            }
        }
        missing
    }
}

impl<C> fmt::Display for Counts<C> {
    fn fmt(&self, f: &mut fmt::Formatter<'_>) -> fmt::Result {
        let width = self.fates.iter().map(|fate| fate.len() + 2).fold(WIDTH, usize::max);
        let rows = self.tables.iter().flat_map(|t| &t.rows).map(|row| row.name.len());
        let names = self.tables.iter().map(|t| t.name.len()).chain(rows);
        let column = names.fold(NAME_WIDTH, usize::max);
        for Table { name, rows } in &self.tables {
            write!(f, "{name:>column$}")?;
            self.fates.iter().try_for_each(|fate| write!(f, "{fate:>width$}"))?;
            writeln!(f)?;
            for Row { name, fates, .. } in rows {
                write!(f, "{name:>column$}")?;
                fates.iter().try_for_each(|n| write!(f, "{n:>width$}"))?;
                writeln!(f)?;
            }
        }
        Ok(())
    }
}
