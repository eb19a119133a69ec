//! The counts of what was met, in tables, each count with the least that it must reach.

/// What is counted in one row and column; where no least stands, the count is not asked for.
struct Cell {
    met: u64,
    least: Option<u64>,
}

struct Row {
    name: String,
    cells: Vec<Cell>,
}

pub struct Table {
    title: &'static str,
    columns: Vec<&'static str>,
    rows: Vec<Row>,
}

const NAME_WIDTH: usize = 62;
const CELL_WIDTH: usize = 18;

impl Table {
    pub fn new(title: &'static str, columns: &[&'static str]) -> Table {
        Table { title, columns: columns.to_vec(), rows: Vec::new() }
    }

    /// A row that must reach a least in every column.
    pub fn row(&mut self, name: &str, least: u64) {
        self.row_in(name, &vec![Some(least); self.columns.len()]);
    }

    /// A row with a least of its own for each column.
    pub fn row_in(&mut self, name: &str, least: &[Option<u64>]) {
        let cells = least.iter().map(|&least| Cell { met: 0, least }).collect();
        self.rows.push(Row { name: name.to_string(), cells });
    }

    pub fn met(&mut self, name: &str, column: usize) {
        self.met_times(name, column, 1);
    }

    /// A row that nobody foresaw is kept, and fails at the end.
    pub fn met_times(&mut self, name: &str, column: usize, times: u64) {
        if !self.rows.iter().any(|row| row.name == name) {
            let none = vec![None; self.columns.len()];
            self.row_in(&format!("not foreseen: {name}"), &none);
            if let Some(row) = self.rows.last_mut() {
                row.cells[column].least = Some(u64::MAX);
            }
            return;
        }
        let rows = self.rows.iter_mut().filter(|row| row.name == name);
        rows.for_each(|row| row.cells[column].met += times);
    }

    /// Whether each count reached its least.
    pub fn reached(&self) -> bool {
        let cells = self.rows.iter().flat_map(|row| &row.cells);
        cells.into_iter().all(|cell| cell.met >= cell.least.unwrap_or(0))
    }

    pub fn title(&self) -> &'static str {
        self.title
    }

    pub fn print(&self) {
        print!("\n{:NAME_WIDTH$}", self.title);
        self.columns.iter().for_each(|column| print!("{column:>CELL_WIDTH$}"));
        println!();
        for row in &self.rows {
            print!("  {:width$}", row.name, width = NAME_WIDTH - 2);
            row.cells.iter().for_each(|cell| print!("{:>CELL_WIDTH$}", told(cell)));
            println!();
        }
    }
}

/// A count with its least; an exclamation mark where it falls short.
fn told(cell: &Cell) -> String {
    match cell.least {
        None if cell.met == 0 => "-".to_string(),
        None => cell.met.to_string(),
        Some(least) if cell.met < least => format!("! {} of {least}", cell.met),
        Some(least) => format!("{} of {least}", cell.met),
    }
}
