// The same reads and writes as `bench_machine tables`, on plain vectors with bounds checks. The walks
// `access`, `rows` and `columns` go over a table that learns its sizes when it runs, as `Held` does,
// and owes the tests of a checked table: of the row, of the column and of the vector's index.
// `fixed_access`, `fixed_rows` and `fixed_columns` go over one whose sizes stand in the code: there
// rustc takes every test out, and makes the walk along rows a vector loop.
use std::hint::black_box;

const SIDE: u32 = 2000;

trait Cells {
    /// The number at a row and a column, where there is such a cell.
    fn fetch(&self, row: i64, col: i64) -> Option<i64>;

    /// Sets a cell, and tells whether it is there.
    fn put(&mut self, row: i64, col: i64, value: i64) -> bool;
}

struct Table {
    rows: u32,
    cols: u32,
    cells: Vec<i64>,
}

impl Table {
    fn new(rows: u32, cols: u32) -> Table {
        let cells = vec![7; rows as usize * cols as usize];
        Table { rows, cols, cells }
    }

    #[inline(always)]
    fn position(&self, row: i64, col: i64) -> Option<usize> {
        if 0 <= row && row < i64::from(self.rows) && 0 <= col && col < i64::from(self.cols) {
            return Some(row as usize * self.cols as usize + col as usize);
        }
        None
    }
}

impl Cells for Table {
    #[inline(always)]
    fn fetch(&self, row: i64, col: i64) -> Option<i64> {
        self.cells.get(self.position(row, col)?).copied()
    }

    #[inline(always)]
    fn put(&mut self, row: i64, col: i64, value: i64) -> bool {
        let cell = self.position(row, col).and_then(|at| self.cells.get_mut(at));
        cell.map(|cell| *cell = value).is_some()
    }
}

struct Fixed(Vec<i64>);

impl Cells for Fixed {
    #[inline(always)]
    fn fetch(&self, row: i64, col: i64) -> Option<i64> {
        Some(self.0[row as usize * SIDE as usize + col as usize])
    }

    #[inline(always)]
    fn put(&mut self, row: i64, col: i64, value: i64) -> bool {
        self.0[row as usize * SIDE as usize + col as usize] = value;
        true
    }
}

/// Counts a cell up, and gives what it was.
#[inline(always)]
fn count_up(table: &mut impl Cells, row: u32, col: u32) -> i64 {
    let (row, col) = (i64::from(row), i64::from(col));
    let Some(value) = table.fetch(row, col) else {
        return 0;
    };
    table.put(row, col, value.wrapping_add(1));
    value
}

fn access(table: &mut impl Cells) -> i64 {
    let mut sum: i64 = 0;
    let mut state: u64 = 1;
    for _ in 0..1_000_000 {
        state = state.wrapping_mul(6_364_136_223_846_793_005).wrapping_add(1);
        let row = (state >> 33) as u32 % SIDE;
        let col = (state >> 40) as u32 % SIDE;
        sum = sum.wrapping_add(count_up(table, row, col));
    }
    sum
}

fn rows(table: &mut impl Cells) -> i64 {
    let mut sum: i64 = 0;
    for row in 0..500 {
        for col in 0..SIDE {
            sum = sum.wrapping_add(count_up(table, row, col));
        }
    }
    sum
}

fn columns(table: &mut impl Cells) -> i64 {
    let mut sum: i64 = 0;
    for col in 0..500 {
        for row in 0..SIDE {
            sum = sum.wrapping_add(count_up(table, row, col));
        }
    }
    sum
}

fn walks(table: &mut impl Cells, walk: &str, times: u32) -> i64 {
    let mut sum: i64 = 0;
    for _ in 0..times {
        let round = match walk {
            "rows" => rows(table),
            "columns" => columns(table),
            _ => access(table),
        };
        sum = sum.wrapping_add(round);
    }
    sum
}

fn main() {
    let walk = std::env::args().nth(1).unwrap_or_default();
    let times: u32 = std::env::args().nth(2).and_then(|word| word.parse().ok()).unwrap_or(0);
    let sum = match walk.strip_prefix("fixed_") {
        Some(walk) => walks(&mut Fixed(vec![7; 4_000_000]), walk, times),
        None => walks(&mut Table::new(black_box(SIDE), black_box(SIDE)), &walk, times),
    };
    println!("{sum}");
}
