// A join written by hand, to compare with: each line's rows are sorted in the order of the variables, and the
// variables are put one after another, each by leapfrogging through the lines that have it.
use crate::question::{Question, Term};

#[derive(Clone, Copy)]
pub enum Order {
    // The row's variables first, in the order of the row.
    HeadFirst,
    // The variables as they come in the lines.
    ByLines,
}

// The rows of one line, as columns in the order of the variables, and where we are in it.
struct Sorted {
    columns: Vec<Vec<u64>>,
    depths: Vec<usize>,
    ranges: Vec<(usize, usize)>,
}

struct Join {
    lines: Vec<Sorted>,
    // For each variable: how many lines have it, which, and as which of their columns.
    uses: Vec<(usize, [(usize, usize); 4])>,
    values: Vec<u64>,
    // The row's variables are all put before this depth.
    shown: usize,
    row: Vec<Result<u64, usize>>,
    out: Vec<[u64; 4]>,
    limit: usize,
}

fn order_of(q: &Question, order: Order) -> Vec<usize> {
    let lines = q.lines.iter().flat_map(|line| line.cells.iter());
    let terms: Vec<&Term> = match order {
        Order::HeadFirst => q.row.iter().chain(lines).collect(),
        Order::ByLines => lines.collect(),
    };
    let mut variables = Vec::new();
    for t in terms {
        if let Term::Variable(x) = t {
            if !variables.contains(x) {
                variables.push(*x);
            }
        }
    }
    variables
}

// The cells of the table with a number, from the lent tables.
fn table(tables: &[u64], number: u64) -> (&[u64], usize) {
    let mut at = 1;
    for _ in 0..tables[0] {
        let (rows, width) = (tables[at + 1] as usize, tables[at + 2] as usize);
        if tables[at] == number {
            return (&tables[at + 3..at + 3 + rows * width], width);
        }
        at += 3 + rows * width;
    }
    (&[], 1)
}

fn passes(cells: &[Term], row: &[u64]) -> bool {
    cells
        .iter()
        .zip(row)
        .enumerate()
        .all(|(i, (t, v))| match t {
            Term::Number(n) => n == v,
            Term::Variable(_) => {
                let first = cells.iter().position(|u| u == t).unwrap();
                first == i || row[first] == *v
            }
        })
}

fn sorted(cells: &[Term], variables: &[usize], tables: &[u64], number: u64) -> Sorted {
    let (numbers, width) = table(tables, number);
    let mut places = Vec::new();
    let mut depths = Vec::new();
    for (depth, x) in variables.iter().enumerate() {
        if let Some(c) = cells.iter().position(|t| *t == Term::Variable(*x)) {
            places.push(c);
            depths.push(depth);
        }
    }
    let mut rows: Vec<[u64; 4]> = Vec::with_capacity(numbers.len() / width);
    for row in numbers.chunks(width).filter(|row| passes(cells, row)) {
        let mut copy = [0; 4];
        for (i, c) in places.iter().enumerate() {
            copy[i] = row[*c];
        }
        rows.push(copy);
    }
    rows.sort_unstable();
    rows.dedup();
    let columns = (0..places.len())
        .map(|i| rows.iter().map(|r| r[i]).collect())
        .collect();
    Sorted {
        columns,
        depths,
        ranges: vec![(0, rows.len())],
    }
}

// The first place from lo on, before hi, whose value is at least v: by doubling steps, then by halving.
fn seek(column: &[u64], lo: usize, hi: usize, v: u64) -> usize {
    let mut step = 1;
    let mut from = lo;
    while from < hi && column[from] < v {
        let next = (from + step).min(hi);
        if next == hi || column[next] >= v {
            return from + 1 + column[from + 1..next].partition_point(|x| *x < v);
        }
        from = next;
        step *= 2;
    }
    from
}

impl Join {
    // The least value from v on that all lines with this variable have in their ranges.
    fn agreed(&self, depth: usize, mut v: u64, at: &mut [usize; 4]) -> Option<u64> {
        let (count, uses) = &self.uses[depth];
        let mut agreeing = 0;
        let mut i = 0;
        while agreeing < *count {
            let (l, c) = uses[i];
            let line = &self.lines[l];
            let (_, hi) = *line.ranges.last().unwrap();
            at[i] = seek(&line.columns[c], at[i], hi, v);
            if at[i] == hi {
                return None;
            }
            let found = line.columns[c][at[i]];
            agreeing = if found == v { agreeing + 1 } else { 1 };
            v = found;
            i = if i + 1 == *count { 0 } else { i + 1 };
        }
        Some(v)
    }

    // Puts the variables from this depth on. Whether a row was put out.
    fn run(&mut self, depth: usize) -> bool {
        if depth == self.values.len() {
            self.put_out();
            return true;
        }
        let (count, uses) = self.uses[depth];
        let uses = &uses[..count];
        let mut at = [0; 4];
        for (i, (l, _)) in uses.iter().enumerate() {
            at[i] = self.lines[*l].ranges.last().unwrap().0;
        }
        let mut any = false;
        let mut v = 0;
        while let Some(found) = self.agreed(depth, v, &mut at) {
            self.values[depth] = found;
            for (i, (l, c)) in uses.iter().enumerate() {
                let line = &mut self.lines[*l];
                let (_, hi) = *line.ranges.last().unwrap();
                let end = seek(&line.columns[*c], at[i], hi, found + 1);
                line.ranges.push((at[i], end));
            }
            any |= self.run(depth + 1);
            for (i, (l, _)) in uses.iter().enumerate() {
                at[i] = self.lines[*l].ranges.pop().unwrap().1;
            }
            // Once the row is put, one way to answer it is enough.
            if any && depth >= self.shown {
                return true;
            }
            v = found + 1;
        }
        any
    }

    fn put_out(&mut self) {
        let mut row = [0; 4];
        for (cell, t) in row.iter_mut().zip(&self.row) {
            *cell = match t {
                Ok(number) => *number,
                Err(depth) => self.values[*depth],
            };
        }
        self.out.push(row);
        if self.out.len() == self.limit {
            self.tidy();
            self.limit = 2 * self.out.len().max(1 << 20);
        }
    }

    fn tidy(&mut self) {
        self.out.sort_unstable();
        self.out.dedup();
    }
}

// The rows that the question answers, each once and in order; how many.
pub fn answer(q: &Question, tables: &[u64], order: Order, out: &mut Vec<u64>) -> usize {
    let variables = order_of(q, order);
    let lines: Vec<Sorted> = q
        .lines
        .iter()
        .map(|l| sorted(&l.cells, &variables, tables, l.table))
        .collect();
    let depth = |x: usize| variables.iter().position(|y| *y == x).unwrap();
    let row: Vec<Result<u64, usize>> = q
        .row
        .iter()
        .map(|t| match t {
            Term::Number(n) => Ok(*n),
            Term::Variable(x) => Err(depth(*x)),
        })
        .collect();
    let shown = row
        .iter()
        .filter_map(|t| t.err())
        .map(|d| d + 1)
        .max()
        .unwrap_or(0);
    let uses = (0..variables.len())
        .map(|d| {
            let mut here = (0, [(0, 0); 4]);
            for (l, line) in lines.iter().enumerate() {
                if let Some(c) = line.depths.iter().position(|e| *e == d) {
                    here.1[here.0] = (l, c);
                    here.0 += 1;
                }
            }
            here
        })
        .collect();
    let empty = lines.iter().any(|s| s.ranges[0].1 == 0);
    let values = vec![0; variables.len()];
    let mut join = Join {
        lines,
        uses,
        values,
        shown,
        row,
        out: Vec::new(),
        limit: 1 << 20,
    };
    if !empty {
        join.run(0);
    }
    join.tidy();
    out.clear();
    for row in &join.out {
        out.extend(&row[..q.row.len()]);
    }
    join.out.len()
}
