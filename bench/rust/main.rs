// Measures one way of answering one question, or prints what the other ways need. bench/run calls it.
mod join;
#[cfg(ours)]
mod ours;
mod question;
#[cfg(sqlite)]
mod sqlite;
mod tables;

use join::Order;
use question::Question;
use std::time::{Duration, Instant};

const RUNS: usize = 9;
const ENOUGH: Duration = Duration::from_secs(5);

// One number for the cells of the rows, in order.
fn checksum(cells: &[u64]) -> u64 {
    cells.iter().fold(0, |sum: u64, c| {
        sum.wrapping_mul(1_000_003).wrapping_add(c + 1)
    })
}

// Runs a few times, for five seconds at most if once is not longer, and prints each time and what was answered.
fn measure(width: usize, mut run: impl FnMut() -> usize, cells: impl FnOnce(usize) -> Vec<u64>) {
    let start = Instant::now();
    let mut count = 0;
    for _ in 0..RUNS {
        let begun = Instant::now();
        count = run();
        println!("time {}", begun.elapsed().as_nanos());
        if start.elapsed() > ENOUGH {
            break;
        }
    }
    println!("rows {count} {}", checksum(&cells(count * width)));
}

#[cfg(ours)]
fn measure_ours(q: &Question, lent: &[u64]) {
    let question = question::lent(q);
    let mut out = vec![1; 1 << 20];
    let answered = std::cell::RefCell::new(&mut out);
    let run = || match ours::answer(&question, lent, &mut answered.borrow_mut()) {
        Ok(count) => count,
        Err((number, place)) => panic!("refused {number} at {place}"),
    };
    measure(q.row.len(), run, |n| answered.borrow()[..n].to_vec());
}

#[cfg(not(ours))]
fn measure_ours(_q: &Question, _lent: &[u64]) {
    panic!("built without ours");
}

fn measure_hand(q: &Question, lent: &[u64], order: Order) {
    let out = std::cell::RefCell::new(Vec::new());
    let run = || join::answer(q, lent, order, &mut out.borrow_mut());
    measure(q.row.len(), run, |n| out.borrow()[..n].to_vec());
}

#[cfg(sqlite)]
fn measure_sqlite(q: &Question, tables: &[Vec<[u64; 2]>]) {
    let database = sqlite::Database::in_memory();
    database.load(tables);
    let statement = database.prepare(&question::sql(q));
    let out = std::cell::RefCell::new(Vec::new());
    let run = || statement.rows(q.row.len(), &mut out.borrow_mut());
    measure(q.row.len(), run, |n| out.borrow()[..n].to_vec());
}

#[cfg(not(sqlite))]
fn measure_sqlite(_q: &Question, _tables: &[Vec<[u64; 2]>]) {
    panic!("built without SQLite");
}

fn sqlite_version() -> String {
    #[cfg(sqlite)]
    return sqlite::version();
    #[cfg(not(sqlite))]
    return String::from("none");
}

// The tables as SQL, for a server: each with an index from each column that covers the other.
fn print_tables(tables: &[Vec<[u64; 2]>]) {
    for (t, rows) in tables.iter().enumerate() {
        println!("CREATE TABLE t{t} (c0 bigint, c1 bigint);");
        println!("COPY t{t} FROM STDIN;");
        for row in rows {
            println!("{}\t{}", row[0], row[1]);
        }
        println!("\\.");
        println!("CREATE INDEX ON t{t} (c0, c1);");
        println!("CREATE INDEX ON t{t} (c1, c0);");
    }
    println!("VACUUM ANALYZE;");
}

fn main() {
    let words: Vec<String> = std::env::args().skip(1).collect();
    let words: Vec<&str> = words.iter().map(String::as_str).collect();
    match words[..] {
        ["sqlite-version"] => println!("{}", sqlite_version()),
        ["tables", rows] => print_tables(&tables::tables(rows.parse().expect("a count"))),
        ["sql", text] => println!("{}", question::sql(&question::question(text))),
        [way, rows, text] => {
            let q = question::question(text);
            let tables = tables::tables(rows.parse().expect("a count"));
            let lent = tables::lent(&tables);
            match way {
                "ours" => measure_ours(&q, &lent),
                "sqlite" => measure_sqlite(&q, &tables),
                "head-first" => measure_hand(&q, &lent, Order::HeadFirst),
                "by-lines" => measure_hand(&q, &lent, Order::ByLines),
                _ => panic!("no such way: {way}"),
            }
        }
        _ => panic!("measure (ours | sqlite | head-first | by-lines) ROWS QUESTION"),
    }
}
