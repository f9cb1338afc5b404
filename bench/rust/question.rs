// A question read from text, and its forms: the lent numbers, and SQL.

#[derive(Clone, Copy, PartialEq)]
pub enum Term {
    Number(u64),
    Variable(usize),
}

pub struct Line {
    pub table: u64,
    pub cells: Vec<Term>,
}

pub struct Question {
    pub row: Vec<Term>,
    pub lines: Vec<Line>,
}

fn term(word: &str) -> Term {
    match word.strip_prefix('x') {
        Some(variable) => Term::Variable(variable.parse().expect("a variable")),
        None => Term::Number(word.parse().expect("a number")),
    }
}

fn terms(text: &str) -> Vec<Term> {
    text.split_whitespace().map(term).collect()
}

fn line(text: &str) -> Line {
    let (table, cells) = text.split_once(':').expect("a line has a colon");
    Line {
        table: table.trim().parse().expect("a table"),
        cells: terms(cells),
    }
}

// Reads `x0 x2 of 0: x0 x1, 1: x1 x2`.
pub fn question(text: &str) -> Question {
    let (row, lines) = text.split_once("of").expect("a question has an `of`");
    Question {
        row: terms(row),
        lines: lines.split(',').map(line).collect(),
    }
}

fn put_terms(numbers: &mut Vec<u64>, terms: &[Term]) {
    for i in 0..4 {
        numbers.extend(match terms.get(i) {
            Some(Term::Number(n)) => [0, *n],
            Some(Term::Variable(x)) => [1, *x as u64],
            None => [0, 0],
        });
    }
}

// The fifty numbers that a question is lent as.
pub fn lent(q: &Question) -> Vec<u64> {
    let mut numbers = vec![q.row.len() as u64];
    put_terms(&mut numbers, &q.row);
    numbers.push(q.lines.len() as u64);
    for line in &q.lines {
        numbers.extend([line.table, line.cells.len() as u64]);
        put_terms(&mut numbers, &line.cells);
    }
    numbers.resize(50, 0);
    numbers
}

// Where a variable stands first, as SQL.
fn first_place(q: &Question, x: usize) -> String {
    for (i, line) in q.lines.iter().enumerate() {
        if let Some(c) = line.cells.iter().position(|t| *t == Term::Variable(x)) {
            return format!("l{i}.c{c}");
        }
    }
    panic!("x{x} stands in no line");
}

fn sql_term(q: &Question, t: Term) -> String {
    match t {
        Term::Number(n) => n.to_string(),
        Term::Variable(x) => first_place(q, x),
    }
}

// The question as SQL. An empty row asks whether there is any answer, so one is enough.
pub fn sql(q: &Question) -> String {
    let row: Vec<String> = q.row.iter().map(|t| sql_term(q, *t)).collect();
    let places: Vec<String> = (1..=row.len()).map(|i| i.to_string()).collect();
    let lines: Vec<String> = q
        .lines
        .iter()
        .enumerate()
        .map(|(i, line)| format!("t{} l{i}", line.table))
        .collect();
    let mut tests = Vec::new();
    for (i, line) in q.lines.iter().enumerate() {
        for (c, t) in line.cells.iter().enumerate() {
            let here = format!("l{i}.c{c}");
            let there = sql_term(q, *t);
            if here != there {
                tests.push(format!("{here} = {there}"));
            }
        }
    }
    let mut text = match row.is_empty() {
        true => String::from("SELECT 1"),
        false => format!("SELECT DISTINCT {}", row.join(", ")),
    };
    text += &format!(" FROM {}", lines.join(", "));
    if !tests.is_empty() {
        text += &format!(" WHERE {}", tests.join(" AND "));
    }
    text += &match row.is_empty() {
        true => String::from(" LIMIT 1"),
        false => format!(" ORDER BY {}", places.join(", ")),
    };
    text
}
