// The report of run.sh by hand: the sum of what all rows come to, by the same scripts of `run` and `put`, with the same answers.
//
// usage: by_hand loop|memo|tree|threads=N light|heavy TABLES < script
use std::collections::HashMap;
use std::hint::black_box;
use std::io::{Read, Write};

#[derive(Clone, Copy)]
struct Row {
    qty: i64,
    price: i64,
}

fn light(row: &Row) -> i64 {
    row.qty.wrapping_mul(row.price)
}

fn heavy(row: &Row) -> i64 {
    let mut x = row.qty;
    for _ in 0..24 {
        x = x.wrapping_mul(1103).wrapping_add(12345) % 65536;
    }
    x.wrapping_mul(row.price)
}

/// Each keeps what it likes of the rows, which are numbered from 0 here.
trait Report {
    fn put(&mut self, number: usize, row: Row);
    fn total(&mut self) -> i64;
}

/// All rows at each run.
struct Loop<W> {
    rows: Vec<Row>,
    work: W,
}

impl<W: Fn(&Row) -> i64> Report for Loop<W> {
    fn put(&mut self, number: usize, row: Row) {
        self.rows[number] = row;
    }

    fn total(&mut self) -> i64 {
        black_box(&self.rows).iter().fold(0, |total, row| total.wrapping_add((self.work)(row)))
    }
}

/// All rows at each run, a part of them by each of so many threads.
struct Threads<W> {
    rows: Vec<Row>,
    count: usize,
    work: W,
}

impl<W: Fn(&Row) -> i64 + Sync> Report for Threads<W> {
    fn put(&mut self, number: usize, row: Row) {
        self.rows[number] = row;
    }

    fn total(&mut self) -> i64 {
        let work = &self.work;
        let part = |rows: &[Row]| rows.iter().fold(0i64, |total, row| total.wrapping_add(work(row)));
        std::thread::scope(|scope| {
            let parts = self.rows.chunks(self.rows.len().div_ceil(self.count));
            let threads: Vec<_> = parts.map(|rows| scope.spawn(move || part(rows))).collect();
            threads.into_iter().fold(0i64, |total, thread| total.wrapping_add(thread.join().expect("a sum")))
        })
    }
}

/// What each row came to is kept until the row is put again.
struct Memo<W> {
    rows: Vec<Row>,
    known: HashMap<usize, i64>,
    work: W,
}

impl<W: Fn(&Row) -> i64> Report for Memo<W> {
    fn put(&mut self, number: usize, row: Row) {
        self.rows[number] = row;
        self.known.remove(&number);
    }

    fn total(&mut self) -> i64 {
        let (known, work) = (&mut self.known, &self.work);
        self.rows.iter().enumerate().fold(0, |total, (number, row)| {
            total.wrapping_add(*known.entry(number).or_insert_with(|| work(row)))
        })
    }
}

/// A tree of sums, whose leaves are what the rows come to. It is made at the first run.
struct Tree<W> {
    rows: Vec<Row>,
    sums: Vec<i64>,
    work: W,
}

impl<W: Fn(&Row) -> i64> Report for Tree<W> {
    fn put(&mut self, number: usize, row: Row) {
        self.rows[number] = row;
        let mut place = number + self.sums.len() / 2;
        self.sums[place] = (self.work)(&row);
        while place > 1 {
            place /= 2;
            self.sums[place] = self.sums[2 * place].wrapping_add(self.sums[2 * place + 1]);
        }
    }

    fn total(&mut self) -> i64 {
        if self.sums.is_empty() {
            let leaves = self.rows.len().next_power_of_two();
            self.sums = vec![0; leaves];
            self.sums.extend(self.rows.iter().map(&self.work));
            self.sums.resize(2 * leaves, 0);
            for place in (1..leaves).rev() {
                self.sums[place] = self.sums[2 * place].wrapping_add(self.sums[2 * place + 1]);
            }
        }
        self.sums[1]
    }
}

fn numbers<'a>(words: impl Iterator<Item = &'a str>) -> Option<Vec<i64>> {
    words.map(|word| word.trim().parse().ok()).collect()
}

fn rows_of(tables: &str) -> Vec<Row> {
    let lines = tables.lines().map(|line| line.trim_matches(|c| "[], ".contains(c)).split(','));
    let rows = lines.filter_map(numbers).filter(|row| row.len() == 3);
    rows.map(|row| Row { qty: row[1], price: row[2] }).collect()
}

fn report<W: Fn(&Row) -> i64 + Sync + 'static>(how: &str, rows: Vec<Row>, work: W) -> Box<dyn Report> {
    match how.split_once('=') {
        Some(("threads", count)) => Box::new(Threads { rows, count: count.parse().expect("a number of threads"), work }),
        _ if how == "memo" => Box::new(Memo { rows, known: HashMap::new(), work }),
        _ if how == "tree" => Box::new(Tree { rows, sums: Vec::new(), work }),
        _ => Box::new(Loop { rows, work }),
    }
}

fn main() {
    let words: Vec<String> = std::env::args().collect();
    let [_, how, work, tables] = words.as_slice() else { panic!("usage: by_hand HOW light|heavy TABLES < script") };
    let rows = rows_of(&std::fs::read_to_string(tables).expect("the tables"));
    let mut report = if work == "heavy" { report(how, rows, heavy) } else { report(how, rows, light) };
    let mut script = String::new();
    std::io::stdin().read_to_string(&mut script).expect("a script");
    let mut answers = std::io::BufWriter::new(std::io::stdout());
    let mut runs = 0;
    for line in script.lines() {
        if line == "run" {
            runs += 1;
            let total = report.total();
            writeln!(answers, "run {runs}\nresult {total}\ntotal {total}").expect("an answer");
            eprintln!("stats");
        } else {
            let put = numbers(line.split_whitespace().skip(2)).expect("a put of a row");
            report.put(put[0] as usize - 1, Row { qty: put[1], price: put[2] });
            writeln!(answers, "ok").expect("an answer");
        }
    }
    answers.flush().expect("the answers");
}
