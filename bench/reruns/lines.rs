// The report of sessions.sh by hand, from scratch at each run: the same words, tables, scripts and answers as those of the program.
// Its rows are a vector by rising numbers. It knows scripts of `run`, `put`, `del` and of the defines that sessions.sh and memory.sh write.
use std::error::Error;
use std::io::{Read, Write};

struct Row {
    number: i64,
    qty: i64,
    price: i64,
}

/// What a define adds to the value of each line, and to the result.
#[derive(Default)]
struct Added {
    line: i64,
    result: i64,
}

fn numbers(words: &[&str]) -> Option<Vec<i64>> {
    words.iter().map(|word| word.trim().parse().ok()).collect()
}

fn rows_of(tables: &str) -> Vec<Row> {
    let mut rows = Vec::new();
    for line in tables.lines() {
        let words: Vec<&str> = line.trim_matches(|c| "[], ".contains(c)).split(',').collect();
        if let Some([number, qty, price]) = numbers(&words).as_deref() {
            rows.push(Row { number: *number, qty: *qty, price: *price });
        }
    }
    rows
}

fn place_of(rows: &[Row], number: i64) -> Result<usize, usize> {
    rows.binary_search_by_key(&number, |row| row.number)
}

fn put(rows: &mut Vec<Row>, row: Row) {
    match place_of(rows, row.number) {
        Ok(place) => rows[place] = row,
        Err(place) => rows.insert(place, row),
    }
}

fn del(rows: &mut Vec<Row>, number: i64) -> &'static str {
    match place_of(rows, number) {
        Ok(place) => {
            rows.remove(place);
            "ok"
        }
        Err(_) => "refused E7",
    }
}

/// The number behind these words, if they are there.
fn behind(text: &str, words: &str) -> Option<i64> {
    text.split_once(words)?.1.split(';').next()?.trim().parse().ok()
}

fn define(added: &mut Added, text: &str) {
    if text.contains("proc line") {
        added.line = behind(text, "price + ").unwrap_or(0);
    }
    if text.contains("proc main") {
        added.result = behind(text, "return t + ").unwrap_or(0);
    }
}

#[inline(never)]
fn run(rows: &[Row], added: i64) -> (i64, Option<(i64, i64)>) {
    let (mut total, mut top) = (0i64, None);
    for row in rows {
        let value = row.qty.wrapping_mul(row.price).wrapping_add(added);
        total = total.wrapping_add(value);
        if top.is_none_or(|(best, _)| value > best) {
            top = Some((value, row.number));
        }
    }
    (total, top)
}

fn main() -> Result<(), Box<dyn Error>> {
    let tables = std::env::args().nth(2).ok_or("PROGRAM TABLES < script")?;
    let mut rows = rows_of(&std::fs::read_to_string(tables)?);
    let mut script = String::new();
    std::io::stdin().read_to_string(&mut script)?;
    let mut answers = std::io::BufWriter::new(std::io::stdout());
    let (mut added, mut runs, mut lines) = (Added::default(), 0, script.lines().enumerate());
    while let Some((at, line)) = lines.next() {
        let words: Vec<&str> = line.split_whitespace().collect();
        match words.as_slice() {
            ["run"] => {
                runs += 1;
                let (total, top) = run(&rows, added.line);
                let top = top.map_or("none".into(), |(value, row)| format!("{value} {row}"));
                writeln!(answers, "run {runs}\nresult {}\ntotal {total}\ntop {top}", total + added.result)?;
            }
            ["put", "sales", rest @ ..] => {
                let [number, qty, price] = numbers(rest).ok_or("numbers")?[..] else { Err("columns")? };
                put(&mut rows, Row { number, qty, price });
                writeln!(answers, "ok")?;
            }
            ["del", "sales", number] => writeln!(answers, "{}", del(&mut rows, number.parse()?))?,
            ["define"] => {
                let text: Vec<&str> = lines.by_ref().map(|(_, line)| line).take_while(|line| *line != "end").collect();
                define(&mut added, &text.join("\n"));
                writeln!(answers, "ok")?;
            }
            _ => writeln!(answers, "refused E19 {}", at + 1)?,
        }
    }
    Ok(answers.flush()?)
}
