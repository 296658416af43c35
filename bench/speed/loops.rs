// What the reports of run.sh answer, by loops and calls of Rust alone: so many times the same run.
// usage: loops iterations|calls SIZE RUNS
use std::hint::black_box;

/// What a run answers: its result, and the sums a and b where it has them.
struct Answer {
    result: i64,
    sums: Option<(i64, i64)>,
}

#[inline(never)]
fn iterations(count: i64) -> Answer {
    let (mut a, mut b) = (0i64, 0i64);
    for i in 0..count {
        let i = black_box(i);
        let x = i.wrapping_mul(3);
        let y = x.wrapping_add(i);
        a = a.wrapping_add(x);
        b = b.wrapping_add(y);
    }
    Answer { result: 0, sums: Some((a, b)) }
}

#[inline(never)]
fn fib(n: i64) -> i64 {
    if n < 2 {
        return n;
    }
    let x = fib(black_box(n - 1));
    let y = fib(black_box(n - 2));
    x.wrapping_add(y)
}

fn main() {
    let words: Vec<String> = std::env::args().collect();
    let [_, name, size, runs] = words.as_slice() else { panic!("usage: loops iterations|calls SIZE RUNS") };
    let (size, runs): (i64, i64) = (size.parse().expect("a size"), runs.parse().expect("a number of runs"));
    for run in 1..=runs {
        let answer = match name.as_str() {
            "iterations" => iterations(black_box(size)),
            _ => Answer { result: fib(black_box(size)), sums: None },
        };
        println!("run {run}\nresult {}", answer.result);
        if let Some((a, b)) = answer.sums {
            println!("a {a}\nb {b}");
        }
    }
}
