//! Walks a module of N operations once, 100,000 if no number is given: name, operands, types of the results, and all
//! uses of the results of each operation. Prints the seconds of the walk, and what it counted, as `benchmarks/walk.c`
//! does. With a second word it opens the session only.

use mlir_work::Session;
use std::{env, fmt::Write, time::Instant};

/// Returns the module of `benchmarks/walk.c`.
fn module(count: usize) -> String {
    let mut text = String::new();
    for k in 0..count.saturating_sub(1) {
        if k < 2 || k % 6 == 0 {
            let _ = writeln!(text, "%{k} = \"arith.constant\"() <{{value = {} : i32}}> : () -> i32", k % 100);
        } else {
            let (name, flags) = (if k % 2 == 1 { "addi" } else { "muli" }, "overflowFlags = #arith.overflow<none>");
            let _ = writeln!(text, "%{k} = \"arith.{name}\"(%{}, %{}) <{{{flags}}}> : (i32, i32) -> i32", k - 1, k - 2);
        }
    }
    text
}

fn main() {
    let words: Vec<String> = env::args().collect();
    let count = words.get(1).and_then(|it| it.parse().ok()).unwrap_or(100_000);
    let session = Session::open(module(count), 1000).expect("the module is read");
    let (mut names, mut operands, mut types, mut uses) = (0u64, 0, 0u64, 0);
    let begun = Instant::now();
    if words.len() < 3 {
        session.each(|row| {
            names += u64::from(row.name);
            operands += row.operands().len();
            for result in row.results() {
                types += u64::from(result.ty);
                uses += result.uses().len();
            }
        });
    }
    let seconds = begun.elapsed().as_secs_f64();
    println!("{seconds:.4} s, names {names}, operands {operands}, types {types}, uses {uses}");
}
