//! The loop of `script.gsql` by a plain program, over the same file: each transfer's amount is added at its receiver. It goes through the
//! transfers as a block does, sender by sender. Prints a line for each form of the table: what it takes in nanoseconds, and the greatest sum.
use std::collections::HashMap;
use std::time::Instant;

/// A transfer as a program keeps it that reads its types at run time: the attributes are a list of its own.
struct Row {
    attributes: Vec<Value>,
}

enum Value {
    Int(i64),
    #[allow(dead_code)]
    Text(String),
}

fn best(mut once: impl FnMut() -> i64) -> (u128, i64) {
    let mut least = u128::MAX;
    let mut most = 0;
    for _ in 0..5 {
        let start = Instant::now();
        most = once();
        least = least.min(start.elapsed().as_nanos());
    }
    (least, most)
}

fn main() {
    let text = std::fs::read_to_string("sends.csv").expect("a file of numbers");
    let mut numbers = HashMap::new();
    let mut amounts = vec![];
    let mut rows = vec![];
    let mut from: Vec<Vec<(u32, u32)>> = vec![];
    for (edge, line) in text.lines().enumerate() {
        let x: Vec<i64> = line.split(',').map(|x| x.parse().expect("a number")).collect();
        let mut number = |id| {
            let next = numbers.len();
            let found = *numbers.entry(id).or_insert(next);
            if found == from.len() {
                from.push(vec![]);
            }
            found
        };
        let (sender, receiver) = (number(x[0]), number(x[1]));
        from[sender].push((edge as u32, receiver as u32));
        amounts.push(x[2]);
        rows.push(Row { attributes: vec![Value::Int(x[2])] });
    }
    let count = from.len();
    let candidates: Vec<(u32, u32)> = from.into_iter().flatten().collect();
    let columns = best(|| {
        let mut n = vec![0i64; count];
        for &(edge, receiver) in &candidates {
            n[receiver as usize] += amounts[edge as usize];
        }
        n.into_iter().max().unwrap_or(0)
    });
    let tables = best(|| {
        let mut n = vec![0i64; count];
        for &(edge, receiver) in &candidates {
            if let Value::Int(x) = rows[edge as usize].attributes[0] {
                n[receiver as usize] += x;
            }
        }
        n.into_iter().max().unwrap_or(0)
    });
    println!("columns {} {}", columns.0, columns.1);
    println!("rows {} {}", tables.0, tables.1);
}
