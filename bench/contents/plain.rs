//! The same in plain Rust, in two ways: `typed`, where kinds and values are types of the program, and `kinds`, where both are known at
//! run time only, as an engine has them.
use std::cmp::Reverse;
use std::collections::{BTreeMap, BTreeSet, BinaryHeap};
use std::hint::black_box;
use std::time::Instant;

// Keys in no order, all different.
fn key_of(i: u64) -> i64 {
    (i.wrapping_mul(2654435761) % 4294967296) as i64
}

fn say(way: &str, what: &str, n: u64, start: Instant) {
    println!("{way}-{what} {n} {}", start.elapsed().as_micros());
}

mod typed {
    use super::*;

    pub fn all(n: u64) {
        scalars(20 * n);
        set(n);
        map(n);
        heap(n);
    }

    fn scalars(n: u64) {
        let start = Instant::now();
        let mut sum = 0i128;
        for i in 0..n {
            sum += i128::from(black_box(key_of(i)));
            black_box(&mut sum);
        }
        say("typed", "sum", n, start);
        let start = Instant::now();
        let mut max: Option<i64> = None;
        for i in 0..n {
            let key = black_box(key_of(i));
            max = Some(max.map_or(key, |most| most.max(key)));
            black_box(&mut max);
        }
        say("typed", "max", n, start);
    }

    fn set(n: u64) {
        let start = Instant::now();
        let mut set: BTreeSet<i64> = (0..0).collect();
        let mut more = BTreeSet::new();
        for i in 0..n / 2 {
            set.insert(key_of(i));
        }
        for i in n / 2..n {
            more.insert(key_of(i));
        }
        for key in &more {
            set.insert(*key);
        }
        say("typed", "set", n, start);
    }

    fn map(n: u64) {
        let start = Instant::now();
        let mut map: BTreeMap<i64, i128> = BTreeMap::new();
        let mut more: BTreeMap<i64, i128> = BTreeMap::new();
        for i in 0..n / 2 {
            *map.entry(key_of(i)).or_insert(0) += 1;
        }
        for i in n / 2..n {
            *more.entry(key_of(i)).or_insert(0) += 1;
        }
        for (key, sum) in &more {
            *map.entry(*key).or_insert(0) += sum;
        }
        say("typed", "map", n, start);
    }

    fn heap(n: u64) {
        let start = Instant::now();
        let mut heap = BinaryHeap::new();
        for i in 0..n {
            heap.push(Reverse((key_of(i), 1i64)));
            if heap.len() > 100 {
                heap.pop();
            }
        }
        say("typed", "heap", n, start);
    }
}

mod kinds {
    use super::*;

    #[derive(Clone, PartialEq, Eq, PartialOrd, Ord)]
    pub enum Value {
        Int(i64),
        UInt(u64),
        Bool(bool),
        Text(String),
        Tuple(Vec<Value>),
    }

    pub enum Input {
        One(Value),
        Keyed(Vec<Value>, Vec<Input>),
    }

    pub enum Content {
        Sum(i128),
        Max(Option<i64>),
        Or(bool),
        Set(BTreeSet<Value>),
        Bag(Vec<Value>),
        Map(Box<Content>, BTreeMap<Value, Content>),
    }

    #[derive(Debug)]
    pub struct Unfit;

    impl Content {
        fn copy(&self) -> Result<Content, Unfit> {
            match self {
                Content::Sum(sum) => Ok(Content::Sum(*sum)),
                Content::Max(max) => Ok(Content::Max(*max)),
                Content::Or(truth) => Ok(Content::Or(*truth)),
                Content::Set(keys) => Ok(Content::Set(keys.clone())),
                Content::Bag(items) => Ok(Content::Bag(items.clone())),
                Content::Map(_, _) => Err(Unfit),
            }
        }

        fn feed(&mut self, input: &Input) -> Result<(), Unfit> {
            match input {
                Input::One(value) => self.feed_one(value),
                Input::Keyed(row, inputs) => {
                    let Content::Map(opening, entries) = self else {
                        return Err(Unfit);
                    };
                    if let Some(part) = entries.get_mut(&row[0]) {
                        return part.feed(&inputs[0]);
                    }
                    let mut part = opening.copy()?;
                    part.feed(&inputs[0])?;
                    entries.insert(row[0].clone(), part);
                    Ok(())
                }
            }
        }

        fn feed_one(&mut self, value: &Value) -> Result<(), Unfit> {
            match (self, value) {
                (Content::Sum(sum), Value::Int(n)) => *sum += i128::from(*n),
                (Content::Sum(sum), Value::UInt(n)) => *sum += i128::from(*n),
                (Content::Max(max), Value::Int(n)) => {
                    *max = Some(max.map_or(*n, |most| most.max(*n)));
                }
                (Content::Or(truth), Value::Bool(more)) => *truth |= more,
                (Content::Set(keys), value) => {
                    if !keys.contains(value) {
                        keys.insert(value.clone());
                    }
                }
                (Content::Bag(items), value) => items.push(value.clone()),
                _ => return Err(Unfit),
            }
            Ok(())
        }

        fn merge(&mut self, other: &Content) -> Result<(), Unfit> {
            match (self, other) {
                (Content::Sum(sum), Content::Sum(more)) => *sum += *more,
                (Content::Set(keys), Content::Set(more)) => {
                    for key in more {
                        if !keys.contains(key) {
                            keys.insert(key.clone());
                        }
                    }
                }
                (Content::Map(opening, entries), Content::Map(_, more)) => {
                    for (key, theirs) in more {
                        if let Some(part) = entries.get_mut(key) {
                            part.merge(theirs)?;
                        } else {
                            let mut part = opening.copy()?;
                            part.merge(theirs)?;
                            entries.insert(key.clone(), part);
                        }
                    }
                }
                _ => return Err(Unfit),
            }
            Ok(())
        }
    }

    fn numbers(mut content: Content, keys: std::ops::Range<u64>) -> Result<Content, Unfit> {
        let mut input = Input::One(Value::Int(0));
        for i in keys {
            if let Input::One(Value::Int(n)) = &mut input {
                *n = key_of(i);
            }
            black_box(&mut content).feed(black_box(&input))?;
        }
        Ok(content)
    }

    fn keyed(keys: std::ops::Range<u64>) -> Result<Content, Unfit> {
        let mut content = Content::Map(Box::new(Content::Sum(0)), BTreeMap::new());
        for i in keys {
            let inputs = vec![Input::One(Value::Int(1))];
            content.feed(&Input::Keyed(vec![Value::Int(key_of(i))], inputs))?;
        }
        Ok(content)
    }

    pub fn all(n: u64) -> Result<(), Unfit> {
        let start = Instant::now();
        black_box(numbers(Content::Sum(0), 0..20 * n)?);
        say("kinds", "sum", 20 * n, start);
        let start = Instant::now();
        black_box(numbers(Content::Max(None), 0..20 * n)?);
        say("kinds", "max", 20 * n, start);
        let start = Instant::now();
        let mut set = numbers(Content::Set(BTreeSet::new()), 0..n / 2)?;
        set.merge(&numbers(Content::Set(BTreeSet::new()), n / 2..n)?)?;
        say("kinds", "set", n, start);
        let start = Instant::now();
        let mut map = keyed(0..n / 2)?;
        map.merge(&keyed(n / 2..n)?)?;
        say("kinds", "map", n, start);
        // The variants that no line above makes are part of what a match looks at.
        black_box((Value::Text(String::new()), Value::Tuple(Vec::new()), Value::UInt(0), Value::Bool(true)));
        black_box((Content::Or(false), Content::Bag(Vec::new())));
        Ok(())
    }
}

fn main() {
    for n in [500_000u64, 1_000_000] {
        typed::all(n);
        if kinds::all(n).is_err() {
            println!("an input was unfit");
        }
    }
}
