//! The same work as `script.gsql` by a plain program: load two files, then six queries. It knows its types and shapes beforehand,
//! which an engine for scripts can't. Prints a line once the files are loaded, and then the lines that gsql prints.
use std::collections::{BTreeMap, BinaryHeap, HashMap};
use std::{cmp::Reverse, fs};

fn rows(file: &str) -> Vec<Vec<i64>> {
    let text = fs::read_to_string(file).expect("a file of numbers");
    text.lines().skip(1).map(|line| line.split(',').map(|x| x.parse().expect("a number")).collect()).collect()
}

struct Bank {
    ids: Vec<i64>,
    regions: Vec<i64>,
    /// For each account the receivers and amounts.
    sends: Vec<Vec<(usize, i64)>>,
}

fn load() -> Bank {
    let (mut numbers, mut bank) = (HashMap::new(), Bank { ids: vec![], regions: vec![], sends: vec![] });
    for row in rows("accounts.csv") {
        let number = *numbers.entry(row[0]).or_insert_with(|| {
            bank.ids.push(row[0]);
            bank.regions.push(0);
            bank.sends.push(vec![]);
            bank.ids.len() - 1
        });
        bank.regions[number] = row[1];
    }
    let mut edges: HashMap<(usize, usize), usize> = HashMap::new();
    for row in rows("sends.csv") {
        let (from, to) = (numbers[&row[0]], numbers[&row[1]]);
        match edges.get(&(from, to)) {
            Some(&place) => bank.sends[from][place].1 = row[2],
            None => {
                edges.insert((from, to), bank.sends[from].len());
                bank.sends[from].push((to, row[2]));
            }
        }
    }
    bank
}

fn sums(bank: &Bank) -> String {
    let (mut got, mut hit, mut total) = (vec![0i64; bank.ids.len()], vec![false; bank.ids.len()], 0i64);
    for sent in &bank.sends {
        for &(to, amount) in sent {
            got[to] += amount;
            hit[to] = true;
            total += amount;
        }
    }
    let reached = hit.iter().filter(|x| **x).count();
    let most = got.iter().zip(&hit).filter(|x| *x.1).map(|x| *x.0).max().unwrap_or(i64::MIN);
    format!("{{\"reached\":{reached},\"total\":{total},\"most\":{most}}}")
}

fn groups(bank: &Bank) -> String {
    let mut by: BTreeMap<i64, (i64, i64)> = BTreeMap::new();
    for (region, sent) in bank.regions.iter().zip(&bank.sends) {
        for &(_, amount) in sent {
            let group = by.entry(*region).or_insert((0, i64::MIN));
            *group = (group.0 + amount, group.1.max(amount));
        }
    }
    let listed: Vec<String> = by.iter().map(|(r, g)| format!("{{\"region\":{r},\"total\":{},\"biggest\":{}}}", g.0, g.1)).collect();
    format!("{{\"regions\":[{}]}}", listed.join(","))
}

fn hops(bank: &Bank) -> String {
    let mut far = vec![-1i64; bank.ids.len()];
    let mut now: Vec<usize> = (0..bank.ids.len()).filter(|v| bank.ids[*v] == 0).collect();
    now.iter().for_each(|v| far[*v] = 0);
    let mut d = 0;
    while !now.is_empty() {
        d += 1;
        let mut next = vec![];
        for v in now {
            for &(to, _) in &bank.sends[v] {
                if far[to] < 0 {
                    far[to] = d;
                    next.push(to);
                }
            }
        }
        now = next;
    }
    let reached = far.iter().filter(|x| **x >= 0).count();
    format!("{{\"reached\":{reached},\"hops\":{}}}", far.iter().filter(|x| **x >= 0).sum::<i64>())
}

fn top(bank: &Bank) -> String {
    let mut heap = BinaryHeap::new();
    for (from, sent) in bank.sends.iter().enumerate() {
        for &(to, amount) in sent {
            heap.push((Reverse(amount), bank.ids[from], bank.ids[to]));
            if heap.len() > 10 {
                heap.pop();
            }
        }
    }
    let listed: Vec<String> =
        heap.into_sorted_vec().iter().map(|(a, s, r)| format!("{{\"amount\":{},\"sender\":{s},\"receiver\":{r}}}", a.0)).collect();
    format!("{{\"top\":[{}]}}", listed.join(","))
}

/// What a value was added to at each account that was reached: how many were, the number of ways, and the greatest value.
struct Reached {
    values: Vec<Option<i64>>,
    ways: u64,
}

impl Reached {
    fn none(bank: &Bank) -> Reached {
        Reached { values: vec![None; bank.ids.len()], ways: 0 }
    }

    fn add(&mut self, account: usize, value: i64) {
        *self.values[account].get_or_insert(0) += value;
        self.ways += 1;
    }

    fn line(&self) -> String {
        let reached = self.values.iter().flatten().count();
        let most = self.values.iter().flatten().max().unwrap_or(&i64::MIN);
        format!("{{\"reached\":{reached},\"ways\":{},\"most\":{most}}}", self.ways)
    }
}

fn also_bought(bank: &Bank) -> String {
    let mut senders = vec![vec![]; bank.ids.len()];
    for (from, sent) in bank.sends.iter().enumerate() {
        sent.iter().for_each(|&(to, _)| senders[to].push(from));
    }
    let mut found = Reached::none(bank);
    for source in (0..bank.ids.len()).filter(|v| bank.regions[*v] < 10) {
        for &(middle, _) in &bank.sends[source] {
            for &other in &senders[middle] {
                for &(to, _) in bank.sends[other].iter().filter(|x| x.0 != source) {
                    found.add(to, 1);
                }
            }
        }
    }
    found.line()
}

fn two_payments_away(bank: &Bank) -> String {
    let mut found = Reached::none(bank);
    for sent in &bank.sends {
        for &(middle, _) in sent {
            for &(to, amount) in &bank.sends[middle] {
                found.add(to, amount);
            }
        }
    }
    found.line()
}

fn main() {
    let bank = load();
    println!("loaded");
    for query in [sums, groups, hops, top, also_bought, two_payments_away] {
        println!("{{\"error\":false,\"message\":\"\",\"results\":[{}]}}", query(&bank));
    }
}
