//! Many generated bodies through the original and through the rules: what came of them is counted, and each difference told.
use crate::cases::{agree, first_departure, printed, refused};
use original::{Outcome, THREAD_STACK, Want};
use std::collections::BTreeMap;
use std::sync::Mutex;
use std::sync::atomic::{AtomicU64, Ordering};

#[derive(Default)]
struct Counts {
    /// By family, then by what came of a body.
    outcomes: BTreeMap<String, BTreeMap<String, u64>>,
    errors: BTreeMap<String, u64>,
    nodes: u64,
    largest: usize,
    /// The slowest body of the original and of the rules, in microseconds, with its index.
    slowest: [(u128, u64); 2],
    different: Vec<(u64, String)>,
}

/// The first `count` bodies of a seed; whether nothing differs.
pub fn run(seed: u64, count: u64) -> bool {
    let next = AtomicU64::new(0);
    let all = Mutex::new(Counts::default());
    let threads = std::thread::available_parallelism().map_or(1, |n| n.get());
    std::thread::scope(|scope| {
        for _ in 0..threads {
            let work = || {
                loop {
                    let index = next.fetch_add(1, Ordering::Relaxed);
                    if index >= count {
                        break;
                    }
                    one(seed, index, &all);
                }
            };
            std::thread::Builder::new().stack_size(THREAD_STACK).spawn_scoped(scope, work).unwrap();
        }
    });
    let all = all.into_inner().unwrap();
    print(seed, count, &all);
    all.different.is_empty()
}

fn one(seed: u64, index: u64, all: &Mutex<Counts>) {
    let (family, bytes) = generate::body(seed, index);
    let read = body::read(&bytes);
    let before = std::time::Instant::now();
    let outcome = match &read {
        Ok(b) => printed(original::run(b, Want::default()).outcome),
        Err(r) => Outcome::Report(refused(*r)),
    };
    let middle = std::time::Instant::now();
    let rules = rules::report(&bytes);
    let after = std::time::Instant::now();

    let mut all = all.lock().unwrap();
    let answer = |text: &str| text.split([',', '\n']).next().unwrap_or("").to_string();
    let class = match &outcome {
        Outcome::Report(text) => answer(text),
        Outcome::Refused(..) => answer(&outcome.text()),
        Outcome::Outside(_) => format!("{} {}", answer(&outcome.text()), answer(&rules)),
        Outcome::Panic(_) => "panic".to_string(),
    };
    *all.outcomes.entry(family.name().to_string()).or_default().entry(class).or_default() += 1;
    if let Outcome::Report(text) = &outcome {
        for row in text.lines().filter_map(|l| l.strip_prefix("error=")) {
            let f: Vec<&str> = row.split(',').collect();
            *all.errors.entry(format!("{:>2} cause {}", f[0], f[1])).or_default() += 1;
        }
        if text.starts_with("answer=0") && text.contains("\nerrors=0\n") {
            *all.errors.entry("bodies without an error".to_string()).or_default() += 1;
        }
    }
    if let Ok(b) = &read {
        all.nodes += b.nodes.len() as u64;
        all.largest = all.largest.max(b.nodes.len());
    }
    all.slowest[0] = all.slowest[0].max(((middle - before).as_micros(), index));
    all.slowest[1] = all.slowest[1].max(((after - middle).as_micros(), index));

    if !agree(&outcome, &rules, first_departure(&bytes)) {
        let text = format!("{}original\n{}rules\n{rules}", String::from_utf8_lossy(&bytes), outcome.text());
        all.different.push((index, text));
    }
}

fn print(seed: u64, count: u64, all: &Counts) {
    println!("seed {seed}, bodies {count}, nodes {}, at most {} in a body", all.nodes, all.largest);
    let mut total: BTreeMap<&str, u64> = BTreeMap::new();
    for (family, outcomes) in &all.outcomes {
        let line: Vec<String> = outcomes.iter().map(|(c, n)| format!("{c}: {n}")).collect();
        println!("{family:<10} {}", line.join(", "));
        for (c, n) in outcomes {
            *total.entry(c).or_default() += n;
        }
    }
    let line: Vec<String> = total.iter().map(|(c, n)| format!("{c}: {n}")).collect();
    println!("{:<10} {}", "all", line.join(", "));
    for (e, n) in &all.errors {
        println!("errors {e}: {n}");
    }
    for (what, (micros, index)) in ["original", "rules"].iter().zip(all.slowest) {
        println!("slowest of the {what}: {:.1} ms, body {index}", micros as f64 / 1000.0);
    }
    println!("different: {}", all.different.len());
    let mut different: Vec<_> = all.different.iter().collect();
    different.sort();
    for (index, text) in different.iter().take(3) {
        println!("body {index} of seed {seed}\n{text}");
    }
}
