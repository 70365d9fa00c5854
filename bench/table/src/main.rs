//! The proved table beside Rust's BTreeMap on the same keys, as ratios from one run.
//!
//! The table runs in a program of its own, crates/table_bench/out/table_bench, which times itself; the map runs here. Both fill
//! themselves with 720 hours of each supply, in the same order, and have to come to the same count and sum.
use std::collections::BTreeMap;
use std::hint::black_box;
use std::process::Command;
use std::time::Instant;

const HOURS: u32 = 720;

type Key = ([u8; 22], u32);

fn entry(supply: u32, hour: u32) -> (Key, u64) {
    let mut code = *b"ES0000000000000000TR0F";
    code[8..18].copy_from_slice(format!("{supply:010}").as_bytes());
    ((code, hour), u64::from(supply ^ hour))
}

fn entries(workload: &str, supplies: u32) -> Vec<(Key, u64)> {
    match workload {
        "in-order" | "one-run" => (0..supplies).flat_map(|s| (1..=HOURS).map(move |h| entry(s, h))).collect(),
        "runs" => (0..supplies).scan(0, |s, _| { let now = *s; *s = (*s + 617) % supplies; Some(now) }).flat_map(|s| (1..=HOURS).map(move |h| entry(s, h))).collect(),
        _ => (1..=HOURS).flat_map(|h| (0..supplies).map(move |s| entry(s, h))).collect(),
    }
}

/// Milliseconds, count and sum of the map.
fn map(workload: &str, supplies: u32) -> (f64, usize, u64) {
    let wanted = entries(workload, supplies);
    let full: BTreeMap<Key, u64> = if workload == "find" { wanted.iter().copied().collect() } else { BTreeMap::new() };
    let start = Instant::now();
    let (count, sum) = if workload == "find" {
        (full.len(), wanted.iter().filter_map(|(k, _)| full.get(k)).fold(0u64, |a, b| a.wrapping_add(*b)))
    } else {
        let mut map = BTreeMap::new();
        for (key, wh) in &wanted {
            map.insert(*key, *wh);
        }
        (map.len(), black_box(&map).values().fold(0u64, |a, b| a.wrapping_add(*b)))
    };
    (start.elapsed().as_secs_f64() * 1000.0, count, sum)
}

/// The same of the table.
fn table(program: &str, workload: &str, supplies: u32) -> (f64, usize, u64) {
    let out = Command::new(program).args([workload, &supplies.to_string()]).output().expect("table_bench runs");
    let text = String::from_utf8(out.stdout).expect("text");
    let mut words = text.split_whitespace().map(|w| w.parse::<u64>().expect("a number"));
    let mut next = || words.next().expect("three numbers");
    (next() as f64 / 1000.0, next() as usize, next())
}

fn main() {
    let program = std::env::args().nth(1).expect("the path of table_bench");
    println!("| workload | entries | table, ms | BTreeMap, ms | ratio |\n|---|---|---|---|---|");
    for supplies in [14, 139, 1389] {
        for workload in ["in-order", "find", "one-run", "runs", "interleaved"] {
            if workload == "interleaved" && supplies > 139 {
                continue;
            }
            let (t, count, sum) = table(&program, workload, supplies);
            let (m, same_count, same_sum) = map(workload, supplies);
            assert_eq!((count, sum), (same_count, same_sum), "{workload}");
            println!("| {workload} | {} | {t:.1} | {m:.1} | {:.2} |", supplies * HOURS, t / m);
        }
    }
}
