//! The proved reader of files of records beside a plain one on the same bytes, as ratios from one run.
//!
//! The proved one runs in a program of its own, crates/f5d_bench/out/f5d_bench, which times itself; the plain one runs here, with
//! the same checks. Both check a file of 720 hours of each supply whole, then go through its records once more, and
//! have to come to the same count and sum.
use std::collections::HashSet;
use std::fs::File;
use std::hint::black_box;
use std::io::Write;
use std::process::{Command, Stdio};
use std::time::Instant;

const HOURS: u32 = 720;
/// The first hour of January 2024.
const FIRST: u32 = 210_385;

// ## Files

/// Days before a month of a year from 2000 to 2099.
fn days_before(year: u32, month: u32) -> u32 {
    const DAYS: [u32; 13] = [0, 0, 31, 59, 90, 120, 151, 181, 212, 243, 273, 304, 334];
    DAYS[month as usize] + u32::from(month > 2 && year % 4 == 0)
}

fn month_days(year: u32, month: u32) -> u32 {
    match month {
        1 | 3 | 5 | 7 | 8 | 10 | 12 => 31,
        4 | 6 | 9 | 11 => 30,
        2 => 28 + u32::from(year % 4 == 0),
        _ => 0,
    }
}

/// The number of a day, 0 for 2000/01/01.
fn day_number(year: u32, month: u32, day: u32) -> u32 {
    365 * (year - 2000) + (year - 2000 + 3) / 4 + days_before(year, month) + day - 1
}

/// The last Sunday of a month of 31 days; day 1 is a Sunday.
fn last_sunday(year: u32, month: u32) -> u32 {
    let last = day_number(year, month, 31);
    last - (last + 6) % 7
}

/// 1 in summer, else 0.
fn flag(hour: u32) -> u32 {
    let year = 2000 + 4 * (hour / 24) / 1461;
    u32::from(hour >= 24 * last_sunday(year, 3) + 2 && hour < 24 * last_sunday(year, 10) + 2)
}

/// `aaaa/mm/dd hh:mm;f` of an hour.
fn label(hour: u32) -> String {
    let flag = flag(hour);
    let clock = hour + flag;
    let year = 2000 + 4 * (clock / 24) / 1461;
    let in_year = clock / 24 - day_number(year, 1, 1);
    let month = (1..=12).rev().find(|m| days_before(year, *m) <= in_year).expect("a month");
    let day = in_year - days_before(year, month) + 1;
    format!("{year}/{month:02}/{day:02} {:02}:00;{flag}", clock % 24)
}

/// 720 hours of each supply, the supplies in ascending order of code, or shuffled.
fn file(supplies: u32, shuffled: bool) -> Vec<u8> {
    let mut order: Vec<u32> = (0..supplies).collect();
    let mut seed: u64 = 20240101;
    if shuffled {
        for at in (1..order.len()).rev() {
            seed = seed.wrapping_mul(6364136223846793005).wrapping_add(1442695040888963407);
            order.swap(at, (seed >> 33) as usize % (at + 1));
        }
    }
    let labels: Vec<String> = (FIRST..FIRST + HOURS).map(label).collect();
    let mut bytes = Vec::new();
    for supply in order {
        for (at, label) in labels.iter().enumerate() {
            seed = seed.wrapping_mul(6364136223846793005).wrapping_add(1442695040888963407);
            let (energy, method, firm) = ((seed >> 33) % 20_000, 1 + (seed >> 20) % 6, at % 2);
            writeln!(bytes, "ES{supply:016}TR0F;{label};{energy};;;;;;{method};{firm};F{supply:010};").expect("memory");
        }
    }
    bytes
}

// ## The plain reader

/// A record owns its codes, as the proved one does.
#[allow(dead_code)]
struct Record {
    supply: [u8; 22],
    hour: u32,
    energy: u64,
    method: u8,
    firmness: u8,
    invoice: [u8; 26],
    invoice_length: usize,
}

/// The number of the digits.
fn number(digits: &[u8]) -> Option<u32> {
    digits.iter().try_fold(0, |n, d| d.is_ascii_digit().then(|| 10 * n + u32::from(d - b'0')))
}

/// The hour that has the label under the flag.
fn hour(label: &[u8], written: u32) -> Option<u32> {
    if label[4] != b'/' || label[7] != b'/' || label[10] != b' ' || label[13] != b':' {
        return None;
    }
    let year = number(&label[0..4])?;
    let month = number(&label[5..7])?;
    let day = number(&label[8..10])?;
    let clock = number(&label[11..13])?;
    let minute = number(&label[14..16])?;
    if !(2000..=2099).contains(&year) || day < 1 || day > month_days(year, month) || clock > 23 || minute != 0 {
        return None;
    }
    let hour = (24 * day_number(year, month, day) + clock).checked_sub(written)?;
    ((1..=876_599).contains(&hour) && flag(hour) == written).then_some(hour)
}

/// The record whose line the bytes begin with, and the bytes behind it; or the first bad field.
fn read(bytes: &[u8]) -> Result<(Record, &[u8]), u8> {
    let (supply, rest) = bytes.split_first_chunk::<22>().ok_or(0)?;
    let code = |b: &u8| b.is_ascii_digit() || b.is_ascii_uppercase();
    if !supply.iter().all(code) || rest.first() != Some(&b';') {
        return Err(0);
    }
    let (label, rest) = rest[1..].split_at_checked(16).ok_or(1)?;
    if rest.first() != Some(&b';') {
        return Err(1);
    }
    let hour = match rest.get(1) {
        Some(b'0' | b'1') if rest.get(2) == Some(&b';') => hour(label, u32::from(rest[1] - b'0')),
        _ => None,
    };
    let hour = hour.ok_or_else(|| if self::hour(label, 0).or(self::hour(label, 1)).is_some() { 2 } else { 1 })?;
    let rest = &rest[3..];
    let count = rest.iter().take(10).take_while(|b| b.is_ascii_digit()).count();
    if count == 0 || rest.get(count) != Some(&b';') || (count > 1 && rest[0] == b'0') {
        return Err(3);
    }
    let energy = rest[..count].iter().fold(0, |n, d| 10 * n + u64::from(d - b'0'));
    let rest = &rest[count + 1..];
    for field in 0..5 {
        if rest.get(field) != Some(&b';') {
            return Err(4 + field as u8);
        }
    }
    let rest = &rest[5..];
    let method = match rest {
        [method @ b'1'..=b'6', b';', ..] => method - b'0',
        _ => return Err(9),
    };
    let firmness = match &rest[2..] {
        [firmness @ b'0'..=b'1', b';', ..] => firmness - b'0',
        _ => return Err(10),
    };
    let rest = &rest[4..];
    let count = rest.iter().take(26).take_while(|b| b.is_ascii_graphic() && **b != b';').count();
    if count == 0 || rest.get(count) != Some(&b';') || rest.get(count + 1) != Some(&b'\n') {
        return Err(11);
    }
    let mut invoice = [0; 26];
    invoice[..count].copy_from_slice(&rest[..count]);
    Ok((Record { supply: *supply, hour, energy, method, firmness, invoice, invoice_length: count }, &rest[count + 2..]))
}

/// The count of the records of a file, or the line and what is wrong there (12: out of turn).
fn check(bytes: &[u8]) -> Result<usize, (usize, u8)> {
    let (mut last, mut rest) = read(bytes).map_err(|field| (1, field))?;
    let mut seen = HashSet::from([last.supply]);
    let mut line = 1;
    while !rest.is_empty() {
        line += 1;
        let (next, behind) = read(rest).map_err(|field| (line, field))?;
        let in_turn = if next.supply == last.supply { last.hour < next.hour } else { seen.insert(next.supply) };
        if !in_turn {
            return Err((line, 12));
        }
        (last, rest) = (next, behind);
    }
    Ok(line)
}

// ## Both measured

/// Microseconds, count and sum of the plain reader.
fn plain(bytes: &[u8]) -> (f64, usize, u64) {
    let start = Instant::now();
    let count = check(black_box(bytes)).expect("a file of records");
    let mut sum: u64 = 0;
    let mut rest = black_box(bytes);
    while let Ok((record, behind)) = read(rest) {
        sum = sum.wrapping_add(black_box(record).energy);
        rest = behind;
    }
    (start.elapsed().as_secs_f64() * 1e6, count, sum)
}

/// The same of the proved one, on the file of a path.
fn proved(program: &str, path: &str) -> (f64, usize, u64) {
    let input = Stdio::from(File::open(path).expect("the file"));
    let out = Command::new(program).stdin(input).output().expect("f5d_bench runs");
    let text = String::from_utf8(out.stdout).expect("text");
    let mut words = text.split_whitespace().map(|w| w.parse::<u64>().expect("a number"));
    let mut next = || words.next().expect("three numbers");
    (next() as f64, next() as usize, next())
}

/// The best of fifteen runs each, in turn: other work on the machine only ever adds to a time.
fn measured(program: &str, path: &str, bytes: &[u8]) -> (f64, f64, usize) {
    let (mut p, mut q) = (f64::MAX, f64::MAX);
    let mut lines = 0;
    for _ in 0..15 {
        let (time, count, sum) = proved(program, path);
        let (other, same_count, same_sum) = plain(bytes);
        assert_eq!((count, sum), (same_count, same_sum));
        (p, q, lines) = (p.min(time), q.min(other), count);
    }
    (p, q, lines)
}

fn main() {
    let program = std::env::args().nth(1).expect("the path of f5d_bench");
    let path = std::env::temp_dir().join(format!("f5d_bench.{}", std::process::id()));
    let path = path.to_str().expect("a path");
    println!("| supplies | lines | MB | proved, ms | plain, ms | ratio | proved, ns per line | plain, ns per line |");
    println!("|---|---|---|---|---|---|---|---|");
    for supplies in [200, 500, 1000, 2000] {
        for shuffled in [false, true] {
            let bytes = file(supplies, shuffled);
            std::fs::write(path, &bytes).expect("the file is written");
            let (p, q, lines) = measured(&program, path, &bytes);
            let order = if shuffled { "shuffled" } else { "in order" };
            let (mb, n) = (bytes.len() as f64 / 1e6, lines as f64);
            println!("| {supplies}, {order} | {lines} | {mb:.1} | {:.1} | {:.1} | {:.2} | {:.1} | {:.1} |", p / 1e3, q / 1e3, p / q, 1e3 * p / n, 1e3 * q / n);
        }
    }
    std::fs::remove_file(path).expect("the file is removed");
}
