//! The library against the plain version, same machine, same input, both optimised, in interleaved rounds. Each row is the
//! median of its rounds; the last column is the library's time divided by the plain version's.

use crate::{lean, plain, random::Random, sheet};
use ashkavorz::raw;
use std::{hint::black_box, time::Instant};

const ROUNDS: usize = 11;

/// Nanoseconds that one call of f takes, over `calls` calls.
fn time(calls: usize, f: &mut dyn FnMut(usize)) -> f64 {
    let start = Instant::now();
    for i in 0..calls {
        f(i);
    }
    start.elapsed().as_nanos() as f64 / calls as f64
}

fn median(mut xs: Vec<f64>) -> f64 {
    xs.sort_by(f64::total_cmp);
    xs[xs.len() / 2]
}

fn row(name: &str, rounds: usize, calls: usize, ours: &mut dyn FnMut(usize), theirs: &mut dyn FnMut(usize)) {
    let (mut a, mut b) = (Vec::new(), Vec::new());
    for _ in 0..rounds {
        a.push(time(calls, ours));
        b.push(time(calls, theirs));
    }
    let (a, b) = (median(a), median(b));
    println!("| {name} | {a:.1} | {b:.1} | {:.2} |", a / b);
}

/// 256 rules of eight words each: source ports 1000..2000, one destination port.
fn rules() -> Vec<u8> {
    let mut out = Vec::new();
    for i in 0..256u32 {
        let mut r = [0u8; plain::RULE];
        r[1] = 6;
        r[7..11].copy_from_slice(&(0x0a00_0000 + i).to_be_bytes());
        r[11] = 32;
        r[12..16].copy_from_slice(&[0x03, 0xe8, 0x07, 0xd0]);
        r[16..20].copy_from_slice(&[0x01, 0xf6, 0x01, 0xf6]);
        out.extend(r);
    }
    out
}

/// Headers for those rules: half of them match, anywhere in the list, and half match nothing.
fn headers(count: usize) -> Vec<[u8; plain::HEADER]> {
    let mut random = Random::new(13);
    (0..count)
        .map(|_| {
            let mut h = [0u8; plain::HEADER];
            h[0] = 6;
            h[1..5].copy_from_slice(&(random.next() as u32).to_be_bytes());
            h[5..9].copy_from_slice(&(0x0a00_0000 + random.below(512) as u32).to_be_bytes());
            h[9..11].copy_from_slice(&(1000 + random.below(1001) as u16).to_be_bytes());
            h[11..13].copy_from_slice(&502u16.to_be_bytes());
            h
        })
        .collect()
}

/// 2,000 words that together match 1..65534, the narrow ones first, each of the first 1,970 matching one value.
fn foreign() -> Vec<u16> {
    let mut out: Vec<u16> = (0..1_970u16).flat_map(|i| [1 + 33 * i, u16::MAX]).collect();
    out.extend(plain::words(16, 1, 65_534).iter().flat_map(|w| [w.0, w.1]));
    out
}

/// One call lists the 30 words of 1..65534.
fn listing(list: impl Fn(u32, u32, u32, &mut [u16]) -> raw::Answer) -> impl FnMut(usize) {
    let mut out = [0u16; 60];
    move |_| {
        black_box(list(black_box(16), black_box(1), black_box(65_534), &mut out));
    }
}

/// One call is one step over 1..65534, from the state that the step before it gave; an ended walk starts again.
fn stepping(step: impl Fn(raw::Walk) -> raw::Step) -> impl FnMut(usize) {
    let start = raw::Walk { width: 16, next: 1, last: 65_534, ended: 0 };
    let mut walk = start;
    move |_| {
        walk = step(black_box(walk)).walk;
        if walk.ended != 0 {
            walk = start;
        }
    }
}

pub fn run() {
    let mut random = Random::new(1);
    let ends: Vec<(u32, u32)> = (0..4096)
        .map(|_| {
            let (a, b) = (random.below(65_536) as u32, random.below(65_536) as u32);
            (a.min(b), a.max(b))
        })
        .collect();
    println!("| call | library, ns | plain Rust, ns | ratio |");
    println!("|---|---|---|---|");
    row(
        "close, n = 16, random bounds",
        ROUNDS,
        200_000,
        &mut |i| { black_box(raw::close(black_box(16), ends[i % 4096].0 as i32 - 1, ends[i % 4096].1 as i32 + 1)); },
        &mut |i| { black_box(plain::close(black_box(16), ends[i % 4096].0 as i32 - 1, ends[i % 4096].1 as i32 + 1)); },
    );
    row(
        "count, n = 16, random intervals",
        ROUNDS,
        200_000,
        &mut |i| { black_box(raw::count(black_box(16), ends[i % 4096].0, ends[i % 4096].1)); },
        &mut |i| { black_box(plain::count(black_box(16), ends[i % 4096].0, ends[i % 4096].1)); },
    );
    row(
        "list, n = 16, 1..65534, 30 words",
        ROUNDS,
        100_000,
        &mut listing(raw::list),
        &mut listing(plain::list),
    );
    row(
        "list, the same, against trailing zeros by hand",
        ROUNDS,
        100_000,
        &mut listing(raw::list),
        &mut listing(lean::list),
    );
    row(
        "step, n = 16, over 1..65534",
        ROUNDS,
        1_000_000,
        &mut stepping(raw::step),
        &mut stepping(plain::step),
    );
    row(
        "step, the same, against trailing zeros by hand behind the same C interface",
        ROUNDS,
        1_000_000,
        &mut stepping(raw::step),
        &mut stepping(|w| lean::step_from_c(w)),
    );
    row(
        "step, the same, against trailing zeros by hand, called as Rust calls",
        ROUNDS,
        1_000_000,
        &mut stepping(raw::step),
        &mut stepping(lean::step),
    );
    let own: Vec<u16> = plain::words(16, 1, 65_534).iter().flat_map(|w| [w.0, w.1]).collect();
    row(
        "check, n = 16, 30 words",
        ROUNDS,
        20,
        &mut |_| { black_box(raw::check(16, 1, 65_534, black_box(&own), 30)); },
        &mut |_| { black_box(plain::check(16, 1, 65_534, black_box(&own), 30)); },
    );
    let many = foreign();
    row(
        "check, n = 16, 2,000 foreign words",
        5,
        1,
        &mut |_| { black_box(raw::check(16, 1, 65_534, black_box(&many), 2_000)); },
        &mut |_| { black_box(plain::check(16, 1, 65_534, black_box(&many), 2_000)); },
    );
    let rules = rules();
    let mut table = vec![0u8; plain::RECORD * plain::WORDS];
    let mut other = table.clone();
    row(
        "compile, 256 rules to 2,048 words",
        ROUNDS,
        200,
        &mut |_| { black_box(raw::compile(black_box(&rules), &mut table)); },
        &mut |_| { black_box(plain::compile(black_box(&rules), &mut other)); },
    );
    let headers = headers(100_000);
    row(
        "find_rule, 256 rules",
        ROUNDS,
        10_000,
        &mut |i| { black_box(raw::find_rule(&rules, &headers[i])); },
        &mut |i| { black_box(plain::find_rule(&rules, &headers[i])); },
    );
    row(
        "find_word, 2,048 records, 100,000 headers ten times",
        10,
        100_000,
        &mut |i| { black_box(raw::find_word(&table, 2_048, &headers[i])); },
        &mut |i| { black_box(plain::find_word(&other, 2_048, &headers[i])); },
    );
    let text = "6\t10.20.0.0/24\t10.20.1.0/28\t1024-65535\t502-503\tpermit-log\n".repeat(plain::RULES).into_bytes();
    let mut records = vec![0u8; plain::RULE * plain::RULES];
    let mut others = records.clone();
    row(
        "read_sheet, 256 lines",
        ROUNDS,
        200,
        &mut |_| { black_box(raw::read_sheet(black_box(&text), &mut records)); },
        &mut |_| { black_box(sheet::read(black_box(&text), &mut others)); },
    );
}
