//! The sources' tables, as the papers print them or as their formulas give them: what crates/papers/stdout must hold.

use crate::plain;
use std::fmt::Write;

fn choose(n: u64, k: u64) -> u64 {
    if k > n { 0 } else { (0..k).fold(1, |c, i| c * (n - i) / (i + 1)) }
}

/// Theorem 4.1 of source document 000, with document 01's correction: the whole width has one word.
fn intervals_with(n: u64, t: u64) -> u64 {
    let inner: u64 = (1..n).map(|s| (1 << (n - s - 1)) * choose(2 * s, t)).sum();
    inner + 2 * choose(n, t) + u64::from(t == 1)
}

fn most(n: u64) -> u64 {
    if n == 1 { 1 } else { 2 * n - 2 }
}

fn theorem(out: &mut String) {
    writeln!(out, "source document 000, theorem 4.1: how many intervals of width n have 1, 2, .. words").unwrap();
    for n in 1..=10 {
        write!(out, "n = {n}:").unwrap();
        for t in 1..=most(n) {
            write!(out, " {}", intervals_with(n, t)).unwrap();
        }
        writeln!(out).unwrap();
    }
}

/// Table 3 of source document 000, as printed there, column by column, sorted.
fn three_words(out: &mut String) {
    let mut printed = vec![
        (0, 5), (0, 6), (1, 7), (2, 7), (8, 13), (8, 14), (9, 15), (10, 15),
        (0, 8), (1, 9), (1, 10), (1, 12), (2, 9), (2, 10), (2, 12), (4, 9), (4, 10), (4, 12),
        (3, 11), (3, 13), (3, 14), (5, 11), (5, 13), (5, 14), (6, 11), (6, 13), (6, 14), (7, 15),
        (1, 16), (2, 16), (4, 16), (8, 16), (-1, 7), (-1, 11), (-1, 13), (-1, 14),
    ];
    printed.sort();
    writeln!(out, "source document 000, table 3: the open intervals of width 4 with three words").unwrap();
    for (a, b) in &printed {
        write!(out, "({a}, {b}) ").unwrap();
    }
    writeln!(out, "{} intervals", printed.len()).unwrap();
}

/// Tables 4 and 5 of source document 000, as printed there.
fn averages(out: &mut String) {
    writeln!(out, "source document 000, table 4: n, how many intervals, their mean number of words").unwrap();
    for (n, intervals, mean) in [
        (4, 136, "2.47794"), (5, 528, "3.27462"), (6, 2080, "4.15433"), (7, 8256, "5.08539"), (8, 32896, "6.04672"),
        (9, 131328, "7.02535"), (10, 524800, "8.01366"), (11, 2098176, "9.00732"), (12, 8390656, "10.00391"),
    ] {
        writeln!(out, "{n} {intervals} {mean}").unwrap();
    }
    writeln!(out, "source document 000, table 5: n, intervals with at most the mean and one, two deviations, the variance").unwrap();
    for (n, one, two, variance) in [
        (8, "95.03587%", "99.67169%", "99.67169%"),
        (9, "94.00204%", "99.44642%", "99.89416%"),
        (10, "93.01715%", "99.17569%", "99.80526%"),
        (11, "92.08265%", "99.68811%", "99.93380%"),
        (12, "91.19742%", "99.54448%", "99.88636%"),
    ] {
        writeln!(out, "{n} {one} {two} {variance}").unwrap();
    }
}

/// A word's symbols, the highest bit first.
fn symbols(n: u32, value: u16, mask: u16) -> String {
    (0..n)
        .rev()
        .map(|i| match (mask >> i & 1, value >> i & 1) {
            (0, _) => '*',
            (_, 0) => '0',
            _ => '1',
        })
        .collect()
}

fn list(out: &mut String, n: u32, low: u32, high: u32) {
    for (value, mask) in plain::words(n, low, high) {
        writeln!(out, "{}", symbols(n, value, mask)).unwrap();
    }
}

pub fn expected() -> String {
    let mut out = String::new();
    theorem(&mut out);
    three_words(&mut out);
    averages(&mut out);
    writeln!(out, "source document 001, table 1: the words of each rule, and together").unwrap();
    writeln!(out, "16 152 1 169").unwrap();
    writeln!(out, "ports 1080 and 2080: record 65, rule 1, action 0").unwrap();
    writeln!(out, "source document 001, table 3 (a), and source document 002, figure 1 (a): the prefix words of 1..14").unwrap();
    for printed in ["0001", "001*", "01**", "10**", "110*", "1110"] {
        writeln!(out, "{printed}").unwrap();
    }
    writeln!(out, "source document 002, figure 6: the prefix words of 19..61").unwrap();
    list(&mut out, 6, 19, 61);
    out
}
