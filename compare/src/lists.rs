//! Prefix lists of 16-bit intervals as the library lists them, one interval a line: low, high, and then value/length of each
//! word. compare/lists.py compares them with Python's ipaddress module.

use crate::random::Random;
use ashkavorz::raw;

fn line(low: u32, high: u32) {
    let mut out = [0u16; 60];
    let words = raw::list(16, low, high, &mut out).a as usize;
    let listed: Vec<String> = out.chunks(2).take(words).map(|w| format!("{}/{}", w[0], w[1].count_ones())).collect();
    println!("{low} {high} {}", listed.join(" "));
}

pub fn print() {
    let mut random = Random::new(65_536);
    for (low, high) in [(0, 65_535), (1, 65_534), (1, 65_535), (0, 65_534), (1024, 65_535), (1000, 2000), (1, 5589), (80, 80)] {
        line(low, high);
    }
    for _ in 0..20_000 {
        let (low, high) = (random.end(16).min(65_535), random.end(16).min(65_535));
        line(low.min(high), low.max(high));
    }
}
