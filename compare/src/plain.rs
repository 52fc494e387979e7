//! The calls of document 01, written from the document alone, the plain way. Nothing is shared with the proved crates.

pub use ashkavorz::raw::{Answer, Step, Walk};

pub const RULE: usize = 21;
pub const HEADER: usize = 13;
pub const RECORD: usize = 28;
pub const RULES: usize = 256;
pub const WORDS: usize = 2048;

pub fn done(a: u32, b: u32, c: u32, d: u32) -> Answer {
    Answer { no: 0, a, b, c, d }
}

pub fn refused(no: u32, a: u32, b: u32) -> Answer {
    Answer { no, a, b, c: 0, d: 0 }
}

/// 1, 2 or 3 for an interval, 0 where it is good.
pub fn fault(n: u32, low: u32, high: u32) -> u32 {
    if !(1..=16).contains(&n) {
        1
    } else if low >= 1 << n || high >= 1 << n {
        2
    } else if low > high {
        3
    } else {
        0
    }
}

pub fn close(n: u32, a: i32, b: i32) -> Answer {
    let (a, b) = (i64::from(a), i64::from(b));
    if !(1..=16).contains(&n) {
        return refused(1, 0, 0);
    }
    let fits = -1..=1i64 << n;
    if !fits.contains(&a) || !fits.contains(&b) {
        return refused(2, 0, 0);
    }
    if b - a < 2 {
        return refused(3, 0, 0);
    }
    done((a + 1) as u32, (b - 1) as u32, 0, 0)
}

/// The lowest of the largest aligned blocks inside low..=high: its size.
pub fn lowest(n: u32, low: u32, high: u32) -> u32 {
    let mut size = 1u32 << n;
    while low % size != 0 || low + size - 1 > high {
        size /= 2;
    }
    size
}

/// The prefix words of a good interval, value and mask.
pub fn words(n: u32, low: u32, high: u32) -> Vec<(u16, u16)> {
    let mut out = Vec::new();
    let mut at = low;
    while at <= high {
        let size = lowest(n, at, high);
        out.push((at as u16, ((1u32 << n) - size) as u16));
        at += size;
    }
    out
}

/// Document 01's four cases.
pub fn formula(n: u32, low: u32, high: u32) -> u32 {
    let zeros_below = |x: u32, s: u32| (0..s).filter(|i| x >> i & 1 == 0).count() as u32;
    let ones_below = |x: u32, s: u32| (0..s).filter(|i| x >> i & 1 == 1).count() as u32;
    let b = high + 1;
    if low == 0 && b == 1 << n {
        return 1;
    }
    if low == 0 {
        return ones_below(b, 17);
    }
    let a = low - 1;
    if b == 1 << n {
        return zeros_below(a, n);
    }
    let s = (0..17).rev().find(|i| a >> i & 1 != b >> i & 1).unwrap();
    zeros_below(a, s) + ones_below(b, s)
}

pub fn count(n: u32, low: u32, high: u32) -> Answer {
    match fault(n, low, high) {
        0 => done(formula(n, low, high), 0, 0, 0),
        f => refused(f, 0, 0),
    }
}

pub fn list(n: u32, low: u32, high: u32, out: &mut [u16]) -> Answer {
    let f = fault(n, low, high);
    if f != 0 {
        return refused(f, 0, 0);
    }
    let ws = words(n, low, high);
    if out.len() < 2 * ws.len() {
        return refused(4, ws.len() as u32, 0);
    }
    for (i, (value, mask)) in ws.iter().enumerate() {
        out[2 * i] = *value;
        out[2 * i + 1] = *mask;
    }
    done(ws.len() as u32, 0, 0, 0)
}

pub fn step(walk: Walk) -> Step {
    let kept = Step { no: 0, given: 0, value: 0, mask: 0, walk };
    if walk.ended != 0 {
        return kept;
    }
    let f = fault(walk.width, walk.next, walk.last);
    if f != 0 {
        return Step { no: f, ..kept };
    }
    let size = lowest(walk.width, walk.next, walk.last);
    let past = walk.next + size;
    let after = if past > walk.last { Walk { ended: 1, ..walk } } else { Walk { next: past, ..walk } };
    Step { no: 0, given: 1, value: walk.next, mask: (1 << walk.width) - size, walk: after }
}

/// A well-formed ternary word of width n.
pub fn formed(n: u32, value: u16, mask: u16) -> bool {
    value & !mask == 0 && u32::from(value) < 1 << n && u32::from(mask) < 1 << n
}

pub fn check(n: u32, low: u32, high: u32, list: &[u16], k: usize) -> Answer {
    let f = fault(n, low, high);
    if f != 0 {
        return refused(f, 0, 0);
    }
    if k > list.len() / 2 {
        return refused(9, 0, 0);
    }
    for i in 0..k {
        if !formed(n, list[2 * i], list[2 * i + 1]) {
            return refused(10, i as u32, 0);
        }
    }
    for x in 0..1u32 << n {
        let inside = low <= x && x <= high;
        let mut matched = false;
        for i in 0..k {
            if x as u16 & list[2 * i + 1] == list[2 * i] {
                matched = true;
                break;
            }
        }
        if inside != matched {
            return done(0, x, 0, 0);
        }
    }
    done(1, 0, 0, 0)
}

fn two(b: &[u8], at: usize) -> u32 {
    u32::from(u16::from_be_bytes([b[at], b[at + 1]]))
}

fn four(b: &[u8], at: usize) -> u32 {
    u32::from_be_bytes([b[at], b[at + 1], b[at + 2], b[at + 3]])
}

/// The bits of an address that its prefix length covers.
fn prefix(len: u8) -> u32 {
    if len == 0 { 0 } else { u32::MAX << (32 - len) }
}

/// The first bad field of a rule, or 0.
pub fn bad_field(r: &[u8]) -> u32 {
    if r[0] > 1 {
        1
    } else if r[0] == 1 && r[1] != 0 {
        2
    } else if r[6] > 32 {
        3
    } else if four(r, 2) & !prefix(r[6]) != 0 {
        4
    } else if r[11] > 32 {
        5
    } else if four(r, 7) & !prefix(r[11]) != 0 {
        6
    } else if two(r, 12) > two(r, 14) {
        7
    } else if two(r, 16) > two(r, 18) {
        8
    } else if r[20] > 3 {
        9
    } else {
        0
    }
}

/// 5, 6 or 7 for a rule list.
pub fn rules_fault(rules: &[u8]) -> Option<Answer> {
    if rules.len() % RULE != 0 {
        return Some(refused(5, 0, 0));
    }
    if rules.len() / RULE > RULES {
        return Some(refused(6, 0, 0));
    }
    for (i, r) in rules.chunks(RULE).enumerate() {
        let f = bad_field(r);
        if f != 0 {
            return Some(refused(7, i as u32, f));
        }
    }
    None
}

pub fn rule_matches(r: &[u8], h: &[u8]) -> bool {
    (r[0] == 1 || r[1] == h[0])
        && four(r, 2) & prefix(r[6]) == four(h, 1) & prefix(r[6])
        && four(r, 7) & prefix(r[11]) == four(h, 5) & prefix(r[11])
        && two(r, 12) <= two(h, 9)
        && two(h, 9) <= two(r, 14)
        && two(r, 16) <= two(h, 11)
        && two(h, 11) <= two(r, 18)
}

pub fn find_rule(rules: &[u8], header: &[u8]) -> Answer {
    if let Some(f) = rules_fault(rules) {
        return f;
    }
    if header.len() != HEADER {
        return refused(11, 0, 0);
    }
    for (i, r) in rules.chunks(RULE).enumerate() {
        if rule_matches(r, header) {
            return done(1, i as u32, u32::from(r[20]), 0);
        }
    }
    done(0, 0, 0, 0)
}

/// How many records a table has room for.
pub fn room(bytes: usize) -> usize {
    (bytes / RECORD).min(WORDS)
}

pub fn compile(rules: &[u8], table: &mut [u8]) -> Answer {
    if let Some(f) = rules_fault(rules) {
        return f;
    }
    let needed: usize = rules
        .chunks(RULE)
        .map(|r| (formula(16, two(r, 12), two(r, 14)) * formula(16, two(r, 16), two(r, 18))) as usize)
        .sum();
    if needed > room(table.len()) {
        return refused(8, needed as u32, 0);
    }
    let mut at = 0;
    for (i, r) in rules.chunks(RULE).enumerate() {
        let dests = words(16, two(r, 16), two(r, 18));
        for (sv, sm) in words(16, two(r, 12), two(r, 14)) {
            for (dv, dm) in &dests {
                let t = &mut table[at..at + RECORD];
                t[0] = r[1];
                t[1..5].copy_from_slice(&r[2..6]);
                t[5..9].copy_from_slice(&r[7..11]);
                t[9..11].copy_from_slice(&sv.to_be_bytes());
                t[11..13].copy_from_slice(&dv.to_be_bytes());
                t[13] = if r[0] == 1 { 0 } else { 255 };
                t[14..18].copy_from_slice(&prefix(r[6]).to_be_bytes());
                t[18..22].copy_from_slice(&prefix(r[11]).to_be_bytes());
                t[22..24].copy_from_slice(&sm.to_be_bytes());
                t[24..26].copy_from_slice(&dm.to_be_bytes());
                t[26] = i as u8;
                t[27] = r[20];
                at += RECORD;
            }
        }
    }
    done(needed as u32, 0, 0, 0)
}

pub fn record_formed(t: &[u8]) -> bool {
    (0..HEADER).all(|j| t[j] & !t[HEADER + j] == 0) && t[27] <= 3
}

pub fn record_matches(t: &[u8], h: &[u8]) -> bool {
    (0..HEADER).all(|j| h[j] & t[HEADER + j] == t[j])
}

pub fn find_word(table: &[u8], k: usize, header: &[u8]) -> Answer {
    if k > room(table.len()) {
        return refused(9, 0, 0);
    }
    for (i, t) in table.chunks(RECORD).take(k).enumerate() {
        if !record_formed(t) {
            return refused(10, i as u32, 0);
        }
    }
    if header.len() != HEADER {
        return refused(11, 0, 0);
    }
    for (i, t) in table.chunks(RECORD).take(k).enumerate() {
        if record_matches(t, header) {
            return done(1, i as u32, u32::from(t[26]), u32::from(t[27]));
        }
    }
    done(0, 0, 0, 0)
}
