//! Every call of libtablet.a against the plain version, on many inputs: small and large, valid and damaged. Lent memory has
//! guard values around it and is compared before and after; every refusal has to be reached. What the safe wrapper makes of each
//! answer is compared too, and the hand-written list and step that the benchmark measures.

use crate::{lean, plain, random::Random};
use ashkavorz::{raw, Checked, Refusal};
use std::collections::BTreeMap;

/// How often each answer of each call was seen, by refusal number; 0 is an answer that was done.
#[derive(Default)]
pub struct Tally(BTreeMap<(&'static str, u32), u64>);

impl Tally {
    fn saw(&mut self, call: &'static str, no: u32) {
        *self.0.entry((call, no)).or_default() += 1;
    }

    /// Prints the tally, and says which answers that should have been reached were not.
    pub fn report(&self) -> Result<(), String> {
        let mut total = 0;
        for ((call, no), times) in &self.0 {
            println!("{call:10} {}  {times}", if *no == 0 { "done      ".into() } else { format!("refused {no:2}") });
            total += times;
        }
        println!("{total} inputs compared");
        let expected: &[(&str, &[u32])] = &[
            ("close", &[0, 1, 2, 3]),
            ("count", &[0, 1, 2, 3]),
            ("list", &[0, 1, 2, 3, 4]),
            ("step", &[0, 1, 2, 3]),
            ("check", &[0, 1, 2, 3, 9, 10]),
            ("compile", &[0, 5, 6, 7, 8]),
            ("find_rule", &[0, 5, 6, 7, 11]),
            ("find_word", &[0, 9, 10, 11]),
        ];
        for (call, numbers) in expected {
            for no in *numbers {
                if !self.0.contains_key(&(*call, *no)) {
                    return Err(format!("{call} never answered {no}"));
                }
            }
        }
        if total < 1_000_000 {
            return Err(format!("only {total} inputs were compared"));
        }
        Ok(())
    }
}

type Outcome = Result<(), String>;

pub fn same<T: PartialEq + std::fmt::Debug>(what: impl FnOnce() -> String, ours: T, theirs: T) -> Outcome {
    if ours == theirs {
        Ok(())
    } else {
        Err(format!("{}: the library {ours:?}, the plain version {theirs:?}", what()))
    }
}

/// An answer as the wrapper gives it: what was done, or the refusal.
fn wrapped<T>(r: raw::Answer, what: impl FnOnce() -> T) -> Result<T, Refusal> {
    if r.no == 0 { Ok(what()) } else { Err(Refusal { no: r.no, a: r.a, b: r.b }) }
}

/// The same where what was done is a number.
pub fn number(r: raw::Answer) -> Result<u32, Refusal> {
    wrapped(r, || r.a)
}

fn close(n: u32, a: i32, b: i32, t: &mut Tally) -> Outcome {
    let r = raw::close(n, a, b);
    t.saw("close", r.no);
    same(|| format!("close({n}, {a}, {b})"), r, plain::close(n, a, b))?;
    same(|| format!("the wrapper's close({n}, {a}, {b})"), ashkavorz::close(n, a, b), wrapped(r, || (r.a, r.b)))
}

fn count(n: u32, low: u32, high: u32, t: &mut Tally) -> Outcome {
    let r = raw::count(n, low, high);
    t.saw("count", r.no);
    same(|| format!("count({n}, {low}, {high})"), r, plain::count(n, low, high))?;
    same(|| format!("the wrapper's count({n}, {low}, {high})"), ashkavorz::count(n, low, high), number(r))
}

const GUARD: usize = 4;

fn list(n: u32, low: u32, high: u32, room: usize, fill: u16, t: &mut Tally) -> Outcome {
    let mut ours = vec![fill; room + 2 * GUARD];
    let mut theirs = ours.clone();
    let r = raw::list(n, low, high, &mut ours[GUARD..GUARD + room]);
    t.saw("list", r.no);
    same(|| format!("list({n}, {low}, {high}, {room})"), r, plain::list(n, low, high, &mut theirs[GUARD..GUARD + room]))?;
    same(|| format!("list({n}, {low}, {high}, {room}), the numbers"), &ours, &theirs)?;
    let lent = &mut theirs[GUARD..GUARD + room];
    same(|| format!("the wrapper's list({n}, {low}, {high}, {room})"), ashkavorz::list(n, low, high, lent), number(r))?;
    same(|| format!("trailing zeros by hand, list({n}, {low}, {high}, {room})"), lean::list(n, low, high, lent), r)?;
    same(|| format!("trailing zeros by hand, list({n}, {low}, {high}, {room}), the numbers"), ours, theirs)
}

fn step(w: raw::Walk, t: &mut Tally) -> Outcome {
    let r = raw::step(w);
    t.saw("step", r.no);
    same(|| format!("step({w:?})"), r, plain::step(w))?;
    same(|| format!("trailing zeros by hand, step({w:?})"), r, lean::step(w))
}

/// All steps of a walk are the list, and the state after them has ended.
fn walk(n: u32, low: u32, high: u32, t: &mut Tally) -> Outcome {
    let mut w = raw::Walk { width: n, next: low, last: high, ended: 0 };
    for (value, mask) in plain::words(n, low, high) {
        let s = raw::step(w);
        t.saw("step", s.no);
        same(|| format!("walk({n}, {low}, {high}) at {w:?}"), (s.no, s.given, s.value, s.mask), (0, 1, value.into(), mask.into()))?;
        w = s.walk;
    }
    same(|| format!("walk({n}, {low}, {high}) after the last word"), raw::step(w), raw::Step { no: 0, given: 0, value: 0, mask: 0, walk: w })?;
    same(|| format!("walk({n}, {low}, {high}) ended"), w.ended, 1)?;
    let words = plain::words(n, low, high).iter().map(|w| Ok((w.0.into(), w.1.into()))).collect::<Vec<_>>();
    same(|| format!("the wrapper's words({n}, {low}, {high})"), ashkavorz::words(n, low, high).collect(), words)
}

fn check(n: u32, low: u32, high: u32, words: &[u16], k: usize, t: &mut Tally) -> Outcome {
    let r = raw::check(n, low, high, words, k);
    t.saw("check", r.no);
    same(|| format!("check({n}, {low}, {high}, {words:?}, {k})"), r, plain::check(n, low, high, words, k))?;
    let found = wrapped(r, || if r.a == 1 { Checked::Yes } else { Checked::Differs(r.b) });
    same(|| format!("the wrapper's check({n}, {low}, {high}, {words:?}, {k})"), ashkavorz::check(n, low, high, words, k), found)
}

fn compile(rules: &[u8], bytes: usize, fill: u8, t: &mut Tally) -> Result<(raw::Answer, Vec<u8>), String> {
    let mut ours = vec![fill; bytes + 2 * GUARD];
    let mut theirs = ours.clone();
    let r = raw::compile(rules, &mut ours[GUARD..GUARD + bytes]);
    t.saw("compile", r.no);
    same(|| format!("compile({rules:?}, {bytes})"), r, plain::compile(rules, &mut theirs[GUARD..GUARD + bytes]))?;
    same(|| format!("compile({rules:?}, {bytes}), the table"), &ours, &theirs)?;
    same(|| format!("the wrapper's compile({rules:?}, {bytes})"), ashkavorz::compile(rules, &mut ours[GUARD..GUARD + bytes]), number(r))?;
    same(|| format!("the wrapper's compile({rules:?}, {bytes}), the table"), &ours, &theirs)?;
    Ok((r, ours[GUARD..GUARD + bytes].to_vec()))
}

fn find_rule(rules: &[u8], header: &[u8], t: &mut Tally) -> Result<raw::Answer, String> {
    let r = raw::find_rule(rules, header);
    t.saw("find_rule", r.no);
    same(|| format!("find_rule({rules:?}, {header:?})"), r, plain::find_rule(rules, header))?;
    let found = wrapped(r, || (r.a == 1).then_some(ashkavorz::Rule { number: r.b, action: r.c }));
    same(|| format!("the wrapper's find_rule({rules:?}, {header:?})"), ashkavorz::find_rule(rules, header), found)?;
    Ok(r)
}

fn find_word(table: &[u8], k: usize, header: &[u8], t: &mut Tally) -> Result<raw::Answer, String> {
    let r = raw::find_word(table, k, header);
    t.saw("find_word", r.no);
    same(|| format!("find_word(.., {k}, {header:?})"), r, plain::find_word(table, k, header))?;
    let found = wrapped(r, || (r.a == 1).then_some(ashkavorz::Record { index: r.b, rule: r.c, action: r.d }));
    same(|| format!("the wrapper's find_word(.., {k}, {header:?})"), ashkavorz::find_word(table, k, header), found)?;
    Ok(r)
}

/// The largest blocks by their definition: every aligned block inside whose parent sticks out, in ascending order.
fn largest_blocks(n: u32, low: u32, high: u32) -> Vec<(u16, u16)> {
    let inside = |v: u32, k: u32| low <= v && v + (1 << k) - 1 <= high;
    let mut out = Vec::new();
    for k in 0..=n {
        for v in (0..1u32 << n).step_by(1 << k) {
            if inside(v, k) && (k == n || !inside(v >> (k + 1) << (k + 1), k + 1)) {
                out.push((v as u16, ((1u32 << n) - (1 << k)) as u16));
            }
        }
    }
    out.sort();
    out
}

/// Every interval of every width up to 8, in full.
pub fn small_widths(t: &mut Tally) -> Outcome {
    for n in 1..=8 {
        for low in 0..1u32 << n {
            for high in low..1u32 << n {
                let words = plain::words(n, low, high);
                if n <= 6 {
                    same(|| format!("largest blocks of {n}, {low}..{high}"), words.clone(), largest_blocks(n, low, high))?;
                }
                same(|| format!("the formula for {n}, {low}..{high}"), words.len() as u32, plain::formula(n, low, high))?;
                close(n, low as i32 - 1, high as i32 + 1, t)?;
                count(n, low, high, t)?;
                list(n, low, high, 2 * words.len(), 7, t)?;
                list(n, low, high, 2 * words.len() - 1, 7, t)?;
                walk(n, low, high, t)?;
                let flat: Vec<u16> = words.iter().flat_map(|w| [w.0, w.1]).collect();
                check(n, low, high, &flat, words.len(), t)?;
                if n <= 5 {
                    check(n, low, high, &flat, words.len() - 1, t)?;
                    check(n, low, high, &flat, words.len() + 1, t)?;
                }
            }
        }
        for a in -3..=(1i32 << n) + 2 {
            for b in -3..=(1i32 << n) + 2 {
                close(n, a, b, t)?;
            }
        }
    }
    Ok(())
}

fn random_bound(r: &mut Random, n: u32) -> i32 {
    match r.below(8) {
        0 => r.edgy() as i32,
        1 => -1,
        2 => 1i32 << n.min(16),
        3 => -2,
        _ => r.end(n) as i32,
    }
}

/// Intervals, bounds, walks and lists of words, from the seed.
pub fn intervals(r: &mut Random, rounds: u64, t: &mut Tally) -> Outcome {
    for _ in 0..rounds {
        let n = r.width();
        let (low, high) = r.ends(n);
        close(n, random_bound(r, n), random_bound(r, n), t)?;
        count(n, low, high, t)?;
        let room = if r.one_in(3) { r.below(64) as usize } else { 60 };
        list(n, low, high, room, r.next() as u16, t)?;
        let ended = if r.one_in(6) { r.edgy() } else { 0 };
        step(raw::Walk { width: n, next: low, last: high, ended }, t)?;
        if plain::fault(n, low, high) == 0 && r.one_in(4) {
            walk(n, low, high, t)?;
        }
    }
    Ok(())
}

/// Lists of ternary words: the interval's own, damaged a little, or random.
pub fn checks(r: &mut Random, rounds: u64, t: &mut Tally) -> Outcome {
    for _ in 0..rounds {
        let n = if r.one_in(30) { r.width() } else { 1 + r.below(10) as u32 };
        let (low, high) = r.ends(n);
        let mut words: Vec<u16> = if plain::fault(n, low, high) == 0 && !r.one_in(4) {
            plain::words(n, low, high).iter().flat_map(|w| [w.0, w.1]).collect()
        } else {
            let top = 1u64 << n.clamp(1, 16);
            (0..r.below(12)).flat_map(|_| { let m = r.below(top) as u16; [r.below(top) as u16 & m, m] }).collect()
        };
        if !words.is_empty() && r.one_in(3) {
            let i = r.below(words.len() as u64) as usize;
            words[i] = if r.one_in(2) { words[i] ^ 1 << r.below(16) } else { r.next() as u16 };
        }
        if r.one_in(5) {
            words.push(r.next() as u16);
        }
        let whole = words.len() / 2;
        let k = match r.below(10) {
            0 => r.below(whole as u64 + 2) as usize,
            1 => r.next() as usize,
            _ => whole,
        };
        check(n, low, high, &words, k, t)?;
    }
    Ok(())
}

/// A rule that is mostly good.
fn rule(r: &mut Random) -> [u8; plain::RULE] {
    let mut x = [0u8; plain::RULE];
    if r.one_in(2) {
        x[0] = 1;
    } else {
        x[1] = [6, 17, 1, 0, 255][r.below(5) as usize];
    }
    for at in [2, 7] {
        let len = [0, 8, 16, 24, 31, 32, 1][r.below(7) as usize];
        let address = (0x0a00_0000u32 | r.below(4) as u32) & if len == 0 { 0 } else { u32::MAX << (32 - len) };
        x[at..at + 4].copy_from_slice(&address.to_be_bytes());
        x[at + 4] = len as u8;
    }
    for at in [12, 16] {
        let (low, high) = match r.below(5) {
            0 => (0, 65_535),
            1 => { let p = r.below(65_536); (p, p) }
            2 => (1024, 65_535),
            3 => { let p = r.below(2_000); (p, p + r.below(9)) }
            _ => { let (a, b) = (r.below(65_536), r.below(65_536)); (a.min(b), a.max(b)) }
        };
        x[at..at + 2].copy_from_slice(&(low as u16).to_be_bytes());
        x[at + 2..at + 4].copy_from_slice(&(high as u16).to_be_bytes());
    }
    x[20] = r.below(4) as u8;
    x
}

/// A header that often meets one of the rules, and then often stands on an edge of its intervals.
fn header(r: &mut Random, rules: &[u8]) -> Vec<u8> {
    let mut h: Vec<u8> = (0..plain::HEADER).map(|_| r.byte()).collect();
    let whole = rules.len() / plain::RULE;
    if whole > 0 && !r.one_in(5) {
        let x = &rules[plain::RULE * r.below(whole as u64) as usize..][..plain::RULE];
        h[0] = if x[0] == 1 { r.byte() } else { x[1] };
        h[1..5].copy_from_slice(&x[2..6]);
        h[5..9].copy_from_slice(&x[7..11]);
        for (to, from) in [(9, 12), (11, 16)] {
            let end = if r.one_in(2) { from } else { from + 2 };
            let port = u16::from_be_bytes([x[end], x[end + 1]]);
            let off = [0, 0, 1, u16::MAX][r.below(4) as usize];
            h[to..to + 2].copy_from_slice(&port.wrapping_add(off).to_be_bytes());
        }
        if r.one_in(4) {
            let i = r.below(13) as usize;
            h[i] ^= 1 << r.below(8);
        }
    }
    match r.below(40) {
        0 => h.truncate(12),
        1 => h.push(0),
        2 => h.clear(),
        _ => {}
    }
    h
}

/// A table's room is at most 2,048 words, however long the table is: as many fit, and one more does not.
pub fn room(t: &mut Tally) -> Outcome {
    let rule = |low: u16, high: u16| {
        let mut x = [0u8; plain::RULE];
        x[1] = 6;
        x[12..14].copy_from_slice(&low.to_be_bytes());
        x[14..16].copy_from_slice(&high.to_be_bytes());
        x[16..20].copy_from_slice(&[0, 80, 0, 80]);
        x
    };
    // Ports 1000..2000 are 8 words, 1000..2002 are 9, and 80 is one.
    let full = [rule(1000, 2000); plain::RULES].concat();
    let mut over = full.clone();
    over.splice((plain::RULES - 1) * plain::RULE.., rule(1000, 2002));
    for table in [plain::WORDS, 2_100] {
        let (fits, _) = compile(&full, table * plain::RECORD, 3, t)?;
        same(|| format!("2,048 words into {table} records"), fits, plain::done(2_048, 0, 0, 0))?;
        let (not, _) = compile(&over, table * plain::RECORD, 3, t)?;
        same(|| format!("2,049 words into {table} records"), not, plain::refused(8, 2_049, 0))?;
    }
    Ok(())
}

/// Rule lists, tables and headers, from the seed. A compiled table must find what the rules find.
pub fn tables(r: &mut Random, rounds: u64, t: &mut Tally) -> Outcome {
    for round in 0..rounds {
        let many = match r.below(200) {
            0 => 256,
            1 => 257,
            2 => 100,
            _ => r.below(6),
        };
        let mut rules: Vec<u8> = (0..many).flat_map(|_| rule(r)).collect();
        if !rules.is_empty() && r.one_in(4) {
            let i = r.below(rules.len() as u64) as usize;
            rules[i] = r.byte();
        }
        if r.one_in(30) {
            rules.push(r.byte());
        }
        let bytes = match r.below(8) {
            0 => r.below(60) as usize,
            1 => r.below(60_000) as usize,
            2 => plain::RECORD * plain::WORDS,
            _ => plain::RECORD * plain::WORDS + 5,
        };
        let (made, table) = compile(&rules, bytes, r.byte(), t)?;
        for _ in 0..20 {
            let h = header(r, &rules);
            let by_rule = find_rule(&rules, &h, t)?;
            if made.no == 0 {
                let by_word = find_word(&table, made.a as usize, &h, t)?;
                same(|| format!("demand 2, round {round}"), (by_word.no, by_word.a, by_word.c, by_word.d), (by_rule.no, by_rule.a, by_rule.b, by_rule.c))?;
            }
        }
        if made.no == 0 {
            let mut damaged = table;
            for _ in 0..4 {
                if !damaged.is_empty() {
                    let most = (made.a as usize * plain::RECORD).clamp(1, damaged.len());
                    let i = r.below(most as u64) as usize;
                    damaged[i] = r.byte();
                }
                let k = match r.below(6) {
                    0 => r.next() as usize,
                    1 => plain::room(damaged.len()) + r.below(2) as usize,
                    _ => made.a as usize,
                };
                let h = header(r, &rules);
                find_word(&damaged, k, &h, t)?;
            }
        }
    }
    Ok(())
}
