//! Document 01's cases with what they should be, worked out by the plain version: what crates/cases/stdout must hold.

use crate::plain::{self, Answer, Walk};
use std::fmt::Write;

fn fault(r: &Answer) -> String {
    match r.no {
        4 | 8 | 10 => format!("refused {} with {}", r.no, r.a),
        7 => format!("refused 7 with {}, {}", r.a, r.b),
        no => format!("refused {no}"),
    }
}

fn close(out: &mut String, n: u32, a: i32, b: i32) {
    let r = plain::close(n, a, b);
    let said = if r.no == 0 { format!("{}..{}", r.a, r.b) } else { fault(&r) };
    writeln!(out, "open ({a}, {b}), n = {n}: {said}").unwrap();
}

fn count(out: &mut String, n: u32, low: u32, high: u32) {
    let r = plain::count(n, low, high);
    let said = if r.no == 0 { r.a.to_string() } else { fault(&r) };
    writeln!(out, "count n = {n}, {low}..{high}: {said}").unwrap();
}

fn list(out: &mut String, n: u32, low: u32, high: u32, room: usize) {
    let mut space = [7u16; 64];
    let r = plain::list(n, low, high, &mut space[..room]);
    let said = if r.no == 0 { format!("{} words", r.a) } else { fault(&r) };
    let numbers: String = space[..14].iter().map(|x| format!(" {x}")).collect();
    writeln!(out, "list n = {n}, {low}..{high}, room {room}: {said}:{numbers}").unwrap();
}

fn walk(out: &mut String, n: u32, low: u32, high: u32, ended: u32) {
    write!(out, "walk n = {n}, {low}..{high}:").unwrap();
    let mut w = Walk { width: n, next: low, last: high, ended };
    loop {
        let s = plain::step(w);
        w = s.walk;
        if s.no != 0 {
            write!(out, " refused {}", s.no).unwrap();
            break;
        }
        if s.given == 0 {
            write!(out, " no more").unwrap();
            break;
        }
        write!(out, " {},{}", s.value, s.mask).unwrap();
    }
    writeln!(out, "; next {}, last {}{}", w.next, w.last, if w.ended != 0 { ", ended" } else { "" }).unwrap();
}

fn check(out: &mut String, n: u32, low: u32, high: u32, list: &[u16], k: usize) {
    let r = plain::check(n, low, high, list, k);
    let said = match (r.no, r.a) {
        (0, 1) => "yes".into(),
        (0, _) => format!("no, {}", r.b),
        _ => fault(&r),
    };
    writeln!(out, "check n = {n}, {low}..{high}, {k} words of {} numbers: {said}", list.len()).unwrap();
}

fn intervals(out: &mut String) {
    for (n, a, b) in [
        (4, -1, 16), (4, 0, 16), (4, 4, 6), (4, 4, 5), (4, 5, 4), (4, -2, 5), (4, 5, 17), (4, -1, 0), (4, 15, 16), (4, 14, 16),
        (0, -1, 1), (17, -1, 5), (16, -1, 65536), (16, 0, 65536), (16, 1023, 65536), (16, 999, 2001), (16, 0, 5590),
        (16, i32::MIN, i32::MAX), (1, -1, 2),
    ] {
        close(out, n, a, b);
    }
    for (n, low, high) in [
        (4, 1, 14), (4, 5, 5), (4, 0, 15), (1, 0, 0), (1, 1, 1), (1, 0, 1), (4, 0, 14), (6, 19, 61), (16, 0, 65535),
        (16, 1, 65535), (16, 1024, 65535), (16, 1000, 2000), (16, 1, 5589), (16, 1, 65534), (0, 0, 0), (17, 0, 0), (4, 0, 16),
        (4, 16, 0), (4, 9, 8), (17, 65536, 65536), (u32::MAX, u32::MAX, 0),
    ] {
        count(out, n, low, high);
    }
    for (n, low, high, room) in [
        (4, 1, 14, 12), (4, 1, 14, 13), (4, 1, 14, 11), (4, 5, 5, 2), (4, 0, 15, 2), (1, 1, 1, 2), (1, 1, 1, 1), (4, 1, 15, 8),
        (4, 0, 14, 8), (6, 19, 61, 14), (16, 1, 65534, 60), (16, 1, 65534, 59), (16, 0, 65535, 2), (16, 0, 65535, 0),
        (17, 0, 0, 12), (4, 1, 16, 12), (4, 14, 1, 12),
    ] {
        list(out, n, low, high, room);
    }
    for (n, low, high, ended) in [
        (4, 1, 14, 0), (4, 0, 15, 0), (6, 19, 61, 0), (1, 1, 1, 0), (16, 65535, 65535, 0), (99, 5, 3, 1), (0, 5, 3, 0),
        (4, 3, 16, 0), (4, 3, 2, 0),
    ] {
        walk(out, n, low, high, ended);
    }
    let six = [1, 15, 2, 14, 4, 12, 8, 12, 12, 14, 14, 15];
    for (n, low, high, k) in [
        (4, 1, 14, 6), (4, 1, 13, 6), (4, 2, 14, 6), (4, 1, 14, 5), (4, 1, 14, 0), (4, 0, 15, 0), (4, 1, 14, 7), (4, 14, 1, 7),
        (3, 1, 6, 6),
    ] {
        check(out, n, low, high, &six, k);
    }
    let crossing = [1, 1, 2, 2, 4, 4, 8, 8];
    for (low, high, k) in [(1, 15, 4), (1, 15, 3), (1, 14, 4), (0, 15, 4)] {
        check(out, 4, low, high, &crossing, k);
    }
    let ill = [1, 15, 3, 14, 4, 12, 9, 12];
    check(out, 4, 1, 14, &ill, 4);
    check(out, 4, 1, 14, &ill, 1);
    for (n, low, high, k) in [(16, 0, 65535, 1), (16, 0, 65534, 1), (16, 1, 65535, 1), (17, 0, 0, 9)] {
        check(out, n, low, high, &[0, 0], k);
    }
}

// ---- rules and tables

/// Bytes of a table with room for 2,048 words.
const FULL: usize = plain::RECORD * plain::WORDS;

/// Compiles into a table of so many bytes, and hands it back.
fn compile(out: &mut String, label: &str, rules: &[u8], bytes: usize) -> Vec<u8> {
    let mut table = vec![0; bytes];
    let r = plain::compile(rules, &mut table);
    let said = if r.no == 0 { format!("{} words", r.a) } else { fault(&r) };
    writeln!(out, "compile {label}: {said}").unwrap();
    table
}

fn by_rule(out: &mut String, label: &str, rules: &[u8], header: &[u8]) {
    let r = plain::find_rule(rules, header);
    let said = match (r.no, r.a) {
        (0, 1) => format!("rule {}, action {}", r.b, r.c),
        (0, _) => "nothing".into(),
        _ => fault(&r),
    };
    writeln!(out, "by rule, {label}: {said}").unwrap();
}

fn by_word(out: &mut String, label: &str, table: &[u8], k: usize, header: &[u8]) {
    let r = plain::find_word(table, k, header);
    let said = match (r.no, r.a) {
        (0, 1) => format!("record {}, rule {}, action {}", r.b, r.c, r.d),
        (0, _) => "nothing".into(),
        _ => fault(&r),
    };
    writeln!(out, "by word, {label}: {said}").unwrap();
}

type Rule = [u8; plain::RULE];

/// Any protocol and addresses, these ports, this action.
fn ports(source: (u16, u16), dest: (u16, u16), action: u8) -> Rule {
    let mut r = [0; plain::RULE];
    r[0] = 1;
    for (at, x) in [(12, source.0), (14, source.1), (16, dest.0), (18, dest.1)] {
        r[at..at + 2].copy_from_slice(&x.to_be_bytes());
    }
    r[20] = action;
    r
}

const ALL: (u16, u16) = (0, 65535);

fn any() -> Rule {
    ports(ALL, ALL, 0)
}

fn header(proto: u8, source: u32, dest: u32, sport: u16, dport: u16) -> Vec<u8> {
    let mut h = vec![proto];
    h.extend(source.to_be_bytes());
    h.extend(dest.to_be_bytes());
    h.extend(sport.to_be_bytes());
    h.extend(dport.to_be_bytes());
    h
}

/// The rule with other bytes.
fn with(mut r: Rule, bytes: &[(usize, u8)]) -> Rule {
    for (at, x) in bytes {
        r[*at] = *x;
    }
    r
}

/// Finds a header in the rules, and in the table compiled from them.
fn both(out: &mut String, label: &str, rules: &[u8], header: &[u8]) {
    by_rule(out, label, rules, header);
    compile_find(out, label, rules, header);
}

fn compile_find(out: &mut String, label: &str, rules: &[u8], header: &[u8]) {
    let mut table = vec![0; plain::RECORD * plain::WORDS];
    let k = plain::compile(rules, &mut table).a as usize;
    by_word(out, label, &table, k, header);
}

fn first_table(out: &mut String) {
    let rules = [ports((1, 65535), (6790, 6790), 0), ports((1000, 2000), (1, 5589), 0), ports(ALL, ALL, 1)].concat();
    compile(out, "table 1 of source document 001", &rules, FULL);
    for (sport, dport) in [(1080, 2080), (1080, 6790), (0, 6790)] {
        both(out, &format!("ports {sport} and {dport}"), &rules, &header(6, 0x0a000001, 0x0a000002, sport, dport));
    }
}

fn whole_record(out: &mut String) {
    let rule = with(ports(ALL, (502, 503), 0), &[(0, 0), (1, 6), (7, 10), (11, 8)]);
    let table = compile(out, "the whole record", &rule, plain::RECORD);
    let hex: String = table.iter().map(|b| format!("{b:02X}")).collect();
    writeln!(out, "record: {hex}").unwrap();
}

fn wide_rules(out: &mut String) {
    let wide = |action| ports((1, 65534), (1, 65534), action);
    let rules = [wide(0), wide(1), wide(2)].concat();
    compile(out, "900 words", &rules[..21], FULL);
    compile(out, "1,800 words", &rules[..42], FULL);
    compile_find(out, "ports 65534 and 65534", &rules[..42], &header(17, 0, 0, 65534, 65534));
    compile(out, "2,700 words", &rules, FULL);
    compile(out, "900 words, room for 900", &rules[..21], 25200);
    compile(out, "900 words, room for 899", &rules[..21], 25199);
}

fn lengths(out: &mut String) {
    let mut more = any().to_vec();
    more.push(1);
    let h = header(6, 0, 0, 0, 0);
    compile(out, "no rules", &[], FULL);
    both(out, "no rules", &[], &h);
    compile(out, "20 bytes", &more[..20], FULL);
    compile(out, "21 bytes", &more[..21], FULL);
    compile(out, "22 bytes", &more, FULL);
    by_rule(out, "20 bytes", &more[..20], &h);
    by_rule(out, "a header of 12 bytes", &more[..21], &h[..12]);
    by_rule(out, "a header of 12 bytes, 20 bytes of rules", &more[..20], &h[..12]);
    by_rule(out, "a header of 14 bytes", &more[..21], &more[..14]);
    by_rule(out, "a header of 13 bytes", &more[..21], &h);
}

fn limits(out: &mut String, first: u8, last: u8) {
    let mut rules = any().repeat(257);
    rules[20] = first;
    rules[5375] = last;
    let h = header(6, 0, 0, 0, 0);
    compile(out, "256 rules", &rules[..5376], FULL);
    compile(out, "257 rules", &rules, FULL);
    by_rule(out, "256 rules", &rules[..5376], &h);
    by_rule(out, "257 rules", &rules, &h);
}

fn fields(out: &mut String) {
    let h = header(6, 0, 0, 0, 0);
    let cases: &[(&str, &[(usize, u8)])] = &[
        ("flag 2", &[(0, 2)]),
        ("protocol 6 under any", &[(1, 6)]),
        ("source length 33", &[(6, 33)]),
        ("source 10.0.0.1/8", &[(2, 10), (5, 1), (6, 8)]),
        ("source 10.0.0.1/32", &[(2, 10), (5, 1), (6, 32)]),
        ("destination length 33", &[(11, 33)]),
        ("destination 10.0.0.1/8", &[(7, 10), (10, 1), (11, 8)]),
        ("destination 128.0.0.0/0", &[(7, 128)]),
        ("source ports 256-0", &[(12, 1), (14, 0), (15, 0)]),
        ("destination ports 1-0", &[(17, 1), (18, 0), (19, 0)]),
        ("action 3", &[(20, 3)]),
        ("action 4", &[(20, 4)]),
        ("flag 2 and protocol 6", &[(0, 2), (1, 6)]),
        ("protocol 6 and source length 33", &[(1, 6), (6, 33)]),
        ("source length 33 and address bits", &[(2, 10), (6, 33)]),
        ("source address bits and destination length 33", &[(2, 10), (11, 33)]),
        ("destination length 33 and address bits", &[(7, 10), (11, 33)]),
        ("destination address bits and source ports 256-255", &[(7, 10), (12, 1), (14, 0)]),
        ("both port intervals crossed", &[(12, 1), (14, 0), (16, 1), (18, 0)]),
        ("destination ports 256-255 and action 4", &[(16, 1), (18, 0), (20, 4)]),
        ("flag 2 and action 4", &[(0, 2), (20, 4)]),
    ];
    for (label, bytes) in cases {
        by_rule(out, label, &with(any(), bytes), &h);
    }
}

/// A table of two records: protocol 6 to 10.0.0.0/8 on port 502, permitted; anything, denied. Three of its bytes may be others.
fn two_records(value: u8, first: u8, last: u8) -> Vec<u8> {
    let rules = [with(ports(ALL, (502, 502), 0), &[(0, 0), (1, 6), (7, 10), (11, 8)]), ports(ALL, ALL, 1)].concat();
    let mut table = vec![0; 56];
    plain::compile(&rules, &mut table);
    table[1] = value;
    table[27] = first;
    table[55] = last;
    table
}

fn stated(out: &mut String) {
    let table = two_records(0, 0, 1);
    let h = header(6, 0, 0x0a000007, 0, 502);
    let mut other = header(17, 0, 0x0a000007, 0, 502);
    other.push(0);
    by_word(out, "the first record", &table, 2, &h);
    by_word(out, "the second record", &table, 2, &other[..13]);
    by_word(out, "one record counted", &table, 1, &other[..13]);
    by_word(out, "no record counted", &table, 0, &h);
    by_word(out, "three records counted", &table, 3, &h);
    by_word(out, "two counted, 55 bytes", &table[..55], 2, &h);
    by_word(out, "a header of 12 bytes", &table, 2, &h[..12]);
    by_word(out, "a header of 14 bytes", &table, 2, &other);
}

fn ill(out: &mut String) {
    let h = header(6, 0, 0x0a000007, 0, 502);
    by_word(out, "action 4 in the first record, a short header", &two_records(0, 4, 1), 2, &h[..12]);
    by_word(out, "action 4 in both records", &two_records(0, 4, 4), 2, &h);
    by_word(out, "action 4 in the last record", &two_records(0, 0, 4), 2, &h);
    by_word(out, "action 4 behind the counted records", &two_records(0, 0, 4), 1, &h);
    by_word(out, "a value bit outside the first mask", &two_records(1, 0, 1), 2, &h);
}

pub fn expected() -> String {
    let mut out = String::new();
    intervals(&mut out);
    first_table(&mut out);
    whole_record(&mut out);
    wide_rules(&mut out);
    lengths(&mut out);
    limits(&mut out, 0, 0);
    limits(&mut out, 0, 4);
    limits(&mut out, 4, 4);
    fields(&mut out);
    stated(&mut out);
    ill(&mut out);
    out
}
