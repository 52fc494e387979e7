//! Sheets through libtablet.a and through the program, against the plain reader and printer.

use crate::{calls::{number, same}, plain, random::Random, sheet};
use ashkavorz::raw;
use std::{
    collections::BTreeMap,
    io::Write,
    process::{Command, Stdio},
};

type Outcome = Result<(), String>;

/// How often each answer was seen: the refusal's number, and for a bad line its field.
#[derive(Default)]
pub struct Seen(BTreeMap<(u32, u32), u64>);

const GUARD: usize = 8;

fn shown(text: &[u8]) -> String {
    String::from_utf8_lossy(&text[..text.len().min(300)]).into_owned()
}

fn read(text: &[u8], room: usize, fill: u8, seen: &mut Seen) -> Outcome {
    let mut ours = vec![fill; room + 2 * GUARD];
    let mut theirs = ours.clone();
    let r = raw::read_sheet(text, &mut ours[GUARD..GUARD + room]);
    *seen.0.entry((r.no, if r.no == 20 { r.b } else { 0 })).or_default() += 1;
    same(|| format!("read_sheet({:?}, {room})", shown(text)), r, sheet::read(text, &mut theirs[GUARD..GUARD + room]))?;
    same(|| format!("read_sheet({:?}, {room}), the records", shown(text)), &ours, &theirs)?;
    same(|| format!("the wrapper's read_sheet({:?}, {room})", shown(text)), ashkavorz::read_sheet(text, &mut ours[GUARD..GUARD + room]), number(r))?;
    if r.no == 0 {
        let rules = &ours[GUARD..GUARD + plain::RULE * r.a as usize];
        let compiled = raw::compile(rules, &mut vec![0; plain::RECORD * plain::WORDS]);
        same(|| format!("what was read from {:?} is well formed", shown(text)), [5, 6, 7].contains(&compiled.no), false)?;
    }
    Ok(())
}

fn port(r: &mut Random) -> u64 {
    match r.below(4) {
        0 => r.below(65_536),
        1 => [0, 502, 8883, 123, 65_535, 1024, 9, 10, 99, 100, 999, 1000, 9999, 10_000][r.below(14) as usize],
        _ => r.below(1_100),
    }
}

fn address(r: &mut Random) -> String {
    let len = [0, 8, 16, 24, 31, 32, 9][r.below(7) as usize];
    let mask = if len == 0 { 0 } else { u32::MAX << (32 - len) };
    let a = (r.next() as u32 & mask).to_be_bytes();
    format!("{}.{}.{}.{}/{len}", a[0], a[1], a[2], a[3])
}

/// A good line.
fn line(r: &mut Random) -> String {
    let protocol = if r.one_in(3) { "*".into() } else { r.below(256).to_string() };
    let mut ports = || {
        let (a, b) = (port(r), port(r));
        format!("{}-{}", a.min(b), a.max(b))
    };
    let (from, to) = (ports(), ports());
    let action = ["permit", "deny", "permit-log", "deny-log"][r.below(4) as usize];
    format!("{protocol}\t{}\t{}\t{from}\t{to}\t{action}\n", address(r), address(r))
}

fn good(r: &mut Random, lines: u64) -> Vec<u8> {
    (0..lines).map(|_| line(r)).collect::<String>().into_bytes()
}

/// Bytes that stand for something in a sheet, so that damage often stays near a good one.
fn likely(r: &mut Random) -> u8 {
    if r.one_in(4) {
        r.byte()
    } else {
        b"0123456789*./-\t\npermtdnylog"[r.below(28) as usize % 27]
    }
}

fn damaged(r: &mut Random, text: &mut Vec<u8>) {
    if text.is_empty() {
        text.push(likely(r));
        return;
    }
    let i = r.below(text.len() as u64) as usize;
    match r.below(4) {
        0 => text[i] = likely(r),
        1 => text.insert(i, likely(r)),
        2 => drop(text.remove(i)),
        _ => text.truncate(i),
    }
}

/// Every byte of a sheet replaced by every other byte.
fn every_damage(text: &[u8], seen: &mut Seen) -> Outcome {
    for i in 0..text.len() {
        for c in 0..=255 {
            let mut t = text.to_vec();
            t[i] = c;
            read(&t, plain::RULE * 8, 1, seen)?;
        }
    }
    Ok(())
}

/// Sheets at the limits of lines and bytes.
fn limits(r: &mut Random, seen: &mut Seen) -> Outcome {
    let room = plain::RULE * plain::RULES;
    for lines in [255, 256, 257] {
        let mut text = good(r, lines);
        read(&text, room, 2, seen)?;
        read(&text, room - 1, 2, seen)?;
        text.push(b'x');
        read(&text, room, 2, seen)?;
        read(&vec![b'\n'; lines as usize], room, 2, seen)?;
    }
    for bytes in [sheet::BYTES - 1, sheet::BYTES, sheet::BYTES + 1] {
        read(&vec![b'9'; bytes], room, 2, seen)?;
        read(&vec![b'\n'; bytes], room, 2, seen)?;
    }
    read(b"", 0, 2, seen)
}

/// The library's reader on many sheets: good ones, damaged ones, random bytes, and the limits.
pub fn compare() -> Outcome {
    let mut r = Random::new(20_261_116);
    let mut seen = Seen::default();
    limits(&mut r, &mut seen)?;
    for _ in 0..40 {
        let text = good(&mut r, 1);
        every_damage(&text, &mut seen)?;
    }
    for _ in 0..60_000 {
        let lines = r.below(6);
        let mut text = good(&mut r, lines);
        for _ in 0..r.below(3) {
            damaged(&mut r, &mut text);
        }
        let room = if r.one_in(5) { r.below(130) as usize } else { plain::RULE * 8 };
        read(&text, room, r.byte(), &mut seen)?;
    }
    for _ in 0..20_000 {
        let text: Vec<u8> = (0..r.below(60)).map(|_| likely(&mut r)).collect();
        read(&text, 42, r.byte(), &mut seen)?;
    }
    let mut total = 0;
    for ((no, field), times) in &seen.0 {
        println!("read_sheet {no:2} {field}  {times}");
        total += times;
    }
    println!("{total} sheets compared");
    for expected in [(0, 0), (4, 0), (6, 0), (21, 0), (20, 0), (20, 1), (20, 2), (20, 3), (20, 4), (20, 5), (20, 6)] {
        if !seen.0.contains_key(&expected) {
            return Err(format!("read_sheet never answered {expected:?}"));
        }
    }
    Ok(())
}

fn program(path: &str, text: &[u8], piece: usize) -> Result<String, String> {
    let failed = |e: std::io::Error| format!("{path}: {e}");
    let mut child = Command::new(path).stdin(Stdio::piped()).stdout(Stdio::piped()).spawn().map_err(failed)?;
    let mut input = child.stdin.take().unwrap();
    let text = text.to_vec();
    let writer = std::thread::spawn(move || {
        for part in text.chunks(piece) {
            // A program that has read enough may close its input.
            if input.write_all(part).is_err() {
                return;
            }
        }
    });
    let output = child.wait_with_output().map_err(failed)?;
    writer.join().unwrap();
    if !output.status.success() {
        return Err(format!("{path} ended with {}", output.status));
    }
    String::from_utf8(output.stdout).map_err(|e| e.to_string())
}

/// The program's output on many sheets, also where its input comes a byte at a time.
pub fn compare_program(path: &str) -> Outcome {
    same(
        || "document 01's whole record".into(),
        program(path, b"6\t0.0.0.0/0\t10.0.0.0/8\t0-65535\t502-503\tpermit\n", 1)?,
        "0\t0\t06000000000A000000000001F6\tFF00000000FF0000000000FFFE\tpermit\nwords\t1\n".into(),
    )?;
    let mut r = Random::new(20_261_117);
    let mut sheets: Vec<Vec<u8>> = (0..300).map(|_| { let lines = r.below(8); good(&mut r, lines) }).collect();
    for i in 0..200 {
        let mut text = sheets[i].clone();
        damaged(&mut r, &mut text);
        sheets.push(text);
    }
    sheets.push(good(&mut r, 256));
    sheets.push(good(&mut r, 257));
    sheets.push("6\t0.0.0.0/0\t10.0.0.0/8\t0-65535\t502-503\tpermit\n".repeat(256).into_bytes());
    sheets.push("*\t0.0.0.0/0\t0.0.0.0/0\t1-65534\t1-65534\tpermit-log\n".repeat(2).into_bytes());
    sheets.push("*\t0.0.0.0/0\t0.0.0.0/0\t1-65534\t1-65534\tpermit-log\n".repeat(3).into_bytes());
    sheets.push(vec![b'\n'; sheet::BYTES + 1]);
    sheets.push(vec![b'1'; sheet::BYTES * 3]);
    sheets.push(vec![b'1'; sheet::BYTES]);
    for text in &sheets {
        let piece = if text.len() < 400 && r.one_in(4) { 1 } else { 50_000 };
        same(|| format!("the program on {:?}", shown(text)), program(path, text, piece)?, sheet::printed(text))?;
    }
    println!("{} sheets through the program", sheets.len());
    Ok(())
}
