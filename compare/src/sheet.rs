//! Rule sheets (document 02, order 1), read and printed the plain way, from the document alone.

use crate::plain::{self, done, refused, Answer};

pub const BYTES: usize = 65_536;

/// A decimal number up to `most`, with no leading zero and nothing else.
fn number(text: &str, most: u32) -> Option<u32> {
    let plain = !text.is_empty() && text.len() <= 5 && text.bytes().all(|c| c.is_ascii_digit());
    let leading = text.len() > 1 && text.starts_with('0');
    if !plain || leading {
        return None;
    }
    text.parse().ok().filter(|x| *x <= most)
}

fn protocol(text: &str) -> Option<[u8; 2]> {
    if text == "*" {
        Some([1, 0])
    } else {
        number(text, 255).map(|x| [0, x as u8])
    }
}

fn address(text: &str) -> Option<[u8; 5]> {
    let (address, len) = text.split_once('/')?;
    let parts: Vec<u32> = address.split('.').map(|p| number(p, 255)).collect::<Option<_>>()?;
    let [a, b, c, d] = parts[..] else { return None };
    let len = number(len, 32)?;
    let bits = u32::from_be_bytes([a as u8, b as u8, c as u8, d as u8]);
    let beyond = (0..32 - len).any(|i| bits >> i & 1 == 1);
    (!beyond).then_some([a as u8, b as u8, c as u8, d as u8, len as u8])
}

fn ports(text: &str) -> Option<[u8; 4]> {
    let (low, high) = text.split_once('-')?;
    let (low, high) = (number(low, 65_535)?, number(high, 65_535)?);
    let ([a, b], [c, d]) = ((low as u16).to_be_bytes(), (high as u16).to_be_bytes());
    (low <= high).then_some([a, b, c, d])
}

const ACTIONS: [&str; 4] = ["permit", "deny", "permit-log", "deny-log"];

fn action(text: &str) -> Option<u8> {
    ACTIONS.iter().position(|a| *a == text).map(|a| a as u8)
}

/// The 21 bytes of a line, or its first bad field.
fn rule(line: &[u8]) -> Result<Vec<u8>, u32> {
    // Bytes that are no text are bad in whatever field they stand; no mark of the form is one of them.
    let line: String = line.iter().map(|c| if c.is_ascii() { *c as char } else { '?' }).collect();
    let fields: Vec<&str> = line.split('\t').collect();
    let [proto, source, destination, from, to, act] = fields[..] else { return Err(0) };
    let mut out = Vec::new();
    out.extend(protocol(proto).ok_or(1u32)?);
    out.extend(address(source).ok_or(2u32)?);
    out.extend(address(destination).ok_or(3u32)?);
    out.extend(ports(from).ok_or(4u32)?);
    out.extend(ports(to).ok_or(5u32)?);
    out.push(action(act).ok_or(6u32)?);
    Ok(out)
}

/// All records of a sheet, or the refusal; room is not tested here.
fn records(text: &[u8]) -> Result<Vec<u8>, Answer> {
    if text.len() > BYTES {
        return Err(refused(21, 0, 0));
    }
    let feeds: Vec<usize> = (0..text.len()).filter(|i| text[*i] == b'\n').collect();
    if feeds.len() >= plain::RULES && feeds[plain::RULES - 1] + 1 < text.len() {
        return Err(refused(6, 0, 0));
    }
    let mut out = Vec::new();
    let mut start = 0;
    let mut line = 0;
    while start < text.len() {
        line += 1;
        let Some(end) = feeds.get(line - 1) else { return Err(refused(20, line as u32, 0)) };
        out.extend(rule(&text[start..*end]).map_err(|field| refused(20, line as u32, field))?);
        start = end + 1;
    }
    Ok(out)
}

pub fn read(text: &[u8], rules: &mut [u8]) -> Answer {
    match records(text) {
        Err(answer) => answer,
        Ok(bytes) if rules.len() < bytes.len() => refused(4, bytes.len() as u32, 0),
        Ok(bytes) => {
            rules[..bytes.len()].copy_from_slice(&bytes);
            done((bytes.len() / plain::RULE) as u32, 0, 0, 0)
        }
    }
}

fn hex(bytes: &[u8]) -> String {
    bytes.iter().map(|b| format!("{b:02X}")).collect()
}

fn refusal(answer: Answer) -> String {
    format!("refused\t{}\t{}\t{}\n", answer.no, answer.a, answer.b)
}

/// What the program prints for a sheet.
pub fn printed(text: &[u8]) -> String {
    let rules = match records(text) {
        Err(answer) => return refusal(answer),
        Ok(rules) => rules,
    };
    let mut table = vec![0; plain::RECORD * plain::WORDS];
    let made = plain::compile(&rules, &mut table);
    if made.no != 0 {
        return refusal(made);
    }
    let mut out = String::new();
    for i in 0..made.a as usize {
        let r = &table[plain::RECORD * i..][..plain::RECORD];
        out += &format!("{i}\t{}\t{}\t{}\t{}\n", r[26], hex(&r[..13]), hex(&r[13..26]), ACTIONS[r[27] as usize]);
    }
    out + &format!("words\t{}\n", made.a)
}
