//! Lists an interval, compiles a rule list and looks a header up, through the safe wrapper.

use ashkavorz::Refusal;

/// One Modbus rule, permit, and a final deny.
const RULES: [u8; 2 * ashkavorz::RULE_BYTES] = [
    0, 6, 0, 0, 0, 0, 0, 10, 0, 0, 0, 8, 0x00, 0x00, 0xff, 0xff, 0x01, 0xf6, 0x01, 0xf7, 0, //
    1, 0, 0, 0, 0, 0, 0, 0, 0, 0, 0, 0, 0x00, 0x00, 0xff, 0xff, 0x00, 0x00, 0xff, 0xff, 1,
];

const HEADER: [u8; ashkavorz::HEADER_BYTES] = [6, 192, 168, 0, 7, 10, 1, 2, 3, 0xc0, 0x00, 0x01, 0xf7];

fn run() -> Result<(), Refusal> {
    let (low, high) = ashkavorz::close(16, 999, 2001)?;
    println!("{low}..{high}: {} words", ashkavorz::count(16, low, high)?);
    for word in ashkavorz::words(16, low, high) {
        let (value, mask) = word?;
        println!("  {value:04X} {mask:04X}");
    }

    let mut table = [0; 8 * ashkavorz::RECORD_BYTES];
    let words = ashkavorz::compile(&RULES, &mut table)?;
    println!("2 rules: {words} words");
    match ashkavorz::find_word(&table, words as usize, &HEADER)? {
        Some(r) => println!("the header finds record {}, rule {}, action {}", r.index, r.rule, r.action),
        None => println!("the header finds nothing"),
    }
    Ok(())
}

fn main() {
    if let Err(r) = run() {
        println!("refused {} with {} and {}", r.no, r.a, r.b);
        std::process::exit(1);
    }
}
