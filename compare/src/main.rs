//! compare cases | papers      print what crates/cases/stdout and crates/papers/stdout must hold
//! compare calls               compare libtablet.a with the plain version on many inputs, from a fixed seed
//! compare sheets              compare reading sheets, the same way
//! compare program PATH        compare what the program at PATH prints for many sheets
//! compare printed             print what the program must print for the sheet on standard input
//! compare lists               print 16-bit prefix lists, for Python's ipaddress to be compared with
//! compare bench               measure both versions in one run, as ratios

mod bench;
mod calls;
mod cases;
mod lean;
mod lists;
mod papers;
mod plain;
mod random;
mod sheet;
mod sheets;

use std::{io::Read, process::ExitCode};

fn calls() -> Result<(), String> {
    let mut tally = calls::Tally::default();
    let mut random = random::Random::new(20_261_115);
    calls::small_widths(&mut tally)?;
    calls::intervals(&mut random, 200_000, &mut tally)?;
    calls::checks(&mut random, 40_000, &mut tally)?;
    calls::room(&mut tally)?;
    calls::tables(&mut random, 4_000, &mut tally)?;
    tally.report()
}

fn printed() -> Result<(), String> {
    let mut text = Vec::new();
    std::io::stdin().read_to_end(&mut text).map_err(|e| e.to_string())?;
    print!("{}", sheet::printed(&text));
    Ok(())
}

fn main() -> ExitCode {
    let outcome = match std::env::args().nth(1).as_deref() {
        Some("cases") => {
            print!("{}", cases::expected());
            Ok(())
        }
        Some("papers") => {
            print!("{}", papers::expected());
            Ok(())
        }
        Some("calls") => calls(),
        Some("sheets") => sheets::compare(),
        Some("program") => sheets::compare_program(&std::env::args().nth(2).unwrap_or_default()),
        Some("printed") => printed(),
        Some("lists") => {
            lists::print();
            Ok(())
        }
        Some("bench") => {
            bench::run();
            Ok(())
        }
        _ => Err("which part? cases, papers, calls, sheets, program, printed, lists or bench".into()),
    };
    match outcome {
        Ok(()) => ExitCode::SUCCESS,
        Err(what) => {
            eprintln!("compare: {what}");
            ExitCode::FAILURE
        }
    }
}
