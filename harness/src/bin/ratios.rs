//! Prints the ratios of the rows in two files of plain output of `bench`.
//!
//!     ratios BASE HEAD [MOST]
//!
//! The exit status is 1 where a ratio is greater than MOST, and 2 where the files cannot be judged.

use harness::ratios::{read, Ratios, Times};
use std::process::ExitCode;

fn times(path: &str) -> Result<Times, String> {
    let plain = std::fs::read_to_string(path).map_err(|fault| format!("{path}: {fault}"))?;
    read(&plain).map_err(|fault| format!("{path}: {fault}"))
}

fn exceeds(words: &[String]) -> Result<bool, String> {
    let (base, head, most) = match words {
        [base, head] => (base, head, None),
        [base, head, most] => {
            (base, head, Some(most.parse::<f64>().map_err(|fault| format!("{most}: {fault}"))?))
        }
        _ => return Err("usage: ratios BASE HEAD [MOST]".to_string()),
    };
    let ratios = Ratios::new(&times(base)?, &times(head)?);
    if ratios.rows.is_empty() {
        return Err("no row is in both".to_string());
    }
    print!("{ratios}");
    Ok(most.is_some_and(|most| ratios.exceeds(most)))
}

fn main() -> ExitCode {
    let words: Vec<String> = std::env::args().skip(1).collect();
    match exceeds(&words) {
        Ok(exceeds) => ExitCode::from(u8::from(exceeds)),
        Err(fault) => {
            eprintln!("ratios: {fault}");
            ExitCode::from(2)
        }
    }
}
