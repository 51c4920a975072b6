//! Tries every wrong program, or those of the crates that are named, or those that are; what it leaves to rt it counts in a line. The last
//! line is 'N passed, M failed'.
//! Usage: wrong [CRATE..] [CRATE/EDIT..], in the repository or below it

use std::env;
use std::process::ExitCode;

fn main() -> ExitCode {
    let named: Vec<String> = env::args().skip(1).collect();
    match wrong::run::all(&env::current_dir().unwrap_or_default(), &named) {
        Ok(sum) => {
            println!("{} passed, {} failed", sum.refused, sum.not_refused);
            ExitCode::from(u8::from(sum.not_refused > 0 || sum.refused == 0))
        }
        Err(fault) => {
            eprintln!("wrong: {fault}");
            ExitCode::from(2)
        }
    }
}
