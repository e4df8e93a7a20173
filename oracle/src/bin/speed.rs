//! `speed ROUNDS` times the public functions beside the Rust and prints the tables; `speed PART ROUNDS` times what they are made of.
//! Parts: solve, surface, marching.

use std::env;
use std::process::ExitCode;

fn run(args: &[String]) -> bool {
    match args {
        [rounds] => rounds.parse().map(oracle::timing::run).is_ok(),
        [part, rounds] => rounds
            .parse()
            .is_ok_and(|rounds| oracle::speed::run(part, rounds)),
        _ => false,
    }
}

fn main() -> ExitCode {
    let args: Vec<String> = env::args().skip(1).collect();
    if run(&args) {
        return ExitCode::SUCCESS;
    }
    eprintln!("usage: speed [solve|surface|marching] ROUNDS");
    ExitCode::from(2)
}
