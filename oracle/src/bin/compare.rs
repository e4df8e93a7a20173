//! `compare PART SEED COUNT` runs a comparison; `compare record-PART SEED COUNT` writes a fixed list to standard output
//! (`| tools/lists.py put PART -`).
//! Parts: fdlibm, solve, surface, patch, marching, crossing, explain, trace, check (lists of all but fdlibm, patch and explain, whose answers
//! stand in the crossing's), and trace-alone and check-alone, which run the oracle without the proved code; modes, what other floating-point
//! modes of the host change; jobs, which writes job files. Ends with 1 where anything differs, and with 2 on bad usage.

use oracle::compare::{
    check, crossing, explain, fdlibm, jobs, marching, modes, patch, solve, surface, trace,
};
use std::env;
use std::process::ExitCode;

fn usage() -> ExitCode {
    eprintln!(
        "usage: compare fdlibm|patch|[record-]solve|[record-]surface|[record-]marching|[record-]crossing|explain|[record-]trace|[record-]check|trace-alone|check-alone|modes|jobs SEED COUNT"
    );
    ExitCode::from(2)
}

fn main() -> ExitCode {
    let args: Vec<String> = env::args().skip(1).collect();
    let [what, seed, count] = args.as_slice() else {
        return usage();
    };
    let (Ok(seed), Ok(count)) = (seed.parse::<u64>(), count.parse::<u64>()) else {
        return usage();
    };
    let fine = match what.as_str() {
        "fdlibm" => fdlibm::compare(seed, count) == 0,
        "solve" => solve::compare(seed, count) == 0,
        "record-solve" => solve::record(seed, count).is_ok(),
        "surface" => surface::compare(seed, count) == 0,
        "patch" => patch::compare(seed, count) == 0,
        "record-surface" => patch::record(seed, count).is_ok(),
        "marching" => marching::compare(seed, count) == 0,
        "record-marching" => marching::record(seed, count).is_ok(),
        "crossing" => crossing::compare(seed, count) == 0,
        "record-crossing" => crossing::record(seed, count).is_ok(),
        "explain" => explain::compare(seed, count) == 0,
        "trace" => trace::compare(seed, count) == 0,
        "trace-alone" => trace::alone(seed, count) == 0,
        "record-trace" => trace::record(seed, count).is_ok(),
        "check" => check::compare(seed, count) == 0,
        "check-alone" => check::alone(seed, count) == 0,
        "modes" => modes::compare(seed, count) == 0,
        "jobs" => jobs::write(seed, count).is_ok(),
        "record-check" => check::record(seed, count).is_ok(),
        _ => return usage(),
    };
    if fine {
        ExitCode::SUCCESS
    } else {
        ExitCode::from(1)
    }
}
