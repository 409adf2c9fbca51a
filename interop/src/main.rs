//! Runs the differential tests.
//!   interop [cases] [seed]            all groups
//!   interop one GROUP CASE SEED       one case again
//!   interop trace [cases] [seed]      on one thread, each case named before it
//!                                     runs, to find one that kills the program
//!   interop constants                 NAME=value of all that the wrapper has
//!   interop functions                 the functions that are called

use interop::functions::FUNCTIONS;
use interop::guc::constants::CONSTANTS;
use interop::runner::{run_group, run_one, Difference, GROUPS};
use interop::table::{by_boundary, by_function, by_mark, by_number, by_set, grouped};
use interop::tally::Tally;
use std::process::ExitCode;
use std::time::Instant;

const CASES: u64 = 2_000_000;
const SEED: u64 = 20_240_601;
/// With fewer, some number would not come up for some function.
const LEAST: u64 = 50_000;

/// A number of the command line, underscores and commas allowed.
fn parse(args: &[String], at: usize, otherwise: u64) -> Result<u64, String> {
    let text = match args.get(at) {
        Some(text) => text,
        None => return Ok(otherwise),
    };
    let plain = text.replace(['_', ','], "");
    let parsed = match plain.strip_prefix("0x") {
        Some(digits) => u64::from_str_radix(digits, 16),
        None => plain.parse(),
    };
    parsed.map_err(|_| format!("not a number: {text}"))
}

fn report(difference: &Difference, seed: u64) {
    let Difference { group, case, problem } = difference;
    println!("DIFFERENCE in {group}, case {case}, seed {seed}: {problem}");
    let archive =
        std::env::var("GUC_ARCHIVE").map_or(String::new(), |file| format!("--archive {file} "));
    println!("  again: interop/run {archive}one {group} {case} {seed}");
}

fn all(cases: u64, seed: u64) -> ExitCode {
    let threads = std::thread::available_parallelism().map_or(1, |count| count.get());
    let begin = Instant::now();
    let (mut tally, mut ran, mut differences) = (Tally::default(), 0, 0);
    println!("seed {seed}, {} cases wanted, {threads} threads", grouped(cases));
    for (index, group) in GROUPS.iter().enumerate() {
        let count = group.cases(cases);
        let start = Instant::now();
        let (part, found) = run_group(seed, index, count, threads);
        let time = start.elapsed().as_secs_f64();
        println!("{:<10}{:>12} cases {time:>6.1} s   {}", group.name, grouped(count), group.about);
        found.iter().for_each(|difference| report(difference, seed));
        differences += found.len();
        tally.add(&part);
        ran += count;
    }
    println!("\n{}\n{}", by_function(&tally), by_mark(&tally));
    println!("{}\n{}\n{}", by_boundary(&tally), by_set(&tally), by_number(&tally));
    let missing = if differences == 0 { tally.missing() } else { Vec::new() };
    missing.iter().for_each(|line| println!("NOT REACHED: {line}"));
    let time = begin.elapsed().as_secs_f64();
    println!("cases {}, seed {seed}, {time:.0} s, differences {differences}", grouped(ran));
    if differences == 0 && missing.is_empty() {
        ExitCode::SUCCESS
    } else {
        ExitCode::FAILURE
    }
}

fn one(name: &str, case: u64, seed: u64) -> ExitCode {
    let group = match GROUPS.iter().position(|group| group.name == name) {
        Some(group) => group,
        None => {
            println!("no group {name}");
            return ExitCode::FAILURE;
        }
    };
    match run_one(seed, group, case, &mut Tally::default()) {
        Ok(()) => {
            println!("{name}, case {case}, seed {seed}: no difference");
            ExitCode::SUCCESS
        }
        Err(difference) => {
            report(&difference, seed);
            ExitCode::FAILURE
        }
    }
}

fn trace(cases: u64, seed: u64) -> ExitCode {
    let mut tally = Tally::default();
    for (index, group) in GROUPS.iter().enumerate() {
        for case in 0..group.cases(cases) {
            println!("one {} {case} {seed}", group.name);
            if let Err(difference) = run_one(seed, index, case, &mut tally) {
                report(&difference, seed);
                return ExitCode::FAILURE;
            }
        }
    }
    ExitCode::SUCCESS
}

fn chosen(args: &[String]) -> Result<ExitCode, String> {
    match args.first().map(String::as_str) {
        Some("one") => {
            let name = args.get(1).ok_or("one GROUP CASE SEED")?;
            Ok(one(name, parse(args, 2, 0)?, parse(args, 3, SEED)?))
        }
        Some("constants") => {
            CONSTANTS.iter().for_each(|(name, value)| println!("{name}={value}"));
            Ok(ExitCode::SUCCESS)
        }
        Some("functions") => {
            FUNCTIONS.iter().for_each(|(_, name, _)| println!("{name}"));
            Ok(ExitCode::SUCCESS)
        }
        Some("trace") => Ok(trace(parse(args, 1, CASES)?.max(LEAST), parse(args, 2, SEED)?)),
        _ => Ok(all(parse(args, 0, CASES)?.max(LEAST), parse(args, 1, SEED)?)),
    }
}

fn main() -> ExitCode {
    let args: Vec<String> = std::env::args().skip(1).collect();
    chosen(&args).unwrap_or_else(|problem| {
        println!("{problem}");
        ExitCode::FAILURE
    })
}
