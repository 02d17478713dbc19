//! The program: compares over the generator's streams, fuzzes, or runs one case that was left behind.

use std::fs;
use std::process::ExitCode;
use std::time::Duration;

use outside::case::{run, Case};
use outside::compare::{compare, ENOUGH};
use outside::fuzz::fuzz;
use outside::left::leave;
use outside::proved::Proved;
use outside::tally::Tally;

/// What to say about arguments that mean nothing.
const USAGE: &str = "usage: outside compare COUNT [SEED]
       outside fuzz MINUTES [SEED]
       outside replay STREAM PLAN";

/// Leaves a case behind and says where.
fn tell(name: &str, case: &Case, what: &str) -> Result<(), String> {
    let left = leave(name, case, what).map_err(|error| error.to_string())?;
    Err(format!(
        "{name}: DIFFERENT: {what}\nthe stream is kept in {}; run it again with: outside replay {} {}",
        left.display(),
        left.display(),
        case.plan
    ))
}

/// Compares over the streams of so many seeds.
fn run_compare(count: u64, seed: u64) -> Result<(), String> {
    println!("outside: {count} streams from seed {seed}");
    let (tally, differed) = compare(&Proved, count, seed);
    if let Some((seed, case, what)) = differed {
        return tell(&format!("seed-{seed}"), &case, &what);
    }
    if count >= ENOUGH {
        tally.complete()?;
    }
    println!("outside: no difference in {}", tally.line());
    Ok(())
}

/// The time of so many minutes.
fn minutes(text: &str) -> Option<Duration> {
    let minutes: f64 = text.parse().ok()?;
    Duration::try_from_secs_f64(60.0 * minutes).ok()
}

/// Fuzzes for some time.
fn run_fuzz(time: Duration, seed: u64) -> Result<(), String> {
    println!(
        "fuzz: {} minutes from seed {seed}",
        time.as_secs_f64() / 60.0
    );
    let found = fuzz(&Proved, time, seed);
    let seconds = found.taken.as_secs_f64();
    println!(
        "fuzz: {} cases, {:.0} calls a second, {} sorts of calls, {} cases kept, in {seconds:.0} seconds: {}",
        found.cases,
        found.tally.calls() as f64 / seconds,
        found.tally.signs.len(),
        found.corpus,
        found.tally.line()
    );
    match found.differed {
        Some((case, what)) => tell(&format!("fuzz-{seed}-{}", found.cases), &case, &what),
        None => {
            println!("fuzz: no difference between the library and the second program");
            Ok(())
        }
    }
}

/// Runs one case that was left behind.
fn replay(stream: &str, plan: u64) -> Result<(), String> {
    let bytes = fs::read(stream).map_err(|error| format!("{stream}: {error}"))?;
    let mut tally = Tally::default();
    run(&Proved, &Case { bytes, plan }, &mut tally)?;
    println!("replay: no difference in {}", tally.line());
    Ok(())
}

/// Does what the arguments say, or gives nothing where they mean nothing.
fn act(arguments: &[&str]) -> Option<Result<(), String>> {
    let seed = |text: &str| text.parse::<u64>().ok();
    Some(match arguments {
        ["compare", count] => run_compare(seed(count)?, 0),
        ["compare", count, first] => run_compare(seed(count)?, seed(first)?),
        ["fuzz", time] => run_fuzz(minutes(time)?, 0),
        ["fuzz", time, first] => run_fuzz(minutes(time)?, seed(first)?),
        ["replay", stream, plan] => replay(stream, seed(plan)?),
        _ => return None,
    })
}

fn main() -> ExitCode {
    let arguments: Vec<String> = std::env::args().skip(1).collect();
    let arguments: Vec<&str> = arguments.iter().map(String::as_str).collect();
    match act(&arguments) {
        Some(Ok(())) => ExitCode::SUCCESS,
        Some(Err(what)) => {
            eprintln!("{what}");
            ExitCode::from(1)
        }
        None => {
            eprintln!("{USAGE}");
            ExitCode::from(2)
        }
    }
}
