//! Loads model G of document 01 and applies its case A: the move (0,0,0) inserted. Prints what was found and exits with 1
//! where it is not what the paper says.
use huepaxochi::{Checker, Refusal, Report, State, Variable};
use std::process::ExitCode;

const MODEL: [u8; 15] = [1, 2, 0, 1, 0, 1, 1, 3, 1, 1, 4, 6, 0, 0, 6];
const INSERT: [u8; 12] = [7, 0, 0, 0, 0, 8, 0, 0, 0, 0, 0, 6];

fn run() -> Result<bool, Refusal> {
    let mut checker = Checker::new();
    checker.load(&MODEL)?;
    let value = |checker: &Checker, state| checker.ask(State(state), Variable(0));
    let before = (value(&checker, 0)?, value(&checker, 1)?, checker.stamp());
    println!(
        "loaded: values {} {}, stamp {}",
        before.0, before.1, before.2
    );
    let report = checker.batch(&INSERT)?;
    println!(
        "batch: {report:?}, marks {:?}, stamp {}",
        checker.marks(),
        checker.stamp()
    );
    let after = (value(&checker, 0)?, value(&checker, 1)?, checker.stamp());
    println!("now: values {} {}", after.0, after.1);
    let again = checker.batch(&INSERT);
    println!("the same again: {again:?}");
    Ok(before == (false, false, 0)
        && report
            == Report {
                shift_visits: 1,
                settle_visits: 0,
                net: 1,
            }
        && after == (true, false, 1)
        && checker.marks() == [1, 0]
        && again
            == Err(Refusal {
                number: 11,
                place: 0,
            })
        && checker.write()?.len() == 21)
}

fn main() -> ExitCode {
    match run() {
        Ok(true) => ExitCode::SUCCESS,
        other => {
            eprintln!("not as the paper says: {other:?}");
            ExitCode::FAILURE
        }
    }
}
