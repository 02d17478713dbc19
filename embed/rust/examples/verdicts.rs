//! Hands a model and batches to the proved library and prints what it answers, a line to a part. `tools/table` reads the lines.
//!
//! Standard input is one part after another, first a model and then batches: the length of the part in four bytes, the low one
//! first, and then that many bytes. A line is one of
//!
//! ```text
//! loaded stamp S live L values V marks M
//! batch visits SHIFT SETTLE net N stamp S live L values V marks M
//! refused NUMBER at PLACE
//! ```
//!
//! L is 1 where the model is live, else 0. V and M have a digit for each pair, all states of the first variable, then all of
//! the second, and so on. Each value is asked for with `ask`. After a refused model nothing more is read.
use huepaxochi::{Checker, Refusal, State, Variable};
use std::io::{self, Read, Write};
use std::process::ExitCode;

/// Cuts the first part off the input, or nothing where its length or its bytes are not all there.
fn part(input: &[u8]) -> Option<(&[u8], &[u8])> {
    let (head, rest) = input.split_first_chunk::<4>()?;
    rest.split_at_checked(u32::from_le_bytes(*head) as usize)
}

/// All parts of the input, or nothing where it ends inside one.
fn parts(mut input: &[u8]) -> Option<Vec<&[u8]>> {
    let mut found = Vec::new();
    while !input.is_empty() {
        let (bytes, rest) = part(input)?;
        found.push(bytes);
        input = rest;
    }
    Some(found)
}

/// The stamp, whether the model is live, the values and the marks, as a line ends. The sizes stand in the bytes of the model
/// that was accepted.
fn standing(checker: &Checker, model: &[u8]) -> Result<String, Refusal> {
    let states = u16::from_le_bytes([model[1], model[2]]);
    let mut values = String::new();
    for variable in 0..model[5] {
        for state in 0..states {
            let holds = checker.ask(State(state), Variable(variable))?;
            values.push(if holds { '1' } else { '0' });
        }
    }
    let marks: String = checker.marks().iter().map(u8::to_string).collect();
    let (stamp, live) = (checker.stamp(), u8::from(checker.is_live()));
    Ok(format!(
        "stamp {stamp} live {live} values {values} marks {marks}"
    ))
}

/// The line for a batch that was accepted.
fn batch(checker: &mut Checker, model: &[u8], bytes: &[u8]) -> Result<String, Refusal> {
    let report = checker.batch(bytes)?;
    Ok(format!(
        "batch visits {} {} net {} {}",
        report.shift_visits,
        report.settle_visits,
        report.net,
        standing(checker, model)?
    ))
}

/// The lines for a model and its batches.
fn lines(model: &[u8], batches: &[&[u8]]) -> String {
    let mut checker = Checker::new();
    let loaded = checker
        .load(model)
        .and_then(|()| standing(&checker, model))
        .map(|rest| format!("loaded {rest}\n"));
    let mut printed = match loaded {
        Ok(line) => line,
        Err(refusal) => return format!("{refusal}\n"),
    };
    for bytes in batches {
        match batch(&mut checker, model, bytes) {
            Ok(line) => printed += &line,
            Err(refusal) => printed += &refusal.to_string(),
        }
        printed.push('\n');
    }
    printed
}

fn main() -> io::Result<ExitCode> {
    let mut input = Vec::new();
    io::stdin().lock().read_to_end(&mut input)?;
    match parts(&input).as_deref() {
        Some([model, batches @ ..]) => {
            io::stdout().write_all(lines(model, batches).as_bytes())?;
            Ok(ExitCode::SUCCESS)
        }
        _ => {
            eprintln!("verdicts: the input is no model and batches, each after its length");
            Ok(ExitCode::from(2))
        }
    }
}
