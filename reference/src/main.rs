//! The program: without arguments as document 01 says, and with arguments the generator and the
//! rewriting of a stream in signs.

use std::io::{self, Read, Write};
use std::process::ExitCode;

use reference::census::census;
use reference::generate::{family_named, generate, generate_family};
use reference::program::{run, MOST_BYTES};
use reference::stream_in_signs;

/// What to say about arguments that mean nothing.
const USAGE: &str = "usage: reference
       reference generate SEED [FAMILY]
       reference census COUNT
       reference rewrite
FAMILY is one of tiny small medium large full chain badmodel badlive damaged long noise";

/// The bytes to print for the arguments, or nothing where they mean nothing.
fn answer(arguments: &[&str]) -> io::Result<Option<Vec<u8>>> {
    Ok(match arguments {
        [] => {
            let mut input = Vec::new();
            let stdin = io::stdin().lock();
            stdin.take(MOST_BYTES as u64).read_to_end(&mut input)?;
            Some(run(&input).into_bytes())
        }
        ["rewrite"] => {
            let mut stream = Vec::new();
            io::stdin().lock().read_to_end(&mut stream)?;
            Some(stream_in_signs(&stream).unwrap_or(stream))
        }
        ["generate", seed] => seed.parse().ok().map(|seed| generate(seed).bytes),
        ["generate", seed, name] => match (seed.parse(), family_named(name)) {
            (Ok(seed), Some(family)) => Some(generate_family(seed, family).bytes),
            _ => None,
        },
        ["census", count] => count.parse().ok().map(|count| {
            let mut printed = String::new();
            for (name, many) in &census(count).counts {
                printed += &format!("{many:>10} {name}\n");
            }
            printed.into_bytes()
        }),
        _ => None,
    })
}

/// Prints the answer to the arguments, or how to use the program.
fn main() -> io::Result<ExitCode> {
    let arguments: Vec<String> = std::env::args().skip(1).collect();
    let arguments: Vec<&str> = arguments.iter().map(String::as_str).collect();
    match answer(&arguments)? {
        Some(bytes) => {
            io::stdout().write_all(&bytes)?;
            Ok(ExitCode::SUCCESS)
        }
        None => {
            eprintln!("{USAGE}");
            Ok(ExitCode::from(2))
        }
    }
}
