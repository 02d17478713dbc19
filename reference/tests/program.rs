//! The program of document 01: cutting, printing, and the end of a run.

mod common;

use std::io::Write;
use std::process::{Command, Stdio};

use common::*;
use reference::program::{cut, run};

/// The example of document 01: model G, batch A, and a batch that is refused.
fn example() -> Vec<u8> {
    let batch_a = [7, 0, 0, 0, 0, 8, 0, 0, 0, 0, 0, 6];
    let refused = [7, 1, 0, 0, 0, 8, 0, 0, 0, 0, 0, 6];
    [&G[..], &batch_a, &refused].concat()
}

/// What the example prints.
const PRINTED: &str = "loaded true 0 of 2 stamp 0
batch net 1 visits 1 0 true 1 of 2 stamp 1
refused 7 at 5
";

/// What the built program prints for an input, and whether it ended well.
fn spawn(arguments: &[&str], input: Vec<u8>) -> (Vec<u8>, bool) {
    let mut child = Command::new(env!("CARGO_BIN_EXE_reference"))
        .args(arguments)
        .stdin(Stdio::piped())
        .stdout(Stdio::piped())
        .stderr(Stdio::null())
        .spawn()
        .expect("the program starts");
    let mut stdin = child.stdin.take().unwrap();
    // The program may stop reading early, so a failed write is no fault.
    let writer = std::thread::spawn(move || drop(stdin.write_all(&input)));
    let output = child.wait_with_output().unwrap();
    writer.join().unwrap();
    (output.stdout, output.status.success())
}

/// The example prints to the letter, every line ending in a line feed.
#[test]
fn the_example_prints_to_the_letter() {
    assert_eq!(run(&example()), PRINTED);
    let printed = spawn(&[], example());
    assert_eq!(printed, (PRINTED.as_bytes().to_vec(), true));
}

/// Bench cases A to C in one stream, with a net below 0.
#[test]
fn a_net_below_0_is_printed() {
    let b = join(&[stamp(1), insert(1, 0, 0), end()]);
    let c = join(&[stamp(65_539), delete(0, 0, 0), end()]);
    let lines = [
        "batch net 1 visits 0 0 true 2 of 2 stamp 65539\n",
        "batch net -2 visits 0 1 true 0 of 2 stamp 65538\n",
    ];
    let printed = run(&[example(), b, c].concat());
    assert_eq!(printed, [PRINTED, lines[0], lines[1]].concat());
}

/// Reading 14: no bytes at all print a refusal.
#[test]
fn reading_14_no_bytes_are_refused() {
    assert_eq!(run(&[]), "refused 1 at 0\n");
    assert_eq!(spawn(&[], vec![]), (b"refused 1 at 0\n".to_vec(), true));
}

/// Reading 14: after a part without bytes behind it the run ends silently.
#[test]
fn reading_14_silence_after_a_part() {
    assert_eq!(run(&G), "loaded true 0 of 2 stamp 0\n");
}

/// A refused model ends the run, also where batches follow.
#[test]
fn a_refused_model_ends_the_run() {
    let bad = join(&[sizes(0, 1, 0, 1, 1), block(1, 1), equation(6, 0, 0), end()]);
    assert_eq!(run(&[bad, example()].concat()), "refused 3 at 0\n");
    assert_eq!(run(&[6, 6, 6]), "refused 2 at 0\n");
}

/// Refused batches are passed over, and the next one is read from its own start.
#[test]
fn refused_batches_are_passed_over() {
    let refused = [
        (vec![6], "refused 2 at 0\n"),
        (join(&[stamp(9), end()]), "refused 11 at 0\n"),
        (join(&[stamp(0), label(0, 1), end()]), "refused 2 at 5\n"),
        (
            join(&[stamp(0), insert(9, 0, 0), end()]),
            "refused 4 at 5\n",
        ),
        (
            join(&[stamp(0), delete(0, 0, 0), end()]),
            "refused 8 at 5\n",
        ),
    ];
    let mut input = G.to_vec();
    let mut printed = "loaded true 0 of 2 stamp 0\n".to_string();
    for (bytes, line) in refused {
        input.extend(bytes);
        printed += line;
    }
    input.extend(&example()[15..27]);
    printed += "batch net 1 visits 1 0 true 1 of 2 stamp 1\n";
    assert_eq!(run(&input), printed);
}

/// Reading 15: the cut knows every kind and length, so a 6 inside a body cuts nothing.
#[test]
fn reading_15_the_cut_goes_by_kinds_and_lengths() {
    let sixes = join(&[
        stamp(0x0606_0606),
        label(0x0606, 0x0606_0606),
        sizes(0x0606, 6, 6, 6, 6),
        block(6, 6),
        equation(6, 6, 6),
        signed(6, 6, 6, 6),
        live(),
        step(0x0606, 6, 0x0606),
        insert(0x0606, 6, 0x0606),
        delete(0x0606, 6, 0x0606),
        end(),
    ]);
    assert_eq!(cut(&sixes), Some(sixes.len()));
    let printed = run(&[&G[..], &sixes, &example()[15..27]].concat());
    let lines: Vec<&str> = printed.lines().collect();
    assert_eq!(lines[1], "refused 2 at 5");
    assert_eq!(lines[2], "batch net 1 visits 1 0 true 1 of 2 stamp 1");
}

/// Where no kind 6 is reached, all that is left is handed over, refused, and the run ends.
#[test]
fn reading_15_the_rest_is_handed_over() {
    let tails = [
        (vec![0], "refused 1 at 0\n"),
        (vec![7, 0, 0], "refused 1 at 0\n"),
        (stamp(0), "refused 1 at 5\n"),
        (
            join(&[stamp(0), vec![12], end(), end()]),
            "refused 1 at 5\n",
        ),
    ];
    for (tail, line) in tails {
        let printed = run(&[&G[..], &tail].concat());
        assert_eq!(printed, format!("loaded true 0 of 2 stamp 0\n{line}"));
    }
    assert_eq!(run(&G[..14]), "refused 1 at 14\n");
}

/// Reading 15: what is handed over may be refused at an earlier record by another number.
#[test]
fn reading_15_an_earlier_record_may_be_guilty() {
    let tail = join(&[stamp(0), insert(9, 0, 0), vec![0, 6]]);
    let printed = run(&[&G[..], &tail, &example()[15..27]].concat());
    assert_eq!(printed, "loaded true 0 of 2 stamp 0\nrefused 4 at 5\n");
    let model = [sizes(2, 1, 0, 1, 1), block(1, 2), vec![255]].concat();
    assert_eq!(run(&model), "refused 3 at 7\n");
}

/// Reading 16: only the first 65,536 bytes exist; a part that ends there is the last.
#[test]
fn reading_16_a_part_that_ends_at_the_limit() {
    let filler = join(&[stamp(0), label(0, 1), end()]);
    let empty = join(&[stamp(0), end()]);
    let mut input = [G.to_vec(), filler, empty.repeat(10_918)].concat();
    assert_eq!(input.len(), 65_536);
    let printed = run(&input);
    assert_eq!(printed.lines().count(), 10_920);
    input.extend(&example()[15..]);
    input.extend(vec![6; 100_000]);
    assert_eq!(run(&input), printed);
    assert_eq!(spawn(&[], input).0, printed.as_bytes());
}

/// Reading 16: a part that the limit cuts is handed over as it is.
#[test]
fn reading_16_a_part_that_the_limit_cuts() {
    let empty = join(&[stamp(0), end()]);
    let input = [G.to_vec(), empty.repeat(10_921)].concat();
    let printed = run(&input);
    assert_eq!(printed.lines().count(), 10_922);
    assert!(printed.ends_with("stamp 0\nrefused 1 at 0\n"));
    assert_eq!(spawn(&[], input).0, printed.as_bytes());
}

/// The rewriting command puts the model in signs and leaves the batches, and leaves a stream whose
/// model is refused or has signs already.
#[test]
fn the_rewriting_command_works() {
    let signs = join(&[sizes(2, 1, 0, 1, 0), signed(1, 6, 0, 0), end()]);
    let batches = example()[15..].to_vec();
    let rewritten = [signs, batches].concat();
    assert_eq!(spawn(&["rewrite"], example()), (rewritten.clone(), true));
    assert_eq!(run(&rewritten), PRINTED);
    assert_eq!(spawn(&["rewrite"], rewritten.clone()), (rewritten, true));
    for kept in [vec![], vec![0], G[..14].to_vec(), vec![6, 6]] {
        assert_eq!(spawn(&["rewrite"], kept.clone()), (kept, true));
    }
    assert!(!spawn(&["rewrite", "1"], vec![]).1);
}

/// The generator's command gives the bytes of its seed, and nonsense ends badly.
#[test]
fn the_commands_work() {
    let stream = reference::generate::generate(7).bytes;
    assert_eq!(spawn(&["generate", "7"], vec![]), (stream, true));
    let census = spawn(&["census", "3"], vec![]);
    assert!(census.1 && !census.0.is_empty());
    assert!(!spawn(&["generate", "x"], vec![]).1);
    assert!(!spawn(&["generate", "1", "nothing"], vec![]).1);
    assert!(!spawn(&["nonsense"], vec![]).1);
}
