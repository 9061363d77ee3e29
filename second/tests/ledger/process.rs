//! The program itself, with standard input in pieces.

use std::io::Write;
use std::process::{Command, Stdio};
use std::thread::sleep;
use std::time::Duration;

use second::tape::MAX_TAPE;

use crate::example::{example, EXAMPLE_LINES};

/// Runs the program on a tape written in pieces of this many bytes.
fn run(tape: &[u8], piece: usize) -> String {
    let mut child = Command::new(env!("CARGO_BIN_EXE_second"))
        .stdin(Stdio::piped())
        .stdout(Stdio::piped())
        .spawn()
        .unwrap();
    let mut input = child.stdin.take().unwrap();
    for (number, bytes) in tape.chunks(piece).enumerate() {
        if input.write_all(bytes).is_err() {
            break; // the program has read all it wants
        }
        if number % 100 == 0 {
            sleep(Duration::from_millis(1));
        }
    }
    drop(input);
    let output = child.wait_with_output().unwrap();
    assert!(output.status.success());
    String::from_utf8(output.stdout).unwrap()
}

#[test]
fn the_papers_example() {
    for piece in [1, 7, 52, 53, 1_000] {
        assert_eq!(run(&example(), piece), EXAMPLE_LINES);
    }
}

#[test]
fn damaged_and_empty_tapes() {
    assert_eq!(run(&[], 1), "");
    assert_eq!(run(&example()[..60], 13), "1 33 0 0\n2 short\n");
    assert_eq!(run(&[1; 52], 5), "1 mark\n");
}

#[test]
fn the_limit() {
    let tape: Vec<u8> = example().into_iter().cycle().take(MAX_TAPE + 1).collect();
    let full = run(&tape[..MAX_TAPE], 4_000);
    assert_eq!(full.lines().last(), Some("1261 short"));
    assert_eq!(run(&tape, 4_000), "long\n");
}
