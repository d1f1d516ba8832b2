// A program under test: handed arguments and bytes, and what came of it.

use std::io::Write;
use std::process::{Command, Output, Stdio};

/// What becomes of PROGRAM with these arguments when it is handed the bytes in pieces, and whether all of them could be
/// handed over before it ended. If it does not start, TEST says so and ends.
pub fn hand(test: &str, program: &str, arguments: &[String], bytes: &[u8], piece: usize) -> (Output, bool) {
    let mut command = Command::new(program);
    command.args(arguments).stdin(Stdio::piped()).stdout(Stdio::piped()).stderr(Stdio::piped());
    let mut child = command.spawn().unwrap_or_else(|error| {
        eprintln!("{test}: {program} does not start: {error}");
        std::process::exit(2);
    });
    let mut input = child.stdin.take().expect("it is piped");
    std::thread::scope(|scope| {
        let handing = scope.spawn(move || bytes.chunks(piece).try_for_each(|bytes| input.write_all(bytes)).is_ok());
        let output = child.wait_with_output().expect("it was started");
        (output, handing.join().expect("writing does not panic"))
    })
}

/// What PROGRAM prints when it is handed the bytes in pieces, and what is wrong with how it ended, if anything.
pub fn run(test: &str, program: &str, bytes: &[u8], piece: usize) -> (Vec<u8>, Option<String>) {
    // Whether the program read everything shows in what it prints.
    let (output, _) = hand(test, program, &[], bytes, piece);
    let wrong = if !output.status.success() {
        Some(format!("{program} ends with {}", output.status))
    } else if !output.stderr.is_empty() {
        Some(format!("{program} prints on standard error: {}", String::from_utf8_lossy(&output.stderr).trim_end()))
    } else {
        None
    };
    (output.stdout, wrong)
}
