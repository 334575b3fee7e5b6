//! The line program as it was proved and built, run in a process of its own.

use std::io::{Read, Write};
use std::process::{Child, Command, Stdio};
use std::thread;

/// The program, about to be started. `tools/lockline` finds it, and an emulator where one is needed.
pub fn program() -> Command {
    Command::new(concat!(env!("CARGO_MANIFEST_DIR"), "/../tools/lockline"))
}

/// What the program writes for this input, which comes through a pipe.
pub fn written(input: &[u8]) -> Vec<u8> {
    let mut child = program().stdin(Stdio::piped()).stdout(Stdio::piped()).spawn().unwrap();
    let mut pipe = child.stdin.take().unwrap();
    let input = input.to_vec();
    let writer = thread::spawn(move || pipe.write_all(&input).unwrap());
    let output = finished(child);
    writer.join().unwrap();
    output
}

/// All that the program still writes, once it has ended well.
pub fn finished(mut child: Child) -> Vec<u8> {
    let mut output = Vec::new();
    child.stdout.take().unwrap().read_to_end(&mut output).unwrap();
    assert!(child.wait().unwrap().success());
    output
}
