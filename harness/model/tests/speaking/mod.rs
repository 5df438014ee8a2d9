//! What a program of the model says, run as a program.

use std::io::Write;
use std::process::{Command, Stdio};

/// The settings of the worked drill.
pub const SETTINGS: [u8; 19] = [
    0x11, 0, 0x20, 0, 2, 2, 0, 0, 0, 0, 1, 0, 0, 0, 0x32, 0x0A, 2, 0x0A, 0,
];
pub const TICK: &[u8] = &[2, 0, 1, 0];

/// Settings that end either program, and what it says to them.
pub const BAD_SETTINGS: [(&[u8], &str); 7] = [
    (&[], "settings 2\n"),
    (&[17], "settings 2\n"),
    (&[1, 0, 32], "settings 2\n"),
    (&[0x0A, 0x04, 33, 0], "settings 2\n"),
    (SETTINGS.split_at(18).0, "settings 2\n"),
    (&[2, 0, 1, 0, 2, 0, 1, 0], "settings 3\n"),
    (&[8, 0, 33, 0, 1, 0, 0, 0, 0, 1], "settings 4\n"),
];

/// Runs a program on an input; it has to end well.
pub fn say_to(program: &str, input: &[u8]) -> String {
    let mut child = Command::new(program)
        .stdin(Stdio::piped())
        .stdout(Stdio::piped())
        .spawn()
        .unwrap();
    // The program may end before it has read everything.
    let _ = child.stdin.take().unwrap().write_all(input);
    let output = child.wait_with_output().unwrap();
    assert!(output.status.success());
    String::from_utf8(output.stdout).unwrap()
}
