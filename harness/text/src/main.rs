//! `./drill`: drills as texts or bytes, run, said, drawn and turned into each other.

use std::env;
use std::ffi::OsString;
use std::io::{self, Write};
use std::process::ExitCode;

use text::command::{perform, CANNOT};

fn main() -> ExitCode {
    let arguments: Result<Vec<String>, OsString> =
        env::args_os().skip(1).map(OsString::into_string).collect();
    let status = match arguments {
        Ok(arguments) => perform(arguments, &mut io::stdout(), &mut io::stderr()),
        Err(argument) => {
            let shown = argument.to_string_lossy();
            // One who has stopped listening is no reason to panic.
            let _ = writeln!(
                io::stderr(),
                "drill: '{shown}' is not UTF-8; give the file another name"
            );
            CANNOT
        }
    };
    ExitCode::from(status)
}
