//! A directory of one test, in which the program is run; it plays the other program itself, right or with a fault.

use std::fs;
use std::os::unix::fs::PermissionsExt;
use std::path::Path;
use std::process::{Command, Output};

use text::program::Room;

pub const COMPARE: &str = env!("CARGO_BIN_EXE_compare");

/// A directory of one test, removed at its end.
pub struct Place(Room);

impl Place {
    pub fn new(test: &str) -> Place {
        Place(Room::new(&format!("compare-test-{test}")).unwrap())
    }

    pub fn path(&self) -> &Path {
        self.0.path()
    }

    pub fn is_empty(&self) -> bool {
        fs::read_dir(self.path()).unwrap().next().is_none()
    }

    pub fn run(&self, arguments: &[&str]) -> Output {
        Command::new(COMPARE)
            .args(arguments)
            .env("TMPDIR", self.path())
            .current_dir(self.path())
            .output()
            .unwrap()
    }

    /// True if this directory or one above it has a script of the repository.
    pub fn is_below(&self, script: &str) -> bool {
        let mut above = self.path().ancestors();
        above.any(|top| top.join(script).is_file())
    }

    /// A script below this directory that does what these words say.
    pub fn write_script(&self, name: &str, words: &str) {
        fs::create_dir_all(self.path().join("drills")).unwrap();
        let script = self.path().join(name);
        fs::write(&script, format!("#!/bin/sh\n{words}\n")).unwrap();
        fs::set_permissions(&script, fs::Permissions::from_mode(0o755)).unwrap();
    }
}

pub fn said(output: &Output) -> String {
    String::from_utf8_lossy(&output.stdout).into_owned()
}

pub fn complained(output: &Output) -> String {
    String::from_utf8_lossy(&output.stderr).into_owned()
}
