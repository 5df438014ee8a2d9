//! The program as a whole: its exit status, what it leaves behind, and the drill it keeps.
//! It plays the other program itself, right or with a fault, so no proved program is needed.

mod place;

use std::fs;
use std::process::Command;

use place::{complained, said, Place, COMPARE};

/// The command line of a program with a fault.
fn program(fault: &str) -> String {
    format!("{COMPARE} --as {fault}")
}

#[test]
fn agreement_is_0_and_leaves_nothing() {
    let place = Place::new("agree");
    let right = program("nothing");
    let output = place.run(&["--drill", &right, "--from", "40", "--count", "6"]);
    assert_eq!(output.status.code(), Some(0), "{}", complained(&output));
    assert!(said(&output).starts_with("drills 6, lines "));
    assert!(place.is_empty());
}

#[test]
fn time_ends_a_run() {
    let place = Place::new("time");
    let right = program("nothing");
    let output = place.run(&["--drill", &right, "--seconds", "1", "--jobs", "1"]);
    assert_eq!(output.status.code(), Some(0), "{}", complained(&output));
    assert!(said(&output).contains("all agreed, seeds from 1"));
}

#[test]
fn a_difference_is_1_and_the_short_drill_still_differs() {
    let place = Place::new("differ");
    let wrong = program("gaps-allowed");
    let arguments = ["--drill", &wrong, "--count", "20", "--keep", "kept"];
    let output = place.run(&arguments);
    assert_eq!(output.status.code(), Some(1), "{}", complained(&output));
    let text = said(&output);
    assert!(text.contains("differs in line"), "{text}");
    let files: Vec<_> = fs::read_dir(place.path().join("kept")).unwrap().collect();
    assert_eq!(files.len(), 1);
    let drill = files[0].as_ref().unwrap().path();
    let speak = |fault: &str| said(&place.run(&["--as", fault, drill.to_str().unwrap()]));
    assert_ne!(speak("nothing"), speak("gaps-allowed"));
    assert!(speak("nothing").lines().count() < 10);
    let kept = fs::read_to_string(&drill).unwrap();
    assert!(
        kept.starts_with("settings ") && kept.contains("  => 1 "),
        "{kept}"
    );
    assert!(text.ends_with(&kept), "the text is shown");
}

#[test]
fn a_result_that_is_no_more_is_a_difference() {
    let place = Place::new("no-more");
    let wrong = program("places-63");
    let output = place.run(&["--drill", &wrong, "--count", "60", "--keep", "kept"]);
    assert_eq!(output.status.code(), Some(1));
    let text = said(&output);
    let line = text.lines().find(|line| line.starts_with("  drill: "));
    let words: Vec<&str> = line.unwrap().split(' ').collect();
    assert!(words.contains(&"23"), "{text}");
}

#[test]
fn accepted_lines_stand_in_the_text() {
    let place = Place::new("accept");
    let file = place.path().join("a.drill");
    let source = "# shows\nsettings address 02-00-00-00-00-01\nlink west failed\ntick 3 # why\n";
    fs::write(&file, source).unwrap();
    let accept = || place.run(&["--accept", file.to_str().unwrap()]);
    assert_eq!(accept().status.code(), Some(0));
    let wanted = "\
# shows
settings address 02-00-00-00-00-01
link west failed  => 1 0 4 0 1 0 1
tick 2            => 2..3 0 4 0 1 0 0  # why
tick              => 4 0 4 4 2 0 1
";
    assert_eq!(fs::read_to_string(&file).unwrap(), wanted);
    assert_eq!(said(&accept()), "", "once more changes nothing");
    let by_hand = wanted.replace("=> 1 0 4 0 1 0 1", "=> 1 0 3 0 1 0 1  # by hand");
    fs::write(&file, &by_hand).unwrap();
    let output = accept();
    assert_eq!(output.status.code(), Some(1));
    assert!(
        said(&output).contains("line 3: by hand '1 0 3 0 1 0 1', the model says '1 0 4 0 1 0 1'")
    );
    assert_eq!(fs::read_to_string(&file).unwrap(), by_hand);
    let windows = format!("\u{feff}{}", wanted.replace('\n', "\r\n"));
    fs::write(&file, &windows).unwrap();
    assert_eq!(accept().status.code(), Some(0));
    assert_eq!(fs::read_to_string(&file).unwrap(), windows);
    for content in [&b"tock\n"[..], &[2, 0, 1, 0]] {
        fs::write(&file, content).unwrap();
        assert_eq!(accept().status.code(), Some(2));
        assert_eq!(fs::read(&file).unwrap(), content);
    }
}

#[test]
fn jobs_find_the_same_seed() {
    let place = Place::new("jobs");
    let wrong = program("unknown-before-down");
    let first_line = |jobs: &str| {
        let output = place.run(&["--drill", &wrong, "--count", "60", "--jobs", jobs]);
        assert_eq!(output.status.code(), Some(1), "{}", complained(&output));
        let text = said(&output);
        let line = text.lines().find(|line| line.starts_with("seed "));
        line.unwrap().to_string()
    };
    assert_eq!(first_line("1"), first_line("4"));
}

#[test]
fn what_cannot_be_run_is_2() {
    let place = Place::new("cannot");
    let no_fault = program("unheard-of");
    let commands = ["no/such/program", "true", "false", &no_fault, " "];
    for command in commands {
        let output = place.run(&["--drill", command, "--count", "3"]);
        assert_eq!(output.status.code(), Some(2), "{command}");
        assert!(complained(&output).starts_with("compare: "), "{command}");
    }
    assert!(place.is_empty());
}

#[test]
fn bad_usage_is_2() {
    let place = Place::new("usage");
    for arguments in [&["--what"][..], &["--count", "many"], &["--from"]] {
        let output = place.run(arguments);
        assert_eq!(output.status.code(), Some(2));
        assert!(complained(&output).contains("usage: compare"));
    }
    assert!(place.run(&["--help"]).status.success());
}

#[test]
fn without_a_command_the_repository_is_searched() {
    let place = Place::new("search");
    // A temporary directory may lie below a repository; only then is there a command.
    if !place.is_below("drills/run") {
        let output = place.run(&["--count", "1"]);
        assert_eq!(output.status.code(), Some(2));
        assert!(complained(&output).contains("name a command with --drill"));
    }
    let right = format!("exec '{COMPARE}' --as nothing \"$1\"");
    place.write_script("drills/run", &right);
    let deep = place.path().join("a/b");
    fs::create_dir_all(&deep).unwrap();
    let output = Command::new(COMPARE)
        .args(["--count", "2"])
        .current_dir(&deep)
        .output()
        .unwrap();
    assert_eq!(output.status.code(), Some(0), "{}", complained(&output));
}

#[test]
fn self_test_fails_if_there_are_too_few_inputs() {
    let place = Place::new("self");
    let output = place.run(&["--self-test", "--count", "1"]);
    assert_eq!(output.status.code(), Some(1));
    for word in ["drills", "plans"] {
        assert!(said(&output).contains(&format!("NOT FOUND in 1 {word}")));
    }
}
