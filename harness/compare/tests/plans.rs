//! The comparison of plans as a whole: its exit status, what it counts, and the plan it keeps.

mod place;

use std::fs;

use place::{complained, said, Place, COMPARE};

/// The command line of a planner's program with a fault.
fn program(fault: &str) -> String {
    format!("{COMPARE} --plans --as {fault}")
}

#[test]
fn agreement_is_0_and_leaves_nothing() {
    let place = Place::new("plans-agree");
    let right = program("nothing");
    let output = place.run(&[
        "--plans", "--drill", &right, "--from", "40", "--count", "30",
    ]);
    assert_eq!(output.status.code(), Some(0), "{}", complained(&output));
    let text = said(&output);
    assert!(text.starts_with("plans 30, lines "), "{text}");
    assert!(text.contains(" ms a plan, "), "{text}");
    for line in ["result 31 ", "0, with the defect ", "0, closed: "] {
        assert!(text.contains(line), "{text}");
    }
    assert!(text.contains("  other lines                              0\n"));
    assert!(place.is_empty());
}

#[test]
fn a_difference_is_1_and_the_short_plan_still_differs() {
    let place = Place::new("plans-differ");
    let wrong = program("counted-per-ringlet");
    let arguments = ["--plans", "--drill", &wrong, "--keep", "kept"];
    let output = place.run(&arguments);
    assert_eq!(output.status.code(), Some(1), "{}", complained(&output));
    let text = said(&output);
    assert!(text.contains("  model: 0 0 ") && text.contains("  plan:  0 0 "));
    let files: Vec<_> = fs::read_dir(place.path().join("kept")).unwrap().collect();
    assert_eq!(files.len(), 1);
    let plan = files[0].as_ref().unwrap().path();
    let name = plan.to_str().unwrap();
    assert!(name.ends_with(".plan"), "{name}");
    let speak = |fault: &str| said(&place.run(&["--plans", "--as", fault, name]));
    assert_ne!(speak("nothing"), speak("counted-per-ringlet"));
    // Settings, a report on each ringlet, the reservation, and the question.
    assert!(text.contains("to 4 records, differs in line 1\n"), "{text}");
    let answer = format!("  => {}", speak("nothing"));
    assert!(text.contains("\nsettings ") && text.contains("\nfree rate "));
    assert!(text.ends_with(&answer), "{text}");
}

#[test]
fn a_plan_is_made_and_read_as_bytes() {
    let place = Place::new("plans-make");
    let made = place.run(&["--plans", "--make", "2"]).stdout;
    assert_ne!(made, place.run(&["--make", "2"]).stdout);
    let file = place.path().join("plan");
    fs::write(&file, &made).unwrap();
    let output = place.run(&["--plans", "--as", "nothing", file.to_str().unwrap()]);
    assert_eq!(output.status.code(), Some(0));
    let lines = said(&output);
    assert!(lines.lines().all(|line| line.split(' ').count() == 5));
    assert!(lines.lines().count() > 5, "{lines}");
}

#[test]
fn what_cannot_be_run_is_2() {
    let place = Place::new("plans-cannot");
    for command in ["no/such/program", "true", "false"] {
        let output = place.run(&["--plans", "--drill", command, "--count", "3"]);
        assert_eq!(output.status.code(), Some(2), "{command}");
        assert!(complained(&output).starts_with("compare: "), "{command}");
    }
    let output = place.run(&["--plans", "--drill", "true"]);
    assert!(complained(&output).contains("says nothing to a first plan"));
    for arguments in [&["--plans", "--self-test"][..], &["--plans", "--accept"]] {
        assert_eq!(place.run(arguments).status.code(), Some(2));
    }
    assert!(place.is_empty());
}

#[test]
fn without_a_command_the_script_for_plans_is_searched() {
    let place = Place::new("plans-search");
    if !place.is_below("drills/plan") {
        let output = place.run(&["--plans", "--count", "1"]);
        assert_eq!(output.status.code(), Some(2));
        assert!(complained(&output).contains("no drills/plan in this directory or above"));
    }
    let right = format!("exec '{COMPARE}' --plans --as nothing \"$1\"");
    place.write_script("drills/plan", &right);
    let output = place.run(&["--plans", "--count", "2"]);
    assert_eq!(output.status.code(), Some(0), "{}", complained(&output));
}
