//! The program as a whole: what it prints and its exit status, with a program in the drill's place that says fixed lines.

use std::ffi::OsStr;
use std::fs;
use std::io::{self, ErrorKind, Write};
use std::os::unix::ffi::OsStrExt;
use std::process::{Command, Output};

use text::command::perform;
use text::program::Room;

const TEXT: &str = env!("CARGO_BIN_EXE_text");

const WORKED: &str = "\
name B 02-00-00-00-00-02
settings address 02-00-00-00-00-01 wtr 0 keepalive 50 forget 10
report west from B hop 1 sequence 7 idle idle        => 1 0 0 0 0 1 0
way B                                                => 2 way 0 1 0 1
";
const LINES: &str = "1 0 0 0 0 1 0\n2 way 0 1 0 1\n";

/// A directory of one test, removed at its end.
struct Place(Room);

impl Place {
    fn new(test: &str) -> Place {
        Place(Room::new(&format!("text-test-{test}")).unwrap())
    }

    fn file(&self, name: &str, content: impl AsRef<[u8]>) -> String {
        let path = self.0.path().join(name);
        fs::write(&path, content).unwrap();
        path.display().to_string()
    }

    /// Runs with a program that says these lines to any drill.
    fn run(&self, lines: &str, arguments: &[&str]) -> Output {
        let said = self.file("said", lines);
        let program = self.file("program", format!("cat '{said}'\n"));
        let command = format!("sh {program}");
        Command::new(TEXT)
            .args(["--drill", &command])
            .args(arguments)
            .current_dir(self.0.path())
            .output()
            .unwrap()
    }
}

fn output(output: &Output) -> (Option<i32>, String, String) {
    let text = |bytes: &[u8]| String::from_utf8_lossy(bytes).into_owned();
    (
        output.status.code(),
        text(&output.stdout),
        text(&output.stderr),
    )
}

#[test]
fn what_is_expected_is_0() {
    let place = Place::new("good");
    let file = place.file("a.drill", WORKED);
    assert_eq!(
        output(&place.run(LINES, &[&file])),
        (Some(0), LINES.into(), "".into())
    );
}

#[test]
fn a_difference_is_1_and_stands_side_by_side() {
    let place = Place::new("differs");
    let file = place.file("a.drill", WORKED);
    let other = "1 0 0 0 0 2 0\n2 way 0 1 0 1\n";
    let (status, said, complained) = output(&place.run(other, &[&file]));
    assert_eq!((status, &said[..]), (Some(1), other));
    let row = "   3   1 0 0 0 0 1 0   1 0 0 0 0 2 0   report west from B hop 1 sequence 7 idle idle (differs in stations)\n";
    assert!(complained.contains(row), "{complained}");
}

#[test]
fn where_the_trouble_is_differs_by_name() {
    let place = Place::new("trouble");
    let file = place.file("a.drill", WORKED);
    let other = LINES.replace("way 0 1 0 1", "way 0 2 3 2");
    let (status, said, complained) = output(&place.run(&other, &["--say", &file]));
    assert_eq!(status, Some(1));
    assert!(
        said.contains("| west (0), 2 hops, worst SD on span 2\n"),
        "{said}"
    );
    let row = "   4   2 way 0 1 0 1   2 way 0 2 3 2   way B (differs in hops, worst, span)\n";
    assert!(complained.contains(row), "{complained}");
}

#[test]
fn a_reply_alone_is_a_mistake_in_a_text_and_a_difference_in_a_program() {
    let place = Place::new("alone");
    let old = place.file("a.drill", WORKED.replace("way 0 1 0 1", "way 0"));
    let (status, said, complained) = output(&place.run(LINES, &[&old]));
    assert_eq!((status, &said[..]), (Some(2), ""));
    let told =
        ", line 4: the line ends where this could stand: the number of the line's field 'hops'\n";
    assert!(complained.contains(told), "{complained}");
    let new = place.file("b.drill", WORKED);
    let lines = LINES.replace("way 0 1 0 1", "way 0");
    let (status, said, complained) = output(&place.run(&lines, &["--say", &new]));
    assert_eq!(status, Some(1));
    assert!(said.contains("| no line of the program\n"), "{said}");
    let row = "   4   2 way 0 1 0 1   2 way 0   way B\n";
    assert!(complained.contains(row), "{complained}");
    let (status, _, complained) = output(&place.run(&lines, &["--picture", "a.svg", &new]));
    assert!(
        status == Some(2) && complained.contains("'2 way 0' is printed where line 2"),
        "{complained}"
    );
}

#[test]
fn a_mistake_is_2_and_nothing_is_run() {
    let place = Place::new("mistake");
    let file = place.file("a.drill", WORKED.replace("hop", "hopp"));
    let ran = place.0.path().join("ran");
    let program = place.file("touch", format!("touch '{}'\n", ran.display()));
    let command = format!("sh {program}");
    let run = Command::new(TEXT)
        .args(["--drill", &command, &file])
        .output()
        .unwrap();
    let (status, said, complained) = output(&run);
    assert_eq!((status, &said[..]), (Some(2), ""));
    assert!(
        complained.contains(", line 3: 'hopp' stands where this could stand: hop or ttl\n"),
        "{complained}"
    );
    assert!(!ran.exists());
}

#[test]
fn bytes_and_text_are_turned_into_each_other() {
    let place = Place::new("turned");
    let file = place.file("a.drill", WORKED);
    let bytes = place.run("", &["--bytes", &file]).stdout;
    assert_eq!(bytes[..4], [0x11, 0, 0x20, 0]);
    let file = place.file("b.drill", &bytes);
    assert_eq!(place.run("", &["--bytes", &file]).stdout, bytes);
    let (_, text, _) = output(&place.run("", &["--text", &file]));
    assert!(
        text.ends_with("hop 1 sequence 7 idle idle\nway 02-00-00-00-00-02\n"),
        "{text}"
    );
    let file = place.file("c.drill", &text);
    assert_eq!(place.run("", &["--bytes", &file]).stdout, bytes);
    assert_eq!(output(&place.run(LINES, &[&file])).1, LINES);
}

#[test]
fn all_wants_every_line() {
    let place = Place::new("all");
    let good = place.file("a.drill", format!("# shows\n{WORKED}"));
    assert_eq!(
        output(&place.run(LINES, &["--all", &good, &good])).0,
        Some(0)
    );
    let file = |name: &str, source: &str| place.file(name, source);
    let bytes = place.file("d.drill", [2, 0, 1, 0]);
    let shown = format!("# shows\n{WORKED}");
    let cases = [
        (
            file("b.drill", &shown.replace("=> 2 way 0 1 0 1", "")),
            1,
            "1 lines are printed",
        ),
        (file("c.drill", WORKED), 1, "in its first line"),
        (file("e.drill", "# nothing\n"), 1, "has no record"),
        (
            file("f.drill", &shown.replace("2 way 0", "2 way 1")),
            1,
            "is not as expected",
        ),
        (
            file(
                "g.drill",
                &format!("# shows\n# Reports by hand: 1\n{WORKED}"),
            ),
            1,
            "1 reports by hand, 0 reports printed",
        ),
        (
            file("h.drill", &shown.replace("hop", "hopp")),
            2,
            "'hopp' stands",
        ),
        (bytes, 2, "is no text"),
    ];
    let (status, said, _) = output(&place.run(LINES, &["--all", &cases[5].0, &good, &cases[0].0]));
    let order = ["h.drill", "b.drill", "1 as expected, 2 not"].map(|word| said.find(word));
    assert!(
        status == Some(2) && order.is_sorted() && order[0].is_some(),
        "{said}"
    );
    for (file, wanted, words) in cases {
        let (status, said, _) = output(&place.run(LINES, &["--all", &good, &file]));
        assert_eq!(status, Some(wanted), "{said}");
        assert!(
            said.contains(words) && said.ends_with("drills: 1 as expected, 1 not\n"),
            "{said}"
        );
    }
}

#[test]
fn a_program_that_says_it_otherwise_differs() {
    let place = Place::new("otherwise");
    let file = place.file("a.drill", format!("# shows\n{WORKED}"));
    let cases = [
        LINES.replace('\n', "\r\n"),
        LINES.trim_end().to_string(),
        format!("{LINES}3 0 0 0 0 1 0\n"),
        format!("{LINES}\n"),
        LINES.replace("2 way 0 1 0 1\n", ""),
        LINES.replace("2 way 0 1 0 1", "2 way 0"),
        String::new(),
    ];
    for lines in cases {
        let (status, said, complained) = output(&place.run(&lines, &[&file]));
        assert_eq!((status, &said), (Some(1), &lines));
        assert!(
            complained.starts_with("drill: not as expected in "),
            "{complained}"
        );
        assert_eq!(output(&place.run(&lines, &["--all", &file])).0, Some(1));
        assert_eq!(output(&place.run(&lines, &["--say", &file])).0, Some(1));
    }
}

#[test]
fn a_program_that_ends_badly_is_2() {
    let place = Place::new("badly");
    let file = place.file("a.drill", format!("# shows\n{WORKED}"));
    let program = place.file(
        "bad",
        format!(
            "printf '{}'; echo why >&2; exit 3\n",
            LINES.replace('\n', "\\n")
        ),
    );
    let command = format!("sh {program}");
    for task in [
        &["--drill", &command, &file][..],
        &["--drill", &command, "--say", &file],
        &["--drill", &command, "--all", &file],
    ] {
        let run = Command::new(TEXT).args(task).output().unwrap();
        let (status, said, complained) = output(&run);
        assert_eq!(status, Some(2), "{task:?}");
        assert!(
            (said + &complained).contains("ended badly: exit status: 3: why"),
            "{task:?}"
        );
    }
}

#[test]
fn what_comes_before_must_end_well_and_follows_the_reading() {
    let place = Place::new("before");
    let good = place.file("a.drill", WORKED);
    let bad = place.file("b.drill", WORKED.replace("hop", "hopp"));
    let (status, _, complained) = output(&place.run(LINES, &["--before", "false", &good]));
    assert_eq!(status, Some(2));
    assert!(complained.contains("false ended with"), "{complained}");
    assert!(output(&place.run(LINES, &["--before", "false", &bad]))
        .2
        .contains("'hopp' stands"));
    assert_eq!(
        output(&place.run(LINES, &["--before", "false", "--bytes", &good])).0,
        Some(0)
    );
    assert_eq!(
        output(&place.run(LINES, &["--before", "true", &good])).0,
        Some(0)
    );
}

#[test]
fn standard_input_is_a_file() {
    let place = Place::new("input");
    let run = |content: &str, arguments: &str| {
        let file = place.file("input", content);
        let program = place.file(
            "program",
            format!("printf '{}'\n", LINES.replace('\n', "\\n")),
        );
        let line = format!("{TEXT} --drill 'sh {program}' {arguments} - < {file}; echo $? >&2");
        output(&Command::new("sh").args(["-c", &line]).output().unwrap())
    };
    assert_eq!(run(WORKED, ""), (Some(0), LINES.into(), "0\n".into()));
    assert!(run("tock\n", "")
        .2
        .starts_with("drill: standard input, line 1: 'tock' stands"));
}

/// Somebody who cannot be written to, for this reason.
struct Deaf(ErrorKind);

impl Write for Deaf {
    fn write(&mut self, _: &[u8]) -> io::Result<usize> {
        Err(self.0.into())
    }

    fn flush(&mut self) -> io::Result<()> {
        Ok(())
    }
}

#[test]
fn one_who_has_read_enough_is_no_trouble() {
    let place = Place::new("enough");
    let file = place.file("a.drill", WORKED);
    for (lines, wanted) in [(LINES, 0), ("1 0 0 0 0 2 0\n2 way 0 1 0 1\n", 1)] {
        let said = place.file("said", lines);
        let program = format!("sh {}", place.file("program", format!("cat '{said}'\n")));
        let mut arguments = vec!["--drill".to_string(), program, file.clone()];
        for _ in 0..2 {
            let mut deaf = Deaf(ErrorKind::BrokenPipe);
            let status = perform(arguments.clone(), &mut deaf, &mut Vec::new());
            assert_eq!(status, wanted, "{arguments:?}");
            arguments.push("--say".to_string());
        }
    }
    for (reason, wanted) in [(ErrorKind::BrokenPipe, 0), (ErrorKind::StorageFull, 2)] {
        for task in ["--help", "--text", "--bytes"] {
            let mut errors = Vec::new();
            let status = perform([task.to_string()], &mut Deaf(reason), &mut errors);
            assert_eq!((status, errors.is_empty()), (wanted, wanted == 0), "{task}");
        }
    }
}

#[test]
fn without_a_file_it_is_the_worked_drill() {
    let place = Place::new("worked");
    let (status, said, _) = output(&place.run("", &["--text"]));
    assert_eq!(status, Some(0));
    assert!(said.starts_with(
        "settings address 02-00-00-00-00-01 wtr 0 keepalive 50 forget 10\nlink west failed\n"
    ));
}

#[test]
fn a_picture_is_drawn_and_what_differs_is_told() {
    let place = Place::new("picture");
    let file = place.file("a.drill", WORKED);
    let out = place.0.path().join("a.svg").display().to_string();
    for (lines, wanted) in [(LINES, 0), ("1 0 0 0 0 1 1\n2 way 0 1 0 1\n", 1)] {
        assert_eq!(
            output(&place.run(lines, &["--picture", &out, &file])).0,
            Some(wanted)
        );
        assert!(fs::read_to_string(&out).unwrap().starts_with("<svg "));
    }
}

#[test]
fn what_an_operator_hides_is_seen_in_a_second_run() {
    let place = Place::new("hidden");
    let out = place.0.path().join("a.svg").display().to_string();
    let hidden = "operator west fs => 2 0 5 0 1 1 1\nlink west failed => 3 0 5 0 1 0 0\n# way B";
    let file = place.file("b.drill", WORKED.replace("way B", hidden));
    let loud = place.file("loud", "1 0 0 0 0 1 0\n2 0 5 0 1 1 1\n3 0 5 0 1 0 0\n");
    let quiet = place.file("quiet", "1 0 0 0 0 1 0\n2 0 0 0 0 1 0\n3 0 4 0 1 0 1\n");
    let has_fs = "od -An -v -tx1 \"$1\" | tr -d ' \\n' | grep -q 040004000005";
    let script = format!("{has_fs} && cat '{loud}' || cat '{quiet}'\n");
    let command = format!("sh {}", place.file("program", script));
    for arguments in [&["--picture", &out, &file][..], &["--say", &file]] {
        let run = Command::new(TEXT)
            .args(["--drill", &command])
            .args(arguments)
            .output();
        let (status, said, complained) = output(&run.unwrap());
        assert_eq!(status, Some(0), "{complained}");
        assert!(
            arguments[0] == "--picture" || said.contains("no station, B leaves"),
            "{said}"
        );
    }
}

#[test]
fn reports_by_hand_and_refused_settings_are_told() {
    let place = Place::new("told");
    let by_hand = place.file("a.drill", format!("# reports by hand: 1\n{WORKED}"));
    let (status, _, complained) = output(&place.run(LINES, &[&by_hand]));
    assert_eq!(
        (status, &complained[..]),
        (Some(1), "drill: line 1: 1 reports, printed 0 reports\n")
    );
    let forgotten = place.file("b.drill", "tick\n");
    let (status, said, complained) = output(&place.run("settings 3\n", &[&forgotten]));
    assert_eq!((status, &said[..]), (Some(0), "settings 3\n"));
    assert_eq!(
        complained,
        "drill: settings refused: not a settings record (3): the drill ends\n"
    );
    let expected = place.file("c.drill", "tick => settings 3\n");
    assert_eq!(output(&place.run("settings 3\n", &[&expected])).2, "");
}

#[test]
fn what_cannot_be_used_is_2() {
    let place = Place::new("cannot");
    let file = place.file("a.drill", WORKED);
    let runs: [&[&str]; 11] = [
        &["-say", &file],
        &["--picture", &file],
        &["--picture", "-", &file],
        &["no/such/file"],
        &["--all"],
        &["--picture", "no/such/folder/a.svg", &file],
        &["--what", &file],
        &["--say", "--text", &file],
        &["--picture"],
        &[&file, &file],
        &["--drill", "no/such/program", &file],
    ];
    for arguments in runs {
        let (status, said, complained) = output(&place.run(LINES, arguments));
        assert_eq!((status, &said[..]), (Some(2), ""), "{arguments:?}");
        assert!(complained.starts_with("drill: "), "{complained}");
    }
    assert_eq!(output(&place.run(LINES, &["--help"])).0, Some(0));
    let odd = OsStr::from_bytes(b"\xE4.drill");
    let (status, _, complained) = output(&Command::new(TEXT).arg(odd).output().unwrap());
    assert!(
        status == Some(2) && complained.contains("is not UTF-8"),
        "{complained}"
    );
}
