//! Text to bytes to text is the same, for every drill of the repository.

use std::fs;
use std::path::Path;

use text::accepting::accept;
use text::reading::Text;
use text::record::Record;
use text::saying::say;
use text::source::WORKED;
use text::stations::follow;
use text::told::play;
use text::writing;

/// The drills with their texts.
fn drills() -> Vec<(String, Text)> {
    let folder = Path::new(env!("CARGO_MANIFEST_DIR")).join("../../drills");
    let files = fs::read_dir(folder).unwrap();
    let paths = files.map(|file| file.unwrap().path());
    let drills = paths.filter(|path| path.extension().is_some_and(|end| end == "drill"));
    let read = drills.map(|path| {
        let source = fs::read(&path).unwrap();
        let name = path.display().to_string();
        let text = Text::read(&source).unwrap_or_else(|found| panic!("{name}: {}", found[0]));
        (name, text)
    });
    read.collect()
}

#[test]
fn text_to_bytes_to_text_is_the_same() {
    let drills = drills();
    assert!(drills.len() > 200);
    for (name, text) in drills {
        let written = writing::text(&text.bytes());
        let records: Vec<Record> = text.records().collect();
        assert_eq!(written, writing::plain(&records), "{name}");
        let again = Text::read(written.as_bytes()).unwrap();
        assert_eq!(again.bytes(), text.bytes(), "{name}");
    }
}

#[test]
fn accepting_what_is_expected_changes_nothing() {
    for (name, text) in drills() {
        let accepted = accept(&text, &text.expected());
        assert!(accepted.kept.is_empty(), "{name}: {:?}", accepted.kept);
        assert!(
            accepted.source == fs::read_to_string(&name).unwrap(),
            "{name}"
        );
    }
}

#[test]
fn readme_shows_what_is_said() {
    let top = Path::new(env!("CARGO_MANIFEST_DIR")).join("../..");
    let readme = fs::read_to_string(top.join("README.md")).unwrap();
    let worked = Text::read(WORKED).unwrap();
    let play = play(&worked.bytes(), &worked.expected());
    let stays = follow(&play, &play).unwrap();
    let mut said = String::new();
    say(&play, &worked.names, &stays, &mut |row| {
        said += row;
        true
    });
    assert!(readme.contains(&format!("```\n{said}```")), "{said}");
    let own = readme
        .split("```\n")
        .find(|block| block.starts_with("# a copy teaches"));
    let own = Text::read(own.unwrap().as_bytes()).unwrap();
    assert_eq!(
        own.expected(),
        "1 0 0 0 0 1 0\n2 0 0 0 0 1 0\n3 way 0 1 0 1\n"
    );
}

#[test]
fn every_drill_says_what_it_shows_and_what_it_expects() {
    for (name, text) in drills() {
        assert!(text.lines[0].comment.is_some(), "{name}");
        let lines = text.lines.iter().filter(|line| line.expected.is_some());
        // Settings that are taken print no line.
        assert!(
            lines.count() > 0 || name.contains("settings_only"),
            "{name}"
        );
    }
}
