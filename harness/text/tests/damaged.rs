//! Damaged texts: each gives a message with its line, what stands there and what could, and exit status 2; none a panic.

use std::env;
use std::fs;
use std::path::{Path, PathBuf};

use text::command::perform;
use text::reading::{Line, Text};
use text::writing;

/// Texts that are damaged in a way that is surely a mistake.
const DAMAGED: u64 = 10_000;
/// Texts with bytes changed at random, which may still be texts.
const SHAKEN: u64 = 10_000;

/// A sequence of numbers without any order, the same on every machine.
struct Chance(u64);

impl Chance {
    fn below(&mut self, end: usize) -> usize {
        self.0 ^= self.0 << 13;
        self.0 ^= self.0 >> 7;
        self.0 ^= self.0 << 17;
        usize::try_from(self.0 >> 33).unwrap() % end
    }

    fn pick<'l, T>(&mut self, list: &'l [T]) -> &'l T {
        &list[self.below(list.len())]
    }
}

/// The shorter drills of the repository, and a text with every word.
fn texts() -> Vec<String> {
    let folder = Path::new(env!("CARGO_MANIFEST_DIR")).join("../../drills");
    let paths = fs::read_dir(folder)
        .unwrap()
        .map(|file| file.unwrap().path());
    let mut paths: Vec<PathBuf> = paths
        .filter(|path| path.extension().is_some_and(|end| end == "drill"))
        .collect();
    paths.sort();
    let texts = paths.iter().map(|path| fs::read_to_string(path).unwrap());
    let mut texts: Vec<String> = texts.filter(|text| text.len() < 1_500).collect();
    texts.push(EVERY_WORD.to_string());
    texts
}

const EVERY_WORD: &str = "\
name B 02-00-00-00-00-02
settings level 1 address 02:00:00:00:00:01 wtr 1 hold-off 3 keepalive 50 fast 1 slow 1 forget 2
tick 30 keepalive 20
tick => 31 0 0 0 0 0 0
ticks 30 => 32 0 0 0 0 0 30
link west failed
keepalive east
operator west none
report east from B ttl 255 ringlet 0 sequence 7 sf 5
attributes east from B weights 3 5 reserved 1000 65535
attributes west from B block 80 09 0000
way B => 40 way 3 0 0 0
way B => 41 way 1 63 3 40
bytes 00*9 FF
settings short address B
";

/// A line with a record, and where its words end.
fn record_lines(text: &str) -> Vec<(usize, &str)> {
    let lines = text.lines().enumerate();
    let cut = lines.map(|(place, line)| {
        (
            place,
            line.split(['#', '=']).next().unwrap_or("").trim_end(),
        )
    });
    cut.filter(|(_, words)| !words.is_empty()).collect()
}

/// One damage to one line of words; each is surely a mistake.
fn damage(chance: &mut Chance, words: &str) -> String {
    let mut list: Vec<String> = words.split_whitespace().map(str::to_string).collect();
    let first = list[0].clone();
    match chance.below(10) {
        0 => list[0].push('q'),
        1 => {
            list[0] = chance
                .pick(&["tikcs", "reprot", "02", "=", "West", "-"])
                .to_string()
        }
        2 => list.push("0.5".to_string()),
        3 => list.insert(1, "!".to_string()),
        4 => list.push("\u{7}".to_string()),
        5 if first != "bytes" => list.insert(1, "99999999999999999999".to_string()),
        6 => list.push("=> 1 0 0 0 0".to_string()),
        7 => list.push("=> 1 0 0 0 0 0 0 => 1".to_string()),
        8 => list.push("=> 1 way 0".to_string()),
        9 if ["link", "operator", "keepalive", "way", "name", "ticks"].contains(&&first[..]) => {
            list.pop();
        }
        _ => list.push("*".to_string()),
    }
    list.join(" ")
}

/// The text with one line damaged, and that line's number.
fn damaged(chance: &mut Chance, text: &str) -> (String, usize) {
    let records = record_lines(text);
    let &(place, words) = chance.pick(&records);
    let bad = damage(chance, words);
    let lines = text.lines().enumerate();
    let lines = lines.map(|(at, line)| if at == place { bad.as_str() } else { line });
    (lines.collect::<Vec<_>>().join("\n"), place + 1)
}

/// A file of this test, removed at its end.
struct File(PathBuf);

impl Drop for File {
    fn drop(&mut self) {
        let _ = fs::remove_file(&self.0);
    }
}

/// What `./drill --text` says to a file with this content: exit status, output, errors.
fn drill(file: &File, content: &[u8]) -> (u8, String, String) {
    // A new file each time: some file systems wait for the disk when an old one is written over.
    let _ = fs::remove_file(&file.0);
    fs::write(&file.0, content).unwrap();
    let (mut output, mut errors) = (Vec::new(), Vec::new());
    let arguments = ["--text".to_string(), file.0.display().to_string()];
    let status = perform(arguments, &mut output, &mut errors);
    let text = |bytes: Vec<u8>| String::from_utf8(bytes).unwrap();
    (status, text(output), text(errors))
}

#[test]
fn damaged_texts_are_told_with_their_line() {
    let texts = texts();
    let file = File(env::temp_dir().join(format!("damaged-{}.drill", std::process::id())));
    let mut chance = Chance(1);
    for number in 0..DAMAGED {
        let (text, line) = damaged(&mut chance, chance_text(&texts, number));
        let (status, output, errors) = drill(&file, text.as_bytes());
        assert_eq!((status, &output[..]), (2, ""), "{number}\n{text}");
        let told = format!(", line {line}: ");
        assert!(
            errors.starts_with("drill: ") && errors.contains(&told),
            "{told}\n{errors}\n{text}"
        );
        assert!(errors.contains(" where this could stand: "), "{errors}");
    }
}

fn chance_text(texts: &[String], number: u64) -> &str {
    let place = usize::try_from(number).unwrap() % texts.len();
    &texts[place]
}

#[test]
fn shaken_texts_are_read_or_told_and_never_a_panic() {
    let texts = texts();
    let mut chance = Chance(2);
    let mut refused = 0;
    for number in 0..SHAKEN {
        let mut bytes = chance_text(&texts, number).as_bytes().to_vec();
        for _ in 0..1 + chance.below(6) {
            shake(&mut chance, &mut bytes);
        }
        match Text::read(&bytes) {
            // A count that grew by a digit or six says nothing that a small one does not.
            Ok(text) if text.lines.iter().any(is_long) => {}
            Ok(text) => {
                let written = writing::text(&text.bytes());
                let again = Text::read(written.as_bytes()).unwrap();
                assert_eq!(again.bytes(), text.bytes());
            }
            Err(mistakes) => {
                refused += 1;
                assert!(mistakes
                    .iter()
                    .all(|mistake| mistake.to_string().contains(" where this could stand: ")));
            }
        }
    }
    assert!(refused > SHAKEN / 3, "{refused}");
}

fn is_long(line: &Line) -> bool {
    line.run.as_ref().is_some_and(|run| run.times > 10_000)
}

fn shake(chance: &mut Chance, bytes: &mut Vec<u8>) {
    if bytes.is_empty() {
        return;
    }
    let at = chance.below(bytes.len());
    let any = u8::try_from(chance.below(256)).unwrap();
    match chance.below(6) {
        0 => bytes[at] = any,
        1 => bytes.insert(at, *chance.pick(b" \n\t#=>.*-0A")),
        2 => drop(bytes.remove(at)),
        3 => bytes.truncate(at),
        4 => bytes[at] ^= 1 << chance.below(8),
        _ => {
            let end = (at + chance.below(40)).min(bytes.len());
            let copy = bytes[at..end].to_vec();
            let to = chance.below(bytes.len());
            bytes.splice(to..to, copy);
        }
    }
}

#[test]
fn every_word_is_known() {
    let text = Text::read(EVERY_WORD.as_bytes()).unwrap();
    assert_eq!(
        Text::read(writing::text(&text.bytes()).as_bytes())
            .unwrap()
            .bytes(),
        text.bytes()
    );
}
