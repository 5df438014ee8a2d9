//! The pictures of all drills, from the lines that they expect; the program is not needed.

use std::collections::BTreeSet;
use std::fs;
use std::path::{Path, PathBuf};

use text::picture::{draw, note, Sheet};
use text::reading::Text;
use text::record::Record;
use text::said::{Answer, Said};
use text::source::Source;
use text::stations::{follow, without_operators};
use text::told::{play, Play};

/// The worked drill with the lines of the rules.
const WORKED: &str = "\
settings address 02-00-00-00-00-01 wtr 0 keepalive 50
link west failed => 1 0 4 0 1 0 1
link west good => 2 0 0 0 2 0 1
report west from 02-00-00-00-00-02 hop 1 sequence 7 => 3 0 0 0 2 1 0
report west from 02-00-00-00-00-02 hop 1 sequence 135 => 4 0 0 0 2 1 0
report west from 02-00-00-00-00-02 hop 1 sequence 134 => 5 22 0 0 2 1 0
operator west ms => 6 0 2 0 3 1 1
link west degraded => 7 0 3 0 4 1 1
tick => 8 0 3 0 4 1 0
";

fn top() -> PathBuf {
    Path::new(env!("CARGO_MANIFEST_DIR")).join("../..")
}

/// A drill and the lines that the program prints for it.
struct Drill {
    name: String,
    source: Source,
    lines: String,
}

impl Drill {
    fn of(name: &str, file: Vec<u8>) -> Drill {
        let source = Source::of(name, file).unwrap();
        let lines = match &source {
            Source::Text(text) => text.expected(),
            Source::Bytes(_) => panic!("{name} is no text"),
        };
        let name = name.to_string();
        Drill {
            name,
            source,
            lines,
        }
    }

    fn named(name: &str) -> Drill {
        Drill::of(name, fs::read(top().join("drills").join(name)).unwrap())
    }

    fn play(&self) -> Play {
        play(&self.source.bytes(), &self.lines)
    }

    /// An operator's request below SF hides no SF, so that the lines of both runs say the same of it.
    fn hides_nothing(&self) -> bool {
        let play = self.play();
        let hides = play
            .told
            .iter()
            .any(|told| matches!(told.record, Record::Operator(_, 5)));
        !hides
    }

    fn draw(&self) -> Result<String, String> {
        let play = self.play();
        draw(&Sheet {
            name: &self.name,
            note: note(&self.source).as_deref(),
            names: &self.source.names(),
            play: &play,
            quiet: &play,
        })
    }
}

/// All drills of `drills/`.
fn all() -> Vec<Drill> {
    let files = fs::read_dir(top().join("drills")).unwrap();
    let names = files.map(|file| file.unwrap().file_name().into_string().unwrap());
    let names: BTreeSet<String> = names.filter(|name| name.ends_with(".drill")).collect();
    let drills: Vec<Drill> = names.iter().map(|name| Drill::named(name)).collect();
    assert!(drills.len() >= 100, "the drills are here");
    drills
}

/// The pictures of all drills whose lines tell enough.
fn pictures() -> Vec<(Drill, String)> {
    let drills = all().into_iter().filter(Drill::hides_nothing);
    let drawn = drills.map(|drill| {
        let picture = drill
            .draw()
            .unwrap_or_else(|why| panic!("{}: {why}", drill.name));
        (drill, picture)
    });
    drawn.collect()
}

/// What is drawn above the legend.
fn strips(picture: &str) -> &str {
    picture.split("<g class=\"legend\">").next().unwrap()
}

/// The elements that have this class first.
fn with_class<'p>(picture: &'p str, class: &str) -> Vec<&'p str> {
    let wanted = [format!("class=\"{class}\""), format!("class=\"{class} ")];
    let lines = picture
        .lines()
        .filter(|line| wanted.iter().any(|wanted| line.contains(&wanted[..])));
    lines.collect()
}

/// Takes a document apart: tags that match, attributes in quotes, no bare '&'.
fn is_well_formed(document: &str) -> Result<(), String> {
    let mut open: Vec<&str> = Vec::new();
    let mut rest = document;
    while let Some(at) = rest.find('<') {
        is_text(&rest[..at])?;
        let end = rest.find('>').ok_or("a tag without an end")?;
        let tag = &rest[at + 1..end];
        rest = &rest[end + 1..];
        if let Some(name) = tag.strip_prefix('/') {
            let opened = open.pop();
            if opened != Some(name) {
                return Err(format!("</{name}> closes {opened:?}"));
            }
            continue;
        }
        let inner = tag.strip_suffix('/');
        let (name, attributes) = inner
            .unwrap_or(tag)
            .split_once(' ')
            .unwrap_or((inner.unwrap_or(tag), ""));
        if attributes.matches('"').count() % 2 != 0
            || attributes.matches("=\"").count() * 2 != attributes.matches('"').count()
        {
            return Err(format!("attributes of <{tag}>"));
        }
        if inner.is_none() {
            open.push(name);
        } else if open.is_empty() {
            return Err("more than one root".to_string());
        }
    }
    if !open.is_empty() || !rest.trim().is_empty() {
        return Err(format!("{open:?} not closed, then '{rest}'"));
    }
    Ok(())
}

fn is_text(text: &str) -> Result<(), String> {
    let entities = ["&amp;", "&lt;", "&gt;", "&quot;"];
    let bare = text.match_indices('&').find(|(at, _)| {
        !entities
            .iter()
            .any(|entity| text[*at..].starts_with(entity))
    });
    let control = text
        .chars()
        .find(|letter| letter.is_control() && *letter != '\n');
    match (bare, control) {
        (None, None) => Ok(()),
        _ => Err(format!("'{text}'")),
    }
}

#[test]
fn every_drill_is_drawn_well_formed_and_without_a_script() {
    let pictures = pictures();
    assert!(pictures.len() * 10 >= all().len() * 8);
    for (drill, picture) in pictures {
        is_well_formed(&picture).unwrap_or_else(|why| panic!("{}: {why}", drill.name));
        assert!(
            picture.starts_with("<svg ")
                && picture.contains("<title>")
                && picture.contains("<desc>")
        );
        for unwanted in ["<script", "href", "url(", "<image", "@import", "NaN", "inf"] {
            assert!(!picture.contains(unwanted), "{}: {unwanted}", drill.name);
        }
    }
}

#[test]
fn words_are_escaped() {
    let source = "# a <b> & \"c\" <script>\nsettings short\ntick => 1 0 0 0 0 0 0\n";
    let picture = Drill::of("<&\">\u{1}", source.as_bytes().to_vec())
        .draw()
        .unwrap();
    is_well_formed(&picture).unwrap();
    assert!(picture.contains("a &lt;b&gt; &amp; &quot;c&quot; &lt;script&gt;"));
    assert!(picture.contains("<title>&lt;&amp;&quot;&gt;\u{fffd}</title>"));
}

#[test]
fn the_bands_of_the_worked_drill_have_their_requests() {
    let picture = Drill::of("worked", WORKED.into()).draw().unwrap();
    let areas = with_class(strips(&picture), "request");
    let codes: Vec<&str> = areas
        .iter()
        .map(|area| area.split('"').nth(1).unwrap())
        .collect();
    let wanted = ["sf", "idle", "ms", "sd", "idle"].map(|code| format!("request {code}"));
    assert_eq!(codes, wanted);
    let words: Vec<&str> = ["SF", "IDLE", "MS", "SD", "22"].to_vec();
    for word in words {
        assert!(
            strips(&picture).contains(&format!(">{word}</text>")),
            "{word}"
        );
    }
}

#[test]
fn every_area_has_its_code() {
    for (drill, picture) in pictures() {
        let strips = strips(&picture);
        let codes = with_class(strips, "code").len() + with_class(strips, "up").len();
        assert_eq!(with_class(strips, "request").len(), codes, "{}", drill.name);
    }
}

#[test]
fn every_report_sent_has_its_mark() {
    let mut marks = 0;
    for (drill, picture) in pictures() {
        let lines = drill.lines.lines().filter_map(Said::of);
        let sent = lines.map(|said| match said {
            Said::Line(_, Answer::Full(full)) => usize::from(full.reports),
            _ => 0,
        });
        let drawn = with_class(strips(&picture), "sent").len();
        assert_eq!(drawn, sent.sum::<usize>(), "{}", drill.name);
        marks += drawn;
    }
    assert!(marks > 500, "{marks}");
}

#[test]
fn every_station_has_its_row() {
    for (drill, picture) in pictures() {
        let play = drill.play();
        let stays = follow(&play, &play).unwrap();
        let stations: BTreeSet<String> = stays
            .iter()
            .map(|stay| drill.source.names().of(stay.address))
            .collect();
        let rows = with_class(&picture, "station");
        let words = rows
            .iter()
            .map(|row| row.split(['>', '<']).nth(2).unwrap().to_string());
        assert_eq!(
            words.collect::<BTreeSet<String>>(),
            stations,
            "{}",
            drill.name
        );
    }
}

#[test]
fn the_full_ring_has_63_rows_and_the_same_picture_twice() {
    let drill = Drill::named("full_ring_wtr.drill");
    let picture = drill.draw().unwrap();
    let rows: BTreeSet<&str> = with_class(&picture, "station")
        .iter()
        .map(|row| row.split(['>', '<']).nth(2).unwrap())
        .collect();
    assert_eq!(rows.len(), 63);
    assert_eq!(picture, drill.draw().unwrap());
}

/// How far down a picture goes.
fn height(picture: &str) -> f64 {
    let (_, rest) = picture.split_once("viewBox=\"0 0 ").unwrap();
    let (size, _) = rest.split_once('"').unwrap();
    size.split_once(' ').unwrap().1.parse().unwrap()
}

#[test]
fn two_full_ringlets_have_126_rows_that_do_not_touch() {
    let drill = Drill::named("joined_west_then_east.drill");
    let picture = drill.draw().unwrap();
    let rows = with_class(&picture, "station");
    let names: BTreeSet<&str> = rows
        .iter()
        .map(|row| row.split(['>', '<']).nth(2).unwrap())
        .collect();
    assert_eq!(names.len(), 126);
    // The last strip has all of them, one below the other.
    let y = |row: &&str| -> f64 {
        let (_, rest) = row.split_once(" y=\"").unwrap();
        rest.split_once('"').unwrap().0.parse().unwrap()
    };
    let last: Vec<f64> = rows[rows.len() - 126..].iter().map(y).collect();
    assert!(last.windows(2).all(|pair| pair[1] - pair[0] >= 8.0));
    assert!(*last.last().unwrap() < height(&picture));
    assert!(picture.contains(">E63</text>") && picture.contains(">W63</text>"));
}

/// A picture that is kept beside or apart from its drill, and drawn again.
fn is_kept(drill: &Drill, kept: &str) -> String {
    let drawn = drill.draw().unwrap();
    let file = fs::read_to_string(top().join(kept)).unwrap();
    assert!(
        drawn == file,
        "look at it, then: ./drill --picture {kept} drills/{}",
        drill.name
    );
    file
}

#[test]
fn the_picture_in_docs_is_that_of_the_night_copy() {
    let kept = is_kept(&Drill::named("night_copy.drill"), "docs/night.svg");
    for answer in ["west", "east"] {
        assert!(kept.contains(&format!(">{answer}</text>")));
    }
}

#[test]
fn time_goes_on_in_the_next_strip() {
    let kept = is_kept(
        &Drill::named("swinging_link.drill"),
        "harness/text/tests/swinging_link.svg",
    );
    assert!(kept.contains("196 of 300 ticks") && kept.contains("104 of 300 ticks"));
}

#[test]
fn the_trouble_on_a_way_is_drawn_in_its_arrow() {
    let kept = is_kept(
        &Drill::named("trouble_turns.drill"),
        "harness/text/tests/trouble_turns.svg",
    );
    for trouble in ["SD span 1", "MS span 1", "WTR span 1", "WTR span 2"] {
        assert!(kept.contains(&format!(">{trouble}</text>")), "{trouble}");
    }
}

#[test]
fn every_part_is_drawn_as_it_was_when_somebody_looked() {
    let drill = Drill::named("every_part.drill");
    let kept = is_kept(&drill, "harness/text/tests/every_part.svg");
    for part in [
        "not in",
        "no way",
        "22",
        "24",
        "20",
        "21",
        "FS",
        "WTR",
        "SF",
        "SD",
        "MS",
        "the drill ends",
    ] {
        assert!(kept.contains(part), "{part}");
    }
}

#[test]
fn an_operator_hides_what_the_second_run_shows() {
    let source = "\
settings address 02-00-00-00-00-01 keepalive 50
report west from 02-00-00-00-00-02 hop 1 => 1 0 0 0 0 1 0
operator west fs => 2 0 5 0 1 1 1
link west failed => 3 0 5 0 1 0 0
";
    let drill = Drill::of("hidden", source.into());
    let loud = drill.play();
    let quiet = play(
        &without_operators(&loud),
        "1 0 0 0 0 1 0\n2 0 0 0 0 1 0\n3 0 4 0 1 0 1\n",
    );
    assert_eq!(quiet.told[2].record, Record::Operator(0, 0));
    let refused = play(&[2, 0, 1, 0, 4, 0, 4, 0, 0, 4], "1 4 0 0 0 0 0\n");
    assert_eq!(
        without_operators(&refused)[4..],
        [4, 0, 4, 0, 0, 4],
        "what was refused stays"
    );
    let stays = follow(&loud, &quiet).unwrap();
    assert_eq!((stays.len(), stays[0].from, stays[0].to), (1, 1, Some(3)));
    let why = drill.draw().unwrap_err();
    assert!(
        why.contains("line 3") && why.contains("0 stations are printed where 1 were followed"),
        "{why}"
    );
}

#[test]
fn hops_are_displaced_purged_and_forgotten() {
    let source = "\
settings address 02-00-00-00-00-01 keepalive 50 forget 2
report west from 02-00-00-00-00-02 hop 1 => 1 0 0 0 0 1 0
report east from 02-00-00-00-00-02 hop 5 => 2 0 0 0 0 1 0
report west from 02-00-00-00-00-03 hop 1 => 3 0 0 0 0 2 0
link east failed => 4 0 0 4 1 1 1
";
    let printed = Text::read(source.as_bytes()).unwrap().expected();
    let ticks: String = (5..=204)
        .map(|number| format!("{number} 0 0 4 1 {} 0\n", u8::from(number < 204)))
        .collect();
    let bytes = Text::read(format!("{source}tick 200\n").as_bytes())
        .unwrap()
        .bytes();
    let play = play(&bytes, &(printed + &ticks));
    let stays = follow(&play, &play).unwrap();
    let [first, second] = &stays[..] else {
        panic!("{stays:?}");
    };
    assert_eq!(first.hops, [(1, [1, 0]), (2, [1, 5]), (3, [0, 5])]);
    assert_eq!((first.from, first.to), (1, Some(4)));
    assert_eq!((second.from, second.to), (3, Some(204)));
}

#[test]
fn only_a_way_with_trouble_tells_of_it() {
    let source = "\
settings address 02-00-00-00-00-01 keepalive 50
report west from 02-00-00-00-00-02 hop 1 sd idle => 1 0 0 0 0 1 0
report west from 02-00-00-00-00-03 hop 2 => 2 0 0 0 0 2 0
way 02-00-00-00-00-03 => 3 way 0 2 3 2
way 02-00-00-00-00-02 => 4 way 0 1 0 1
operator west fs => 5 0 5 0 1 2 1
way 02-00-00-00-00-03 => 6 way 2 0 0 0
";
    let picture = Drill::of("trouble", source.into()).draw().unwrap();
    let words = with_class(strips(&picture), "way");
    let words: Vec<&str> = words
        .iter()
        .map(|element| element.split(['>', '<']).nth(2).unwrap())
        .collect();
    let wanted = ["-03", "west", "SD span 2", "-02", "west", "-03", "no way"];
    assert_eq!(words, wanted);
}

#[test]
fn ticks_that_share_a_record_are_drawn_as_time() {
    let source = "\
settings address 02-00-00-00-00-01 keepalive 50
link west good => 1 0 0 0 0 0 0
ticks 30 => 2 0 0 0 0 0 3
ticks 1001 => 3 4 0 0 0 0 0
ticks 10 => 4 0 0 0 0 0 1
tick => 5 0 0 0 0 0 0
ticks 60 => 6 0 4 4 1 0 6
";
    let picture = Drill::of("shared", source.into()).draw().unwrap();
    let strips = strips(&picture);
    assert_eq!(with_class(strips, "sent").len(), 10);
    for words in ["30 ticks", "71 ticks", "ticks 1001"] {
        assert!(strips.contains(&format!(">{words}</text>")), "{words}");
    }
    // The four with sequence 0, and of the last six the last; which of the others had it is not printed.
    assert_eq!(with_class(strips, "sequence").len(), 5);
}

#[test]
fn who_is_forgotten_or_purged_within_a_record_has_left() {
    let source = "\
settings address 02-00-00-00-00-01 keepalive 50 forget 2
report west from 02-00-00-00-00-02 hop 1 => 1 0 0 0 0 1 0
ticks 40 => 2 0 0 0 0 1 4
keepalive west => 3 0 0 0 0 1 0
report west from 02-00-00-00-00-03 hop 2 => 4 0 0 0 0 2 0
report east from 02-00-00-00-00-03 hop 2 => 5 0 0 0 0 2 0
ticks 20 => 6 0 0 4 1 2 2
ticks 139 => 7 0 0 4 1 2 9
ticks 2 => 8 0 0 4 1 1 0
";
    // What is printed has only to agree with itself here: nobody keeps the west span alive.
    let play = Drill::of("left", source.into()).play();
    let stays = follow(&play, &play).unwrap();
    let [first, second] = &stays[..] else {
        panic!("{stays:?}");
    };
    assert_eq!((first.from, first.to), (1, Some(8)));
    assert_eq!((second.from, second.to), (4, None));
    assert_eq!(second.hops, [(4, [2, 0]), (5, [2, 2]), (6, [2, 0])]);
}

#[test]
fn drills_without_records_are_drawn_too() {
    for (source, lines, word) in [
        (&[][..], "settings 2\n", "settings refused (2)"),
        (&[2, 0, 1, 0][..], "settings 3\n", "settings refused (3)"),
        (&[8, 0, 33, 0, 2, 0, 0, 0, 0, 1][..], "", "no records"),
        (
            &[8, 0, 33, 0, 2, 0, 0, 0, 0, 1, 7][..],
            "1 2\n",
            "the drill ends",
        ),
        (
            &[8, 0, 33, 0, 2, 0, 0, 0, 0, 1, 8, 0, 40, 0, 2, 0, 0, 0, 0, 2][..],
            "1 way 3 0 0 0\n",
            "not in",
        ),
    ] {
        let play = play(source, lines);
        let names = Source::Bytes(Vec::new()).names();
        let sheet = Sheet {
            name: "some",
            note: None,
            names: &names,
            play: &play,
            quiet: &play,
        };
        let picture = draw(&sheet).unwrap();
        is_well_formed(&picture).unwrap();
        assert!(picture.contains(word), "{picture}");
    }
}

#[test]
fn lines_that_do_not_belong_to_the_drill_are_refused() {
    for lines in [
        "",
        "1 0 0 0 0 0 0\n",
        "1 0 0 0 0 0 0\n3 0 0 0 0 0 0\n",
        "1 0 0 0 0 0 0\nhello\n",
        "1 0 0 0 0 0 0\n2 0 0 0 0 1 0\n",
        "1 0 0 0 0 0 0\n2 0 0 0 0 0 0\n3 0 0 0 0 0 0\n",
    ] {
        let text = Text::read(b"settings short\ntick 2\n").unwrap();
        let drill = Drill {
            name: "wrong".to_string(),
            source: Source::Text(text),
            lines: lines.to_string(),
        };
        assert!(drill.draw().is_err(), "{lines}");
    }
}

/// Numbers that look like chance and are the same each time.
struct Chance(u64);

impl Chance {
    fn below(&mut self, limit: u64) -> u64 {
        self.0 = self
            .0
            .wrapping_mul(6_364_136_223_846_793_005)
            .wrapping_add(1_442_695_040_888_963_407);
        (self.0 >> 33) % limit
    }
}

#[test]
fn no_bytes_and_no_lines_make_it_panic() {
    let mut chance = Chance(1);
    let mut drawn = 0;
    for _ in 0..2_000 {
        let mut records = vec![8, 0, 33, 0, 2, 0, 0, 0, 0, 1];
        let mut lines = String::new();
        for number in 1..=chance.below(30) {
            let kind = chance.below(9) as u8;
            let length = [0, 0, 2, 1, 2, 12, 8, 2, 3][usize::from(kind)] as u8;
            records.extend([length + 2, 0, if kind == 8 { 40 } else { kind }, 0]);
            records.extend((0..length).map(|_| chance.below(4) as u8));
            let result = [0, 0, 0, 4, 20, 24, 99][chance.below(7) as usize];
            let (west, east, sequence) = (chance.below(8), chance.below(6), chance.below(256));
            lines += &match chance.below(12) {
                0 => {
                    let [reply, hops, worst, span] =
                        [9, 256, 256, 256].map(|end| chance.below(end));
                    format!("{number} way {reply} {hops} {worst} {span}\n")
                }
                1 => format!("{number} 4\n"),
                _ => format!(
                    "{number} {result} {west} {east} {sequence} 0 {}\n",
                    chance.below(3)
                ),
            };
        }
        let play = play(&records, &lines);
        let names = Source::Bytes(Vec::new()).names();
        let picture = draw(&Sheet {
            name: "chance",
            note: Some(&lines),
            names: &names,
            play: &play,
            quiet: &play,
        });
        if let Ok(picture) = picture {
            is_well_formed(&picture).unwrap();
            drawn += 1;
        }
    }
    assert!(drawn > 100, "{drawn}");
}
