//! Words beside each line: which record it was, what became of it, and where the node stands.

use std::collections::BTreeMap;

use crate::codes::{request, REPLIES};
use crate::names::Names;
use crate::record::Record;
use crate::records::{Report, Settings};
use crate::said::{Answer, Full, Said, Way};
use crate::stations::Stay;
use crate::told::{Play, Told};
use crate::writing::words;

/// A row of the table: the line, the record, what became of it, where the node stands.
struct Row([String; 4]);

/// Cells wider than this do not widen their column.
const WIDEST: usize = 66;

/// The drill's lines with words beside them, one by one; `stays` tells who comes and goes. Ticks and keepalives whose lines are alike but for the number
/// are one row. Rows are made twice, so that a long drill needs no room for them.
pub fn say(play: &Play, names: &Names, stays: &[Stay], each: &mut dyn FnMut(&str) -> bool) {
    let moves = moves(stays, names);
    let rows = || {
        let alike = play.told.chunk_by(is_alike);
        let rows = alike.scan(0, |place, group| {
            let moves = moves.get(place).map_or("", String::as_str);
            let row = rows_of(group, *place == 0, moves, names);
            *place += group.len();
            Some(row)
        });
        rows.chain(play.beyond.iter().map(|line| beyond(line)))
    };
    let mut widths = [0; 3];
    for row in rows() {
        for (width, cell) in widths.iter_mut().zip(&row.0) {
            let letters = cell.chars().count();
            *width = if letters > WIDEST {
                *width
            } else {
                letters.max(*width)
            };
        }
    }
    for row in rows() {
        if !each(&row.text(widths)) {
            return;
        }
    }
}

/// Ticks and keepalives that leave all as it is.
fn is_alike(one: &Told, next: &Told) -> bool {
    let is_time = |told: &Told| {
        let passes = matches!(told.record, Record::Tick | Record::Ticks(_));
        passes || matches!(told.record, Record::Keepalive(0 | 1))
    };
    let answer = |told: &Told| match Said::of(told.line.as_deref()?)? {
        Said::Line(_, Answer::Full(full)) if full.result == 0 && full.reports == 0 => Some(full),
        _ => None,
    };
    let same = answer(one).is_some() && answer(one) == answer(next);
    same && is_time(one) && is_time(next)
}

/// The row of one record, or of several that are alike.
fn rows_of(group: &[Told], is_first: bool, moves: &str, names: &Names) -> Row {
    let [first, .., last] = group else {
        let one = group
            .iter()
            .map(|told| row(told, is_first, moves, names))
            .next();
        return one.unwrap_or_else(|| beyond(""));
    };
    let Row([line, _, result, stand]) = row(first, is_first, moves, names);
    let number = |line: &str| line.split(' ').next().unwrap_or("").to_string();
    let to = number(last.line.as_deref().unwrap_or(""));
    let (from, rest) = line.split_once(' ').unwrap_or((&line, ""));
    Row([format!("{from}..{to} {rest}"), time(group), result, stand])
}

/// Ticks and keepalives in words. Where ticks share a record, the number of records is told.
fn time(group: &[Told]) -> String {
    let ticks = group.iter().filter_map(|told| match told.record {
        Record::Tick => Some(1),
        Record::Ticks(count) => Some(usize::from(count)),
        _ => None,
    });
    let (ticks, records) = ticks.fold((0, 0), |(ticks, records), count| {
        (ticks + count, records + 1)
    });
    let shared = match records {
        _ if ticks == records => String::new(),
        1 => " in 1 record".to_string(),
        records => format!(" in {records} records"),
    };
    match (ticks, group.len() - records) {
        (ticks, 0) if shared.is_empty() => format!("tick {ticks}"),
        (ticks, 0) => format!("{ticks} ticks{shared}"),
        (0, keepalives) => format!("{keepalives} keepalives"),
        (ticks, keepalives) => format!("{ticks} ticks{shared}, {keepalives} keepalives"),
    }
}

/// A line that no record accounts for; an empty drill has one.
fn beyond(line: &str) -> Row {
    let result = match Said::of(line) {
        Some(Said::Settings(refusal)) => refused_settings(refusal),
        _ => String::new(),
    };
    Row([
        line.to_string(),
        "no record".to_string(),
        result,
        String::new(),
    ])
}

/// Who joins and who leaves with each record.
fn moves(stays: &[Stay], names: &Names) -> BTreeMap<usize, String> {
    let mut moves = BTreeMap::<usize, String>::new();
    for stay in stays {
        let name = names.of(stay.address);
        *moves.entry(stay.from).or_default() += &format!(", {name} joins");
        if let Some(to) = stay.to {
            *moves.entry(to).or_default() += &format!(", {name} leaves");
        }
    }
    moves
}

impl Row {
    fn text(&self, [one, two, three]: [usize; 3]) -> String {
        let [line, record, result, stand] = &self.0;
        let text = format!("{line:one$}  | {record:two$}  | {result:three$}  | {stand}");
        let text = text.trim_end_matches([' ', '|']);
        format!("{text}\n")
    }
}

fn row(told: &Told, is_first: bool, moves: &str, names: &Names) -> Row {
    let line = told.line.clone().unwrap_or_default();
    let record = words(&told.record, names);
    let said = told.line.as_deref().map(Said::of);
    let (result, stand) = match (said, &told.record) {
        (None, Record::Settings(settings)) if is_first => (times(settings), String::new()),
        (None, Record::ShortSettings(_)) if is_first => (times(&Settings::DEFAULT), String::new()),
        (None, _) => ("not read: the drill has ended".to_string(), String::new()),
        (Some(None), _) => ("no line of the program".to_string(), String::new()),
        (Some(Some(Said::Settings(refusal))), _) => (refused_settings(refusal), String::new()),
        (Some(Some(Said::Line(_, answer))), record) => answered(&answer, record),
    };
    Row([line, record, result, stand + moves])
}

fn answered(answer: &Answer, record: &Record) -> (String, String) {
    match answer {
        Answer::Full(full) => (result(full.result, record), stand(full)),
        Answer::Way(way) => (chosen(way), String::new()),
        Answer::Short(2) => (
            "cut, or a length outside 2 to 1,033 (2): the drill ends".into(),
            String::new(),
        ),
        Answer::Short(refusal) => (
            format!("wrong length or odd address ({refusal}): not answered"),
            String::new(),
        ),
    }
}

/// The way chosen, how long it is, and where on it the trouble is.
fn chosen(way: &Way) -> String {
    let reply = way.reply;
    let word = REPLIES.get(usize::from(reply)).unwrap_or(&"unknown reply");
    if reply > 1 {
        return format!("{word} ({reply})");
    }
    let hops = match way.hops {
        1 => "1 hop".to_string(),
        hops => format!("{hops} hops"),
    };
    let trouble = match way.worst {
        0 => "all idle".to_string(),
        worst => format!("worst {} on span {}", request(worst), way.span),
    };
    format!("{word} ({reply}), {hops}, {trouble}")
}

/// The settings as times, so that nobody has to multiply.
pub(crate) fn times(settings: &Settings) -> String {
    let Settings {
        level,
        wtr,
        keepalive,
        fast,
        ..
    } = settings;
    let hold_off = 10 * u32::from(settings.hold_off);
    let slow = 50 * u32::from(settings.slow);
    let forget = 100 * u32::from(settings.forget);
    format!("level {level}, WTR {wtr} s, hold-off {hold_off} ms, keepalive {keepalive} ms, reports {fast} and {slow} ms, forget {forget} ms")
}

/// Why settings were refused.
pub fn refused_settings(refusal: u8) -> String {
    let why = match refusal {
        2 => "cut, empty, or a length outside 2 to 1,033",
        3 => "not a settings record",
        4 => "wrong length, a setting out of range, or an odd address",
        _ => "unknown",
    };
    format!("{why} ({refusal}): the drill ends")
}

/// What a number returned means, for this record.
fn result(result: u8, record: &Record) -> String {
    let (what, then) = match result {
        0 => ("taken", taken(record)),
        1 => ("no room", "refused"),
        2 => ("wrong length", "refused"),
        3 => ("not an event", "refused"),
        4 => (bad_field(record), "refused"),
        5 => ("own address heard", "refused"),
        6 => ("hop above 63", "refused"),
        7 => ("attributes of a station not in the table", "refused"),
        8 => ("block malformed", "refused"),
        20 => ("wrong ringlet", marked(record)),
        21 => ("span down", "nothing stored"),
        22 => ("old report", "nothing stored"),
        24 => ("block set aside", "the station is behind"),
        _ => ("unknown result", ""),
    };
    match then {
        "" => format!("{what} ({result})"),
        then => format!("{what} ({result}): {then}"),
    }
}

/// Why a record was refused with 4: the first field of it that is out of range.
fn bad_field(record: &Record) -> &'static str {
    let is_odd = |address: u64| address >> 40 & 1 == 1;
    match record {
        Record::Bytes(_) => "wrong body length",
        Record::Link(2.., _)
        | Record::Keepalive(2..)
        | Record::Operator(2.., _)
        | Record::Report(Report { span: 2.., .. })
        | Record::Attributes(2.., ..) => "span above 1",
        Record::Link(..) => "unknown status",
        Record::Operator(..) => "unknown operator request",
        Record::Report(Report { ringlet: 2.., .. }) => "ringlet above 1",
        Record::Report(Report { ttl: 0, .. }) => "TTL 0",
        Record::Report(report) if is_odd(report.address) => "odd first address byte",
        Record::Report(_) => "reported request above 5",
        Record::Attributes(_, address, _) if is_odd(*address) => "odd first address byte",
        Record::Ticks(_) => "count of ticks not from 1 to 1,000",
        _ => "field out of range",
    }
}

fn taken(record: &Record) -> &'static str {
    match record {
        Record::Attributes(..) => "attributes replaced",
        _ => "",
    }
}

fn marked(record: &Record) -> &'static str {
    match record {
        Record::Report(Report { ttl: 255, .. }) => "nothing stored, cable mark set",
        _ => "nothing stored",
    }
}

/// Requests by name, stations, and the report sent; of several the last has the own sequence.
fn stand(full: &Full) -> String {
    let [west, east] = full.requests.map(request);
    let stations = match full.stations {
        0 => "no station".to_string(),
        1 => "1 station".to_string(),
        stations => format!("{stations} stations"),
    };
    let sent = match full.reports {
        0 => String::new(),
        1 => format!(", report {} sent", full.sequence),
        reports => format!(", {reports} reports sent, the last {}", full.sequence),
    };
    format!("west {west}, east {east}, {stations}{sent}")
}

#[cfg(test)]
mod tests {
    use super::*;
    use crate::reading::Text;
    use crate::stations::follow;
    use crate::told::play;

    fn said(source: &str, printed: &str) -> String {
        let text = Text::read(source.as_bytes()).unwrap();
        let play = play(&text.bytes(), printed);
        let stays = follow(&play, &play).unwrap_or_default();
        let mut said = String::new();
        say(&play, &text.names, &stays, &mut |row| {
            said += row;
            true
        });
        said
    }

    #[test]
    fn each_line_has_its_words() {
        let source = "name B 02-00-00-00-00-02\nsettings short\nreport west from B hop 1 sequence 134\nway B\noperator east fs\n";
        let said = said(source, "1 22 0 0 2 1 0\n2 way 0 1 0 1\n3 0 0 5 3 1 1\n");
        for words in [
            "keepalive 3 ms, reports 10 and 100 ms, forget 1000 ms",
            "| report west from B hop 1 sequence 134 idle idle  | old report (22): nothing stored  | west IDLE, east IDLE, 1 station\n",
            "| west (0), 1 hop, all idle\n",
            "| taken (0)                        | west IDLE, east FS, 1 station, report 3 sent\n",
        ] {
            assert!(said.contains(words), "{words}\n{said}");
        }
    }

    /// A record with its line, and what is said of it.
    const WORDS: &str = "\
tick => 1 0 0 0 0 0 0 | taken (0)
attributes west from 02-00-00-00-00-02 => 1 0 0 0 0 1 0 | taken (0): attributes replaced
bytes 02 00 63 00 => 1 3 0 0 0 0 0 | not an event (3): refused
link 2 good => 1 4 0 0 0 0 0 | span above 1 (4): refused
keepalive 2 => 1 4 0 0 0 0 0 | span above 1 (4): refused
operator 255 ms => 1 4 0 0 0 0 0 | span above 1 (4): refused
report 2 from 02-00-00-00-00-02 hop 1 => 1 4 0 0 0 0 0 | span above 1 (4): refused
attributes 2 from 02-00-00-00-00-02 => 1 4 0 0 0 0 0 | span above 1 (4): refused
link west 3 => 1 4 0 0 0 0 0 | unknown status (4): refused
operator west sf => 1 4 0 0 0 0 0 | unknown operator request (4): refused
report west from 02-00-00-00-00-02 hop 1 ringlet 2 => 1 4 0 0 0 0 0 | ringlet above 1 (4): refused
report west from 02-00-00-00-00-02 ttl 0 => 1 4 0 0 0 0 0 | TTL 0 (4): refused
report west from 03-00-00-00-00-02 hop 1 => 1 4 0 0 0 0 0 | odd first address byte (4): refused
report west from 02-00-00-00-00-02 hop 1 6 0 => 1 4 0 0 0 0 0 | reported request above 5 (4): refused
attributes east from 03-00-00-00-00-02 => 1 4 0 0 0 0 0 | odd first address byte (4): refused
bytes 03 00 01 00 00 => 1 4 0 0 0 0 0 | wrong body length (4): refused
ticks 30 => 1 0 0 0 0 0 3 | taken (0)
ticks 0 => 1 4 0 0 0 0 0 | count of ticks not from 1 to 1,000 (4): refused
ticks 1001 => 1 4 0 0 0 0 0 | count of ticks not from 1 to 1,000 (4): refused
bytes 03 00 07 00 01 => 1 4 0 0 0 0 0 | wrong body length (4): refused
bytes 04 00 08 00 01 00 => 1 3 0 0 0 0 0 | not an event (3): refused
report west from 02-00-00-00-00-02 hop 1 => 1 5 0 0 0 0 0 | own address heard (5): refused
report west from 02-00-00-00-00-02 hop 64 => 1 6 0 0 0 0 0 | hop above 63 (6): refused
attributes east from 02-00-00-00-00-02 => 1 7 0 0 0 0 0 | attributes of a station not in the table (7): refused
attributes east from 02-00-00-00-00-02 => 1 8 0 0 0 1 0 | block malformed (8): refused
report west from 02-00-00-00-00-02 hop 2 ringlet 1 => 1 20 0 0 0 0 0 | wrong ringlet (20): nothing stored
report west from 02-00-00-00-00-02 hop 1 ringlet 1 => 1 20 4 0 1 0 1 | wrong ringlet (20): nothing stored, cable mark set
report west from 02-00-00-00-00-02 hop 1 => 1 21 4 0 1 0 0 | span down (21): nothing stored
report west from 02-00-00-00-00-02 hop 1 => 1 22 0 0 0 1 0 | old report (22): nothing stored
report west from 02-00-00-00-00-02 hop 1 => 1 23 0 0 0 63 0 | unknown result (23)
report west from 02-00-00-00-00-02 hop 1 => 1 0 0 0 0 126 0 | taken (0)
attributes west from 02-00-00-00-00-02 => 1 24 0 0 0 1 0 | block set aside (24): the station is behind
way 02-00-00-00-00-02 => 1 way 0 1 0 1 | west (0), 1 hop, all idle
way 02-00-00-00-00-02 => 1 way 0 2 0 1 | west (0), 2 hops, all idle
way 02-00-00-00-00-02 => 1 way 0 3 3 2 | west (0), 3 hops, worst SD on span 2
way 02-00-00-00-00-02 => 1 way 1 1 2 1 | east (1), 1 hop, worst MS on span 1
way 02-00-00-00-00-02 => 1 way 1 63 1 40 | east (1), 63 hops, worst WTR on span 40
way 02-00-00-00-00-02 => 1 way 2 0 0 0 | no way (2)
way 02-00-00-00-00-02 => 1 way 3 0 0 0 | not in the table (3)
way 03-00-00-00-00-02 => 1 4 | wrong length or odd address (4): not answered
bytes 00 00 => 1 2 | cut, or a length outside 2 to 1,033 (2): the drill ends
";

    #[test]
    fn every_number_has_its_words() {
        for row in WORDS.lines() {
            let (record, words) = row.split_once(" | ").unwrap();
            let (_, line) = record.split_once(" => ").unwrap();
            let said = said(&format!("settings short\n{record}\n"), &format!("{line}\n"));
            let row = said.lines().nth(1).unwrap();
            assert_eq!(row.split('|').nth(2).unwrap().trim(), words, "{row}");
        }
        let refusals = [
            (2, "cut, empty"),
            (3, "not a settings record"),
            (4, "wrong length"),
        ];
        for (refusal, words) in refusals {
            let said = said("tick\n", &format!("settings {refusal}\n"));
            assert!(said.contains(words) && said.contains(&format!("({refusal}): the drill ends")));
        }
    }

    #[test]
    fn time_in_which_nothing_changes_is_one_row() {
        let lines = |numbers: std::ops::RangeInclusive<u64>, rest: &str| {
            let lines = numbers.map(|number| format!("{number} {rest}\n"));
            lines.collect::<String>()
        };
        let printed = lines(1..=5, "0 0 0 0 0 0")
            + &lines(6..=8, "0 0 0 0 0 1")
            + &lines(9..=11, "0 0 0 0 0 0");
        let said = said(
            "settings short\ntick 3 keepalive 3\ntick 3\ntick 3\n",
            &printed,
        );
        let rows: Vec<&str> = said.lines().skip(1).collect();
        let starts = [
            "1..5 0 0 0 0 0 0",
            "6 0 0 0 0 0 1",
            "7 0 0 0 0 0 1",
            "8 0 0 0 0 0 1",
            "9..11 0 0 0 0 0 0",
        ];
        assert_eq!(rows.len(), starts.len(), "{said}");
        assert!(
            rows.iter()
                .zip(starts)
                .all(|(row, start)| row.starts_with(start)),
            "{said}"
        );
        assert!(
            rows[0].contains("| 3 ticks, 2 keepalives ") && rows[4].contains("| tick 3 "),
            "{said}"
        );
    }

    #[test]
    fn ticks_that_share_a_record_are_time_too() {
        let said = said(
            "settings short\nticks 30\nticks 2\nkeepalive west\ntick\nticks 30\nticks 30\nticks 0\nticks 5\nticks 9\n",
            "1 0 0 0 0 0 0\n2 0 0 0 0 0 0\n3 0 0 0 0 0 0\n4 0 0 0 0 0 0\n5 0 0 0 0 0 3\n6 0 4 0 1 0 4\n7 4 4 0 1 0 0\n8 0 4 0 1 0 0\n9 0 4 0 1 0 0\n",
        );
        let rows: Vec<&str> = said.lines().skip(1).collect();
        let words = [
            (
                "1..4 0 0 0 0 0 0 ",
                "| 33 ticks in 3 records, 1 keepalives ",
            ),
            ("5 0 0 0 0 0 3 ", "| ticks 30 "),
            ("6 0 4 0 1 0 4 ", "| ticks 30 "),
            ("7 4 4 0 1 0 0 ", "| ticks 0 "),
            ("8..9 0 4 0 1 0 0 ", "| 14 ticks in 2 records "),
        ];
        assert_eq!(rows.len(), words.len(), "{said}");
        for (row, (line, record)) in rows.iter().zip(words) {
            assert!(row.starts_with(line) && row.contains(record), "{said}");
        }
        assert!(rows[1].ends_with("no station, 3 reports sent, the last 0"));
        assert!(rows[2].ends_with("no station, 4 reports sent, the last 1"));
    }

    #[test]
    fn settings_are_told_in_times() {
        let source = "settings level 1 wtr 1440 hold-off 20 keepalive 50 fast 20 slow 200 forget 600\ntick\nbytes 00 00\nsettings short\n";
        let said = said(source, "1 0 0 0 0 0 0\n2 2\n");
        let words = "level 1, WTR 1440 s, hold-off 200 ms, keepalive 50 ms, reports 20 and 10000 ms, forget 60000 ms";
        assert!(said.lines().next().unwrap().ends_with(words), "{said}");
        assert_eq!(
            said.matches("WTR").count(),
            1,
            "settings behind the end are not read\n{said}"
        );
        assert!(super::tests::said("bytes\n", "settings 2\n").contains("no record  | cut, empty"));
    }

    #[test]
    fn who_joins_and_leaves_is_told() {
        let source = "name B 02-00-00-00-00-02\nname C 02-00-00-00-00-03\nsettings short\nreport west from B hop 1\nreport west from C hop 1\nlink west failed\n";
        let said = said(source, "1 0 0 0 0 1 0\n2 0 0 0 0 1 0\n3 0 4 0 1 0 1\n");
        for words in [
            "1 station, B joins\n",
            "1 station, B leaves, C joins\n",
            "report 1 sent, C leaves\n",
        ] {
            assert!(said.contains(words), "{words}\n{said}");
        }
    }

    #[test]
    fn the_node_is_told_by_name() {
        let said = said(
            "settings short\ntick 6\n",
            "1 0 0 1 0 0 0\n2 0 2 3 7 1 1\n3 0 4 5 8 63 0\n4 0 0 0 0 0 0\n",
        );
        for words in [
            "west IDLE, east WTR, no station\n",
            "west MS, east SD, 1 station, report 7 sent\n",
            "west SF, east FS, 63 stations\n",
            "| not read: the drill has ended\n",
        ] {
            assert!(said.contains(words), "{words}\n{said}");
        }
    }
}
