//! Each line of docs/DRILLS.md's table to its bytes, worked out by hand from the rules; and the messages for mistakes.

use text::hex;
use text::reading::Text;

const NAMES: &str = "name A 02-00-00-00-00-01\nname B 02-00-00-00-00-02\n";

/// Lines of a text and the bytes that they stand for.
const TABLE: &[(&str, &str)] = &[
    ("settings address A level 2 wtr 10 hold-off 0 keepalive 3 fast 10 slow 2 forget 10", "11 00 20 00 02 02 00 00 00 00 01 0A 00 00 03 0A 02 0A 00"),
    ("settings", "11 00 20 00 02 00 00 00 00 00 00 0A 00 00 03 0A 02 0A 00"),
    ("settings forget 600 slow 200 fast 20 keepalive 50 hold-off 20 wtr 1440 level 1 address FE-FF-FF-FF-FF-FF", "11 00 20 00 01 FE FF FF FF FF FF A0 05 14 32 14 C8 58 02"),
    ("settings short address A", "08 00 21 00 02 00 00 00 00 01"),
    ("settings short", "08 00 21 00 00 00 00 00 00 00"),
    ("tick", "02 00 01 00"),
    ("tick 3", "02 00 01 00 02 00 01 00 02 00 01 00"),
    ("tick 3 keepalive 2", "03 00 03 00 00 03 00 03 00 01 02 00 01 00 02 00 01 00 03 00 03 00 00 03 00 03 00 01 02 00 01 00"),
    ("ticks 30", "04 00 07 00 1E 00"),
    ("ticks 0", "04 00 07 00 00 00"),
    ("ticks 1", "04 00 07 00 01 00"),
    ("TICKS 256", "04 00 07 00 00 01"),
    ("ticks 1000", "04 00 07 00 E8 03"),
    ("ticks 1001", "04 00 07 00 E9 03"),
    ("ticks 65535", "04 00 07 00 FF FF"),
    ("link west good", "04 00 02 00 00 00"),
    ("link east degraded", "04 00 02 00 01 01"),
    ("LINK West FAILED", "04 00 02 00 00 02"),
    ("link 2 255", "04 00 02 00 02 FF"),
    ("keepalive east", "03 00 03 00 01"),
    ("operator west none", "04 00 04 00 00 00"),
    ("operator east ms", "04 00 04 00 01 02"),
    ("operator west fs", "04 00 04 00 00 05"),
    ("operator west sf", "04 00 04 00 00 04"),
    ("report west from B hop 1 sequence 7 idle sd", "0E 00 05 00 00 00 FF 02 00 00 00 00 02 07 00 03"),
    ("report east from B ttl 255 sequence 7 wtr ms", "0E 00 05 00 01 01 FF 02 00 00 00 00 02 07 01 02"),
    ("report west from B hop 63", "0E 00 05 00 00 00 C1 02 00 00 00 00 02 00 00 00"),
    ("report west from B hop 255", "0E 00 05 00 00 00 01 02 00 00 00 00 02 00 00 00"),
    ("report west from B ttl 0 sf fs", "0E 00 05 00 00 00 00 02 00 00 00 00 02 00 04 05"),
    ("report west from B hop 1 ringlet 1 6 0", "0E 00 05 00 00 01 FF 02 00 00 00 00 02 00 06 00"),
    ("report west from 03:00:00:00:00:02 hop 1 ringlet 7 sequence 255", "0E 00 05 00 00 07 FF 03 00 00 00 00 02 FF 00 00"),
    ("attributes west from B", "09 00 06 00 00 02 00 00 00 00 02"),
    ("attributes west from B weights 3 5", "0F 00 06 00 00 02 00 00 00 00 02 80 01 00 02 03 05"),
    ("attributes east from B reserved 1000 65535", "11 00 06 00 01 02 00 00 00 00 02 80 02 00 04 03 E8 FF FF"),
    ("attributes west from B weights 3 5 reserved 1000 0", "17 00 06 00 00 02 00 00 00 00 02 80 01 00 02 03 05 80 02 00 04 03 E8 00 00"),
    ("attributes west from B block 80 09 00 00", "0D 00 06 00 00 02 00 00 00 00 02 80 09 00 00"),
    ("attributes west from B block 8009 00*2", "0D 00 06 00 00 02 00 00 00 00 02 80 09 00 00"),
    ("way B", "08 00 28 00 02 00 00 00 00 02"),
    ("bytes 02 00 63 00 00*9", "02 00 63 00*10"),
    ("bytes", ""),
    ("  \t tick\t# a comment => 1 0 0 0 0 0 0", "02 00 01 00"),
    ("# tick", ""),
    ("", ""),
];

#[test]
fn each_line_stands_for_its_bytes() {
    for (line, wanted) in TABLE {
        let words = wanted.split(' ').filter(|word| !word.is_empty());
        let wanted: Vec<u8> = words.flat_map(|word| hex::bytes(word).unwrap()).collect();
        for end in ["", "\n", "\r\n"] {
            let text = Text::read(format!("\u{feff}{NAMES}{line}{end}").as_bytes()).unwrap();
            assert_eq!(text.bytes(), wanted, "{line}");
        }
    }
}

/// Lines with a mistake: where it stands, what stands there, and what could.
const MISTAKES: &[(&str, usize, &str, &str)] = &[
    ("tock", 0, "tock", "name, settings, tick, ticks, link, keepalive, operator, report, attributes, way, bytes"),
    ("name 2B 02-00-00-00-00-02", 5, "2B", "a name: a letter, then letters, digits, '-', '_' and '.', and no address"),
    ("name ab-cd-ef-ab-cd-ef 02-00-00-00-00-02", 5, "ab-cd-ef-ab-cd-ef", "a name: a letter, then letters, digits, '-', '_' and '.', and no address"),
    ("name B 02-00-00-00-00-03", 5, "B", "a name that is not taken; this one is 02-00-00-00-00-02"),
    ("name C 02-00", 7, "02-00", "an address such as 02-00-00-00-00-02"),
    ("name C 02-00-00-00-00-03 x", 25, "x", "'=>', '#' or the end of the line"),
    ("tick 0", 5, "0", "a number from 1 to 2000000, '=>', '#' or the end of the line"),
    ("ticks", 5, "", "a number from 0 to 65535"),
    ("ticks 65536", 6, "65536", "a number from 0 to 65535"),
    ("ticks -1", 6, "-1", "a number from 0 to 65535"),
    ("ticks keepalive 40", 6, "keepalive", "a number from 0 to 65535"),
    ("ticks 30 keepalive 40", 9, "keepalive", "'=>', '#' or the end of the line"),
    ("tick 3 3", 7, "3", "keepalive, '=>', '#' or the end of the line"),
    ("tick 3 keepalive", 16, "", "a number from 1 to 2000000"),
    ("settings foo", 9, "foo", "short, address, level, wtr, hold-off, keepalive, fast, slow, forget, '=>', '#' or the end of the line"),
    ("settings level 1 level 2", 17, "level", "address, wtr, hold-off, keepalive, fast, slow, forget, '=>', '#' or the end of the line"),
    ("settings level 256", 15, "256", "a number from 0 to 255"),
    ("settings wtr 65536", 13, "65536", "a number from 0 to 65535"),
    ("settings short level 1", 15, "level", "address, '=>', '#' or the end of the line"),
    ("link north good", 5, "north", "west, east, or a number from 0 to 255"),
    ("link west", 9, "", "good, degraded, failed, or a number from 0 to 255"),
    ("keepalive west east", 15, "east", "'=>', '#' or the end of the line"),
    ("operator west idle", 14, "idle", "none, wtr, ms, sd, sf, fs, or a number from 0 to 255"),
    ("report west B hop 1", 12, "B", "from"),
    ("report west from C hop 1", 17, "C", "an address such as 02-00-00-00-00-02, or one of the names A, B"),
    ("report west from B sequence 1", 19, "sequence", "hop or ttl"),
    ("report west from B hop 256", 23, "256", "a number from 1 to 255"),
    ("report west from B hop 1 seq", 25, "seq", "sequence, ringlet, west and east request (idle, wtr, ms, sd, sf, fs, or a number from 0 to 255), '=>', '#' or the end of the line"),
    ("report west from B hop 1 sd", 27, "", "idle, wtr, ms, sd, sf, fs, or a number from 0 to 255"),
    (
        "report west from B hop 1 idle idle sf sf",
        35,
        "sf",
        "'=>', '#' or the end of the line",
    ),
    (
        "tick => 1 3",
        11,
        "",
        "the number of the line's field 'west request'",
    ),
    (
        "tick => 0 0 0 0 0 0 0",
        8,
        "0",
        "the number of a line, the numbers of several such as 7..9, or settings",
    ),
    ("attributes west from B wieghts 1 1", 23, "wieghts", "weights, reserved, block, '=>', '#' or the end of the line"),
    ("attributes west from B weights 1 1 block", 35, "block", "weights, reserved, '=>', '#' or the end of the line"),
    ("attributes west from B block 00*1025", 23, "block", "a block of at most 1024 bytes; a longer record is said with bytes"),
    ("bytes 0G", 6, "0G", "bytes such as 0A or 0A0B, up to 65535 alike such as 00*9, '=>', '#' or the end of the line"),
    ("way", 3, "", "an address such as 02-00-00-00-00-02, or one of the names A, B"),
    ("=> 1 2", 0, "=>", "a record before it; what is expected belongs to a record"),
    ("tick => x", 8, "x", "the number of a line, the numbers of several such as 7..9, or settings"),
    ("tick 9 => 9..7 0 0 0 0 0 0", 10, "9..7", "the number of a line, the numbers of several such as 7..9, or settings"),
    ("tick => 0..18446744073709551615 0 0 0 0 0 0", 8, "0..18446744073709551615", "the number of a line, the numbers of several such as 7..9, or settings"),
    ("tick => 1", 9, "", "a result, a refusal (2 or 4), or way"),
    ("tick => 1 0 0", 13, "", "the number of the line's field 'east request'"),
    ("way B => 1 way", 14, "", "a number from 0 to 255"),
    ("way B => 1 way 0", 16, "", "the number of the line's field 'hops'"),
    ("way B => 1 way 0 3", 18, "", "the number of the line's field 'worst request'"),
    ("way B => 1 way 0 3 sd 2", 19, "sd", "the number of the line's field 'worst request'"),
    ("way B => 1 way 0 3 3", 20, "", "the number of the line's field 'first span with it'"),
    ("way B => 1 way 0 3 3 2 0", 23, "0", "'#' or the end of the line"),
    ("tick => 1 0 0 0 0 0 0 0", 22, "0", "'#' or the end of the line"),
    ("tick => 1 2 => 1 2", 12, "=>", "the number of the line's field 'west request'"),
    ("tick # \u{7}", 7, "\\u{7}", "a letter that can be shown"),
    ("tick 2000000 keepalive 1", 23, "1", "less: a drill has at most 64 MiB"),
];

#[test]
fn mistakes_are_told_with_what_stands_there_and_what_could() {
    for &(line, at, stands, could) in MISTAKES {
        // Two such runs fit, a third does not.
        let before = if line.ends_with("keepalive 1") {
            format!("{line}\n").repeat(2)
        } else {
            "\n\n".to_string()
        };
        let mistakes = Text::read(format!("{NAMES}{before}{line} # why\n").as_bytes()).unwrap_err();
        let [mistake] = &mistakes[..] else {
            panic!("{line}: {mistakes:?}");
        };
        let slip = &mistake.slip;
        assert_eq!(
            (mistake.line, slip.at, &slip.stands[..], &slip.could[..]),
            (5, at, stands, could),
            "{line}"
        );
    }
}

#[test]
fn unseen_letters_are_shown() {
    let mistakes = Text::read("link\u{a0}west good\n".as_bytes()).unwrap_err();
    assert!(mistakes[0]
        .to_string()
        .starts_with("line 1: 'link\\u{a0}west' stands"));
    let mistakes = Text::read("\u{200b}tick\n".as_bytes()).unwrap_err();
    assert!(mistakes[0]
        .to_string()
        .starts_with("line 1: '\\u{200b}tick' stands"));
    let mistakes = Text::read(b"\xFF\xFEt\0").unwrap_err();
    assert!(mistakes[0]
        .to_string()
        .contains("UTF-16 has to be saved as UTF-8"));
}

#[test]
fn a_long_drill_fits_as_long_as_it_has_64_mib() {
    let run = "tick 2000000 keepalive 1000\n";
    // 8,020,000 bytes each.
    assert!(Text::read(run.repeat(8).as_bytes()).is_ok());
    assert_eq!(Text::read(run.repeat(9).as_bytes()).unwrap_err()[0].line, 9);
}

#[test]
fn one_line_may_be_named_as_several() {
    assert!(Text::read(b"tick => 7..7 0 0 0 0 0 0\n").is_ok());
}

#[test]
fn a_message_points_at_the_mistake() {
    let mistakes = Text::read("tick\n\tlänk west gut # é\n".as_bytes()).unwrap_err();
    let wanted = "\
line 2: 'länk' stands where this could stand: name, settings, tick, ticks, link, keepalive, operator, report, attributes, way, bytes
     länk west gut # é
     ^^^^";
    assert_eq!(mistakes[0].to_string(), wanted);
    let mistakes = Text::read(b"tick\ntick \xFF\xFE\n").unwrap_err();
    assert!(mistakes[0]
        .to_string()
        .starts_with("line 2: 'byte FF' stands where this could stand: a letter in UTF-8"));
}
