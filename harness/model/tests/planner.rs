//! The planner's program as a program: what it says to questions, to other records, and to inputs of every sort of end.

mod speaking;

use speaking::{say_to, BAD_SETTINGS, SETTINGS, TICK};

const B: &[u8] = &[14, 0, 5, 0, 0, 0, 255, 2, 0, 0, 0, 0, 2, 7, 0, 0];
/// B reserves 1,000 on ringlet 0 and 258 on ringlet 1.
const RESERVED: &[u8] = &[
    17, 0, 6, 0, 0, 2, 0, 0, 0, 0, 2, 0x80, 2, 0, 4, 3, 0xE8, 1, 2,
];
const BEHIND: &[u8] = &[13, 0, 6, 0, 0, 2, 0, 0, 0, 0, 2, 0x80, 0, 0, 0];

fn question(rate: u32, own: [u16; 2]) -> Vec<u8> {
    let mut record = vec![10, 0, 41, 0];
    record.extend(rate.to_le_bytes());
    record.extend(own[0].to_le_bytes());
    record.extend(own[1].to_le_bytes());
    record
}

fn say(input: &[u8]) -> String {
    say_to(env!("CARGO_BIN_EXE_model-planner"), input)
}

fn say_after_settings(records: &[&[u8]]) -> String {
    say(&[&SETTINGS[..], &records.concat()].concat())
}

#[test]
fn settings_that_end_the_plan() {
    let question: (&[u8], &str) = (&[10, 0, 41, 0, 1, 0, 0, 0, 0, 0, 0, 0], "settings 3\n");
    for (input, said) in BAD_SETTINGS.into_iter().chain([question]) {
        assert_eq!(say(input), said, "{input:?}");
    }
}

#[test]
fn each_question_has_a_line_and_nothing_else_has() {
    let said = say_after_settings(&[
        &question(1_000, [0, 0]),
        B,
        TICK,
        &question(2_000, [0, 1_942]),
        RESERVED,
        &question(2_000, [0, 1_942]),
        &question(0x0102, [0x0304, 0]),
        // The drill's question, other kinds, and refused records.
        &[8, 0, 40, 0, 2, 0, 0, 0, 0, 2],
        &[10, 0, 41, 1, 1, 0, 0, 0, 0, 0, 0, 0],
        &[2, 0, 1, 1],
        &[3, 0, 1, 0, 9],
        BEHIND,
        &question(1_000, [0, 0]),
        &question(65_536, [0, 0]),
    ]);
    let lines = [
        "0 0 1000 1000 0",
        "0 0 2000 58 0",
        // 2,000 - 1,000 and 2,000 - 1,942 - 258.
        "0 0 1000 -200 1",
        // 258 - 772 - 1,000 and 258 - 258.
        "0 0 -1514 0 1",
        "31 2199023255554 0 0 0",
        "4 0 0 0 0",
    ];
    assert_eq!(said, lines.join("\n") + "\n");
}

#[test]
fn many_ticks_pass_and_have_no_line() {
    let rate = question(2_000, [0, 0]);
    let said = say_after_settings(&[
        B,
        RESERVED,
        &[4, 0, 7, 0, 49, 0],
        &rate,
        // Refused: nothing passes.
        &[4, 0, 7, 0, 0xE9, 3],
        &[3, 0, 7, 0, 9],
        &rate,
        // Both spans have been silent for 50 ticks with the first of these.
        &[4, 0, 7, 0, 0xE8, 3],
        &rate,
    ]);
    assert_eq!(said, "0 0 1000 1742 0\n0 0 1000 1742 0\n0 0 2000 2000 0\n");
}

#[test]
fn a_question_of_another_length_is_4_and_the_plan_goes_on() {
    let whole = question(1_000, [0, 0]);
    let mut longest = vec![0x09, 0x04, 41, 0];
    longest.resize(1_035, 0);
    let said = say_after_settings(&[
        &[2, 0, 41, 0],
        &[9, 0, 41, 0, 1, 0, 0, 0, 0, 0, 0],
        &[11, 0, 41, 0, 1, 0, 0, 0, 0, 0, 0, 0, 0],
        &longest,
        &whole,
    ]);
    assert_eq!(said, "4 0 0 0 0\n".repeat(4) + "0 0 1000 1000 0\n");
}

#[test]
fn level_1_is_32() {
    let mut input = SETTINGS.to_vec();
    input[4] = 1;
    input.extend([&[2, 0, 41, 0][..], &question(65_535, [0, 0])].concat());
    input.extend(question(u32::MAX, [0, 0]));
    assert_eq!(say(&input), "4 0 0 0 0\n32 0 0 0 0\n4 0 0 0 0\n");
}

#[test]
fn input_that_stops_between_records_has_no_last_line() {
    assert_eq!(say_after_settings(&[]), "");
    assert_eq!(say_after_settings(&[TICK, B]), "");
    let said = say_after_settings(&[&question(0, [0, 0])]);
    assert_eq!(said, "0 0 0 0 0\n");
}

#[test]
fn cut_records_and_bad_lengths_end_the_plan() {
    let whole = question(7, [0, 0]);
    let ends: [&[u8]; 7] = [
        &[2],
        &[2, 0],
        &[2, 0, 1],
        &whole[..11],
        &[0, 0, 1, 0],
        &[1, 0, 1, 0],
        &[0x0A, 0x04, 1, 0],
    ];
    for end in ends {
        let said = say_after_settings(&[&whole, end]);
        assert_eq!(said, "0 0 7 7 0\n2 0 0 0 0\n", "{end:?}");
    }
    let behind = say_after_settings(&[&[1, 0], &whole, &whole]);
    assert_eq!(behind, "2 0 0 0 0\n");
}
