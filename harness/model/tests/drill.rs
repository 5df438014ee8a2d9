//! The drill program as a program: what it says to inputs of every sort of end.

mod speaking;

use speaking::{say_to, BAD_SETTINGS, SETTINGS, TICK};

fn say(input: &[u8]) -> String {
    say_to(env!("CARGO_BIN_EXE_model-drill"), input)
}

fn say_after_settings(records: &[&[u8]]) -> String {
    let mut input = SETTINGS.to_vec();
    input.extend(records.concat());
    say(&input)
}

#[test]
fn settings_that_end_the_drill() {
    let question: (&[u8], &str) = (&[8, 0, 40, 0, 2, 0, 0, 0, 0, 1], "settings 3\n");
    for (input, said) in BAD_SETTINGS.into_iter().chain([question]) {
        assert_eq!(say(input), said, "{input:?}");
    }
}

#[test]
fn input_that_stops_between_records_has_no_last_line() {
    assert_eq!(say_after_settings(&[]), "");
    assert_eq!(say_after_settings(&[TICK]), "1 0 0 0 0 0 0\n");
}

#[test]
fn cut_records_and_bad_lengths_end_the_drill() {
    let ends: [&[u8]; 6] = [
        &[2],
        &[2, 0],
        &[2, 0, 1],
        &[0, 0, 1, 0],
        &[1, 0, 1, 0],
        &[0x0A, 0x04, 1, 0],
    ];
    for end in ends {
        let said = say_after_settings(&[TICK, end]);
        assert_eq!(said, "1 0 0 0 0 0 0\n2 2\n", "{end:?}");
    }
    let behind = say_after_settings(&[&[1, 0], TICK, TICK]);
    assert_eq!(behind, "1 2\n");
}

#[test]
fn questions_are_numbered_and_refused_ones_short() {
    let report: &[u8] = &[14, 0, 5, 0, 0, 0, 255, 2, 0, 0, 0, 0, 2, 7, 0, 0];
    let said = say_after_settings(&[
        report,
        &[8, 0, 40, 0, 2, 0, 0, 0, 0, 2],
        &[8, 0, 40, 0, 2, 0, 0, 0, 0, 3],
        &[8, 0, 40, 0, 2, 0, 0, 0, 0, 1],
        &[8, 0, 40, 0, 3, 0, 0, 0, 0, 2],
        &[7, 0, 40, 0, 2, 0, 0, 0, 0],
        &[2, 0, 40, 1],
    ]);
    let lines = [
        "1 0 0 0 0 1 0",
        "2 way 0 1 0 1",
        "3 way 3 0 0 0",
        "4 way 3 0 0 0",
        "5 4",
        "6 4",
        "7 3 0 0 0 1 0",
    ];
    assert_eq!(said, lines.join("\n") + "\n");
}

#[test]
fn a_way_has_its_hops_its_worst_request_and_the_span_of_it() {
    let question: &[u8] = &[8, 0, 40, 0, 2, 0, 0, 0, 0, 3];
    let said = say_after_settings(&[
        // B at hop 1 with west SD, C at hop 3, and then at hop 2.
        &[14, 0, 5, 0, 0, 0, 255, 2, 0, 0, 0, 0, 2, 7, 3, 0],
        &[14, 0, 5, 0, 0, 0, 253, 2, 0, 0, 0, 0, 3, 7, 0, 0],
        question,
        &[14, 0, 5, 0, 0, 0, 254, 2, 0, 0, 0, 0, 3, 8, 0, 0],
        question,
        // East of us C has east MS, which is beyond it, and A asks for MS.
        &[14, 0, 5, 0, 1, 1, 255, 2, 0, 0, 0, 0, 3, 9, 0, 2],
        &[4, 0, 4, 0, 1, 2],
        question,
        // With FS on both spans there are ways, and none is usable.
        &[4, 0, 4, 0, 0, 5],
        question,
        &[4, 0, 4, 0, 1, 5],
        question,
    ]);
    let lines = [
        "1 0 0 0 0 1 0",
        "2 0 0 0 0 2 0",
        "3 way 2 0 0 0",
        "4 0 0 0 0 2 0",
        "5 way 0 2 3 2",
        "6 0 0 0 0 2 0",
        "7 0 0 2 1 2 1",
        "8 way 1 1 2 1",
        "9 0 5 2 2 2 1",
        "10 way 1 1 2 1",
        "11 0 5 5 3 2 1",
        "12 way 2 0 0 0",
    ];
    assert_eq!(said, lines.join("\n") + "\n");
}

#[test]
fn the_longest_record_is_read_whole() {
    let mut longest = vec![0x09, 0x04, 6, 0];
    longest.resize(1_035, 0);
    let said = say_after_settings(&[&longest, TICK]);
    assert_eq!(said, "1 7 0 0 0 0 0\n2 0 0 0 0 0 0\n");
}

#[test]
fn many_ticks_have_one_line_with_the_number_of_their_reports() {
    let said = say_after_settings(&[
        &[4, 0, 7, 0, 30, 0],
        &[4, 0, 7, 0, 0xE8, 3],
        &[4, 0, 7, 0, 0, 0],
        &[4, 0, 7, 0, 0xE9, 3],
        &[3, 0, 7, 0, 1],
        &[5, 0, 7, 0, 1, 0, 0],
        &[4, 0, 8, 0, 1, 0],
        TICK,
    ]);
    let lines = [
        "1 0 0 0 0 0 3",
        // Tick 40, the change at 50, 60 to 130, then 230 to 1,030.
        "2 0 4 4 1 0 19",
        "3 4 4 4 1 0 0",
        "4 4 4 4 1 0 0",
        "5 4 4 4 1 0 0",
        "6 4 4 4 1 0 0",
        "7 3 4 4 1 0 0",
        "8 0 4 4 1 0 0",
    ];
    assert_eq!(said, lines.join("\n") + "\n");
}
