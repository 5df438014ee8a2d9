//! The upper part of a strip: the records in words, runs of ticks, the numbers of their lines, and keepalives.

use std::ops::Range;

use crate::record::Record;

use super::cells::Cell;
use super::labels::{label, WORDS};
use super::layout::Part;
use super::letters::{count, width};
use super::svg::{short, Anchor, Area, Pen};
use super::Chart;

/// The size of the letters of line numbers.
const NUMBERS: f64 = 8.0;
/// The least width of a column that has words.
const READABLE: f64 = 9.0;
/// The height of the box with a result.
const RESULT: f64 = 13.0;
/// The height of the axis with keepalives on both sides.
const AXIS: f64 = 13.0;
/// How high words may be over the axis if there are hardly any.
const LEAST: f64 = 14.0;

/// The heights of the parts, from above.
struct Heights {
    words: f64,
    results: f64,
    numbers: f64,
}

/// Draws the upper part; how high it is.
pub fn draw(chart: &Chart, strip: &Range<usize>, pen: &mut Pen, y: f64) -> f64 {
    let heights = heights(chart, strip);
    let words = y + heights.words;
    let results = words + heights.results;
    let numbers = results + heights.numbers;
    for (x, cell) in chart.layout.columns(strip) {
        let Some(step) = chart.steps.get(cell.steps.start) else {
            continue;
        };
        if cell.run.is_none() {
            pen.upwards(
                "word",
                Anchor::Start,
                (x + 10.0, words - 2.0),
                &label(step, &chart.tags),
            );
        }
        if let Some(refusal) = step.refusal() {
            result(pen, x, words, refusal);
        }
        if cell.opens && cell.width >= READABLE || x <= super::layout::LEFT {
            let at = (x + 9.5, numbers - 2.0);
            pen.upwards("line", Anchor::Start, at, &step.number.to_string());
        }
    }
    for (part, ticks) in runs(chart, strip) {
        ticks_of(pen, part, &ticks, words);
    }
    chart.name(pen, "line", numbers - 3.0);
    axis(chart, strip, pen, numbers);
    numbers + AXIS - y
}

fn heights(chart: &Chart, strip: &Range<usize>) -> Heights {
    let columns = chart.layout.columns(strip);
    let steps = columns.filter_map(|(_, cell)| Some((cell, chart.steps.get(cell.steps.start)?)));
    let mut heights = Heights {
        words: LEAST,
        results: 0.0,
        numbers: 0.0,
    };
    for (cell, step) in steps {
        if cell.run.is_none() {
            let words = width(&label(step, &chart.tags), WORDS) + 4.0;
            heights.words = heights.words.max(words);
        }
        if step.refusal().is_some() {
            heights.results = RESULT;
        }
        let number = width(&step.number.to_string(), NUMBERS) + 4.0;
        heights.numbers = heights.numbers.max(number);
    }
    heights
}

fn result(pen: &mut Pen, x: f64, y: f64, refusal: u8) {
    let words = refusal.to_string();
    let wide = width(&words, super::ways::SIZE) + 2.0;
    let area = Area {
        x: x + 0.5,
        y,
        width: wide,
        height: RESULT - 2.0,
    };
    pen.area("refused", area);
    pen.words(
        "result",
        Anchor::Middle,
        (x + 0.5 + wide / 2.0, y + 8.7),
        &words,
    );
}

/// The runs of ticks in a strip, with the words for each.
fn runs(chart: &Chart, strip: &Range<usize>) -> Vec<(Part, String)> {
    let cells = &chart.layout.cells;
    let runs = chart.layout.runs(strip).into_iter();
    let parts = runs.filter_map(|columns| {
        let part = chart.layout.part_of(strip, &columns)?;
        let here = cells.get(columns.clone()).unwrap_or_default();
        let run = here.first()?.run;
        // A run that goes over the end of a strip has its other columns next to these.
        let before = cells.iter().take(columns.start).rev();
        let before = before.take_while(|cell| cell.run == run);
        let behind = cells.iter().skip(columns.end);
        let behind = behind.take_while(|cell| cell.run == run);
        let elsewhere: u64 = before.chain(behind).map(|cell| cell.ticks).sum();
        let here = ticks(here);
        Some((part, said(here, here + elsewhere)))
    });
    parts.collect()
}

fn ticks(cells: &[Cell]) -> u64 {
    cells.iter().map(|cell| cell.ticks).sum()
}

fn said(here: u64, all: u64) -> String {
    match (here, all) {
        (1, 1) => "tick".to_string(),
        (here, all) if here == all => format!("{} ticks", count(all)),
        (here, all) => format!("{} of {} ticks", count(here), count(all)),
    }
}

/// The number of ticks over a run: along it, or upwards as a record's words are, if there is room for it.
fn ticks_of(pen: &mut Pen, part: Part, words: &str, y: f64) {
    let middle = (part.from + part.to) / 2.0;
    if width(words, WORDS) + 4.0 <= part.width() {
        pen.words("word", Anchor::Middle, (middle, y - 4.0), words);
        let (from, to) = (short(part.from + 1.0), short(part.to - 1.0));
        pen.path("axis", &format!("M{from} {}v-3H{to}v3", short(y + 2.0)));
    } else if part.width() >= READABLE {
        pen.upwards("word", Anchor::Start, (middle + 3.0, y - 2.0), words);
    }
}

/// The axis; keepalives of the west span stand above it, those of the east span below.
fn axis(chart: &Chart, strip: &Range<usize>, pen: &mut Pen, y: f64) {
    let middle = y + AXIS / 2.0 - 1.0;
    let right = chart.layout.right(strip);
    pen.line("axis", (super::layout::LEFT, middle), (right, middle));
    let mut notches = String::new();
    // More than one at the same place is not seen.
    let mut last = [f64::MIN; 2];
    for (x, _, step) in chart.places(strip) {
        let (Record::Keepalive(span), true) = (step.record, step.is_time()) else {
            continue;
        };
        let up = if *span == 0 { -4.0 } else { 4.0 };
        if let Some(last) = last.get_mut(usize::from(*span)) {
            if x - *last >= 1.0 {
                *last = x;
                notches += &format!("M{} {}v{}", short(x), short(middle), short(up));
            }
        }
    }
    if !notches.is_empty() {
        pen.path("alive", &notches);
        chart.name(pen, "keepalives", y + AXIS / 2.0 + 2.0);
    }
}
