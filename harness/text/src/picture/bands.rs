//! The bands of the spans, coloured by their requests, and the marks of the reports sent.

use std::ops::Range;

use crate::codes::{request, SPANS};

use super::colours::{class, letters};
use super::layout::Part;
use super::letters::width;
use super::svg::{Anchor, Area, Pen};
use super::Chart;

/// The height of a band; a code that is read upwards fits in.
const BAND: f64 = 24.0;
/// The height of the row of reports.
const REPORTS: f64 = 21.0;
/// The size of a code.
const CODE: f64 = 11.0;
/// The size of a sequence.
const SEQUENCE: f64 = 8.0;

/// Draws both bands; how high they are.
pub fn draw(chart: &Chart, strip: &Range<usize>, pen: &mut Pen, y: f64) -> f64 {
    let mut top = y;
    for (span, name) in SPANS.iter().enumerate() {
        chart.name(pen, name, top + BAND / 2.0 + 4.0);
        for area in chart.layout.areas(strip, span) {
            let cell = chart.layout.cells.get(area.start);
            let requests = cell.and_then(|cell| cell.requests);
            let code = requests.and_then(|requests| requests.get(span).copied());
            let part = chart.layout.part_of(strip, &area);
            if let (Some(code), Some(part)) = (code, part) {
                area_of(pen, part, code, top);
            }
        }
        top += BAND + 3.0;
    }
    top - y
}

fn area_of(pen: &mut Pen, part: Part, code: u8, top: f64) {
    let area = Area {
        x: part.from,
        y: top,
        width: part.width(),
        height: BAND,
    };
    pen.area(&class(code), area);
    let (words, light) = (request(code), letters(code));
    let middle = (part.from + part.to) / 2.0;
    // Bold letters are a little wider.
    if width(&words, CODE) * 1.1 + 3.0 <= part.width() {
        let at = (middle, top + BAND / 2.0 + 4.0);
        pen.words(&format!("code{light}"), Anchor::Middle, at, &words);
    } else {
        let at = (middle + 3.0, top + BAND / 2.0);
        pen.upwards(&format!("up{light}"), Anchor::Middle, at, &words);
    }
}

/// A report sent.
struct Mark {
    x: f64,
    /// None where it is not printed: of several in one record it is that of the last, and the others may have an older one.
    sequence: Option<u8>,
    /// Whether its sequence is not that of the one before it in the strip.
    is_new: bool,
}

/// Draws the row of reports; how high it is.
pub fn reports(chart: &Chart, strip: &Range<usize>, pen: &mut Pen, y: f64) -> f64 {
    chart.name(pen, "reports sent", y + 9.0);
    let marks = marks(chart, strip);
    for mark in &marks {
        let (x, tip) = (mark.x, y + 1.0);
        pen.shape(
            "sent",
            &[(x, tip), (x + 3.0, tip + 8.0), (x - 3.0, tip + 8.0)],
        );
    }
    let mut taken: Vec<(f64, f64)> = Vec::new();
    // Where there is not room for all, the first of each sequence comes first.
    for is_new in [true, false] {
        for mark in marks.iter().filter(|mark| mark.is_new == is_new) {
            let Some(sequence) = mark.sequence else {
                continue;
            };
            let words = sequence.to_string();
            let half = width(&words, SEQUENCE) / 2.0;
            let (from, to) = (mark.x - half - 1.0, mark.x + half + 1.0);
            if taken.iter().all(|&(left, right)| to < left || right < from) {
                taken.push((from, to));
                pen.words("sequence", Anchor::Middle, (mark.x, y + 17.0), &words);
            }
        }
    }
    REPORTS
}

fn marks(chart: &Chart, strip: &Range<usize>) -> Vec<Mark> {
    let mut marks: Vec<Mark> = Vec::new();
    let mut known = None;
    for (x, tick, step) in chart.places(strip) {
        let Some((reports, sequence)) = step.sent() else {
            continue;
        };
        // When they were sent within the record is not printed: they are spread over it.
        let apart = tick * step.ticks() as f64 / f64::from(reports);
        for place in 0..reports {
            let is_told = place + 1 == reports || step.before == Some(sequence);
            marks.push(Mark {
                x: x + apart * f64::from(place),
                sequence: is_told.then_some(sequence),
                is_new: is_told && known != Some(sequence),
            });
            known = if is_told { Some(sequence) } else { known };
        }
    }
    marks
}
