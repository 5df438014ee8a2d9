//! The ways asked, with their answers: an arrow to the west or to the east, and in it where the trouble is; a black box for no way, a dashed one
//! for a stranger.

use std::ops::Range;

use crate::codes::{request, word, REPLIES};
use crate::record::Record;
use crate::said::{self, Way};

use super::labels::Tags;
use super::letters::{fit, width};
use super::steps::Step;
use super::svg::{Anchor, Pen};
use super::Chart;

/// The size of the letters.
pub const SIZE: f64 = 9.0;
/// The most room for a name.
const ROOM: f64 = 100.0;
/// How far an arrow points out of its box.
const POINT: f64 = 6.0;
/// The height of the row.
pub const HEIGHT: f64 = 36.0;

/// A question and its answer.
pub struct Answer {
    name: String,
    /// The reply in one or two lines.
    words: Vec<String>,
    reply: u8,
}

/// What was asked and answered, if something was.
pub fn answer(step: &Step, tags: &Tags) -> Option<Answer> {
    let said::Answer::Way(way) = step.answer else {
        return None;
    };
    let name = match step.record {
        Record::Way(address) => tags.short(*address),
        _ => String::new(),
    };
    Some(Answer {
        name: fit(&name, SIZE, ROOM),
        words: words(&way),
        reply: way.reply,
    })
}

/// Which way, and under it the worst request on it and the span that has it, if something is asked there.
fn words(way: &Way) -> Vec<String> {
    let reply = word(REPLIES, way.reply);
    match (way.reply, way.worst) {
        (3, _) => vec!["not in".to_string(), "table".to_string()],
        (0 | 1, worst @ 1..) => vec![reply, format!("{} span {}", request(worst), way.span)],
        _ => vec![reply],
    }
}

impl Answer {
    /// How wide it has to be.
    pub fn room(&self) -> f64 {
        let words = self.words.iter().chain([&self.name]);
        let widths = words.map(|words| width(words, SIZE));
        widths.fold(0.0, f64::max) + 2.0 * POINT + 3.0
    }

    fn draw(&self, pen: &mut Pen, x: f64, y: f64) {
        let (from, to) = (x + 1.0, x + self.room() - 2.0);
        let (top, bottom) = (y + 1.0, y + HEIGHT - 3.0);
        let middle = (top + bottom) / 2.0;
        let (west, east) = match self.reply {
            0 => (
                vec![(from + POINT, bottom), (from, middle), (from + POINT, top)],
                0.0,
            ),
            _ => (vec![(from, bottom), (from, top)], POINT),
        };
        let mut points = west;
        if self.reply == 1 {
            points.extend([(to - east, top), (to, middle), (to - east, bottom)]);
        } else {
            points.extend([(to, top), (to, bottom)]);
        }
        pen.shape(&format!("way{}", self.reply.min(3)), &points);
        self.write(pen, (from + to) / 2.0, y);
    }

    fn write(&self, pen: &mut Pen, middle: f64, y: f64) {
        let is_high = self.words.len() > 1;
        let (first, step) = if is_high { (10.0, 9.5) } else { (14.0, 13.0) };
        // Three lines reach the corners, so they keep clear of the arrow's point.
        let x = match self.reply {
            0 if is_high => middle + POINT / 2.0,
            1 if is_high => middle - POINT / 2.0,
            _ => middle,
        };
        let class = if self.reply == 2 { "way light" } else { "way" };
        let mut baseline = y + first;
        for line in [&self.name].into_iter().chain(&self.words) {
            pen.words(class, Anchor::Middle, (x, baseline), line);
            baseline += step;
        }
    }
}

/// Draws the row; nothing and no height if nothing is asked in this strip.
pub fn draw(chart: &Chart, strip: &Range<usize>, pen: &mut Pen, y: f64) -> f64 {
    let mut some = false;
    for (x, cell) in chart.layout.columns(strip) {
        let step = chart.steps.get(cell.steps.start);
        if let Some(answer) = step.and_then(|step| answer(step, &chart.tags)) {
            answer.draw(pen, x, y);
            some = true;
        }
    }
    if !some {
        return 0.0;
    }
    chart.name(pen, "ways asked", y + HEIGHT / 2.0 + 3.0);
    HEIGHT
}
