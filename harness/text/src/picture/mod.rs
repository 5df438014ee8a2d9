//! The picture of a drill: records to the right, a band for each span, the reports sent, the ways asked and the stations, in strips
//! like lines of music. It is made from the program's lines; nothing in it is worked out by rules that the program does not show.

mod bands;
mod bars;
mod cells;
mod colours;
mod labels;
mod layout;
mod legend;
mod letters;
mod page;
mod steps;
mod svg;
mod tops;
mod ways;

use std::ops::Range;

use crate::names::Names;
use crate::source::Source;
use crate::stations::{follow, Stay};
use crate::told::Play;

use labels::Tags;
use layout::{Layout, LEFT, PAGE};
use steps::{refused_settings, steps, Step};
use svg::{escaped, short, Anchor, Pen};

/// The space between two strips.
const GAP: f64 = 24.0;

/// What is to be drawn.
#[derive(Clone, Copy)]
pub struct Sheet<'d> {
    /// The name at the head.
    pub name: &'d str,
    /// What the drill says of itself.
    pub note: Option<&'d str>,
    /// The names of its stations.
    pub names: &'d Names,
    /// The drill with what was printed.
    pub play: &'d Play,
    /// The same without operators' requests, as `stations::without_operators` has it.
    pub quiet: &'d Play,
}

/// What a text says of itself: its first comment.
pub fn note(source: &Source) -> Option<String> {
    let Source::Text(text) = source else {
        return None;
    };
    let comment = text.lines.iter().find_map(|line| line.comment.as_deref())?;
    let words = comment.trim_start_matches('#').trim();
    (!words.is_empty()).then(|| words.to_string())
}

/// All that the strips show.
struct Chart<'d> {
    steps: Vec<Step<'d>>,
    stays: Vec<Stay>,
    tags: Tags<'d>,
    layout: Layout,
}

/// The picture of a drill, or why none can be drawn that is right.
pub fn draw(sheet: &Sheet) -> Result<String, String> {
    if refused_settings(sheet.play).is_some() || sheet.play.told.len() < 2 {
        return Ok(without_strips(sheet));
    }
    let steps = steps(sheet.play)?;
    let stays = follow(sheet.play, sheet.quiet)?;
    let tags = Tags::of(sheet.names, &steps);
    let layout = Layout::of(&steps, &stays, &tags);
    let chart = Chart {
        steps,
        stays,
        tags,
        layout,
    };
    let mut pen = Pen::default();
    let mut y = page::head(sheet, chart.tags.note(), &mut pen);
    for strip in &chart.layout.strips {
        y += chart.strip(strip, &mut pen, y) + GAP;
    }
    y += legend::draw(chart.layout.tick, &mut pen, y);
    let told = format!("{}; {} records", page::settings(sheet), chart.steps.len());
    Ok(whole(sheet, &told, pen, y))
}

/// A drill whose settings were refused, or that has no record behind them.
fn without_strips(sheet: &Sheet) -> String {
    let mut pen = Pen::default();
    let mut y = page::head(sheet, None, &mut pen);
    if refused_settings(sheet.play).is_none() {
        pen.words(
            "note",
            Anchor::Start,
            (layout::MARGIN, y + 4.0),
            "no records",
        );
        y += 24.0;
    }
    whole(sheet, &page::settings(sheet), pen, y)
}

/// The document around what was drawn.
fn whole(sheet: &Sheet, told: &str, pen: Pen, height: f64) -> String {
    let (width, height) = (short(PAGE), short(height));
    let (name, told) = (escaped(sheet.name), escaped(told));
    format!(
        "<svg xmlns=\"http://www.w3.org/2000/svg\" width=\"{width}\" height=\"{height}\" viewBox=\"0 0 {width} {height}\">\n\
         <title>{name}</title>\n<desc>{told}</desc>\n<style>{}</style>\n\
         <rect width=\"{width}\" height=\"{height}\" fill=\"#fff\"/>\n{}</svg>\n",
        colours::STYLE,
        pen.drawn()
    )
}

impl Chart<'_> {
    /// Draws a strip; how high it is.
    fn strip(&self, strip: &Range<usize>, pen: &mut Pen, y: f64) -> f64 {
        let mut rows = Pen::default();
        let mut end = y + tops::draw(self, strip, &mut rows, y);
        let top = end;
        end += bands::draw(self, strip, &mut rows, end);
        end += bands::reports(self, strip, &mut rows, end);
        end += ways::draw(self, strip, &mut rows, end);
        end += bars::draw(self, strip, &mut rows, end);
        // Behind all else, a line downwards from each record.
        let records = self
            .layout
            .columns(strip)
            .filter(|(_, cell)| cell.run.is_none());
        for (x, _) in records {
            pen.line("grid", (x, top), (x, end));
        }
        if strip.end == self.layout.cells.len() {
            let right = self.layout.right(strip) + 4.0;
            pen.line("end", (right, top), (right, end));
        }
        pen.element(rows.drawn().trim_end());
        end - y
    }

    /// The name of a row, at the left.
    fn name(&self, pen: &mut Pen, name: &str, y: f64) {
        pen.words("row", Anchor::End, (LEFT - 8.0, y), name);
    }

    /// Every step of a strip, with its place on the timeline and the width of a tick there.
    fn places(&self, strip: &Range<usize>) -> impl Iterator<Item = (f64, f64, &Step<'_>)> {
        self.layout.columns(strip).flat_map(|(x, cell)| {
            let steps = self.steps.get(cell.steps.clone()).unwrap_or_default();
            let tick = cell.width / cell.ticks.max(1) as f64;
            let mut before = 0.0;
            steps.iter().map(move |step| {
                let place = x + before * tick;
                before += step.ticks() as f64;
                (place, tick, step)
            })
        })
    }
}
