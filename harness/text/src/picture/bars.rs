//! The stations: a row for each that is there in the strip, a bar from joining to leaving, and its hops.

use std::ops::Range;

use crate::stations::Stay;

use super::layout::{Part, LEFT, MARGIN};
use super::letters::{fit, width};
use super::svg::{Anchor, Area, Pen};
use super::Chart;

/// The size of letters in a bar.
const SIZE: f64 = 8.5;
/// The least size at which hops are still written.
const SMALLEST: f64 = 6.0;

/// Hops in words: W1 on ringlet 0, which the west span hears, E3 on ringlet 1.
fn words(hops: [u8; 2]) -> String {
    let named = ["W", "E"].into_iter().zip(hops);
    let heard = named.filter(|&(_, hop)| hop > 0);
    let words: Vec<String> = heard.map(|(name, hop)| format!("{name}{hop}")).collect();
    words.join(" ")
}

/// How wide a bar with these hops has to be.
pub fn room(hops: [u8; 2]) -> f64 {
    width(&words(hops), SIZE) + 5.0
}

/// Where a row stands.
#[derive(Clone, Copy)]
struct Row {
    top: f64,
    height: f64,
    /// The size of its letters.
    size: f64,
}

impl Row {
    /// The first of so many rows in a strip: two full ringlets of different stations, 126 rows, have to fit on a page.
    fn first(top: f64, rows: usize) -> Row {
        let (height, size) = match rows {
            0..=24 => (14.0, SIZE),
            25..=40 => (11.0, 8.0),
            _ => (8.8, 7.0),
        };
        Row { top, height, size }
    }

    /// The row without what parts it from its neighbours.
    fn inner(self) -> Row {
        Row {
            top: self.top + 0.5,
            height: self.height - 1.0,
            ..self
        }
    }

    fn bottom(self) -> f64 {
        self.top + self.height
    }

    fn baseline(self) -> f64 {
        self.top + self.height / 2.0 + self.size * 0.36
    }
}

/// Draws the rows of a strip; how high they are.
pub fn draw(chart: &Chart, strip: &Range<usize>, pen: &mut Pen, y: f64) -> f64 {
    let there: Vec<&Stay> = chart
        .stays
        .iter()
        .filter(|stay| {
            let columns = chart.layout.stay(stay);
            chart.layout.part_of(strip, &columns).is_some()
        })
        .collect();
    let rows: Vec<&[&Stay]> = there
        .chunk_by(|one, other| one.address == other.address)
        .collect();
    let mut row = Row::first(y, rows.len());
    pen.element(&format!(r#"<g font-size="{}">"#, row.size));
    for stays in &rows {
        if let Some(stay) = stays.first() {
            let name = chart.tags.whole(stay.address);
            let name = fit(&name, row.size, LEFT - MARGIN - 9.0);
            pen.words("station", Anchor::End, (LEFT - 8.0, row.baseline()), &name);
        }
        for stay in *stays {
            bar(chart, strip, pen, stay, row.inner());
        }
        row.top = row.bottom();
    }
    pen.element("</g>");
    row.top - y
}

/// The bar of one stay.
fn bar(chart: &Chart, strip: &Range<usize>, pen: &mut Pen, stay: &Stay, row: Row) {
    let (top, bottom) = (row.top, row.bottom());
    for (columns, hops) in chart.layout.hops(stay) {
        if let Some(part) = chart.layout.part_of(strip, &columns) {
            piece(pen, part, hops, row);
            if part.begins {
                pen.line("cut", (part.from, top), (part.from, bottom));
            }
        }
    }
    if let Some(part) = chart.layout.part_of(strip, &chart.layout.stay(stay)) {
        if part.begins {
            pen.line("edge", (part.from + 0.7, top), (part.from + 0.7, bottom));
        }
        if part.ends && stay.to.is_some() {
            pen.line("edge", (part.to - 0.7, top), (part.to - 0.7, bottom));
        }
    }
}

/// A part of a bar with the same hops: a dark upper edge if it is heard on ringlet 0, a dark lower edge if on ringlet 1.
fn piece(pen: &mut Pen, part: Part, hops: [u8; 2], row: Row) {
    let area = Area {
        x: part.from,
        y: row.top,
        width: part.width(),
        height: row.height,
    };
    pen.area("bar", area);
    // Thin enough to leave room for the letters.
    let height = row.height / 8.0;
    let edges = [row.top, row.bottom() - height];
    for (y, _) in edges.into_iter().zip(hops).filter(|&(_, hop)| hop > 0) {
        pen.area("heard", Area { y, height, ..area });
    }
    let words = words(hops);
    let baseline = row.baseline();
    let fitting = (part.width() - 3.0) / width(&words, 1.0);
    if fitting >= row.size {
        pen.words("hops", Anchor::Start, (part.from + 3.0, baseline), &words);
    } else if fitting >= SMALLEST {
        pen.element(&format!(r#"<g font-size="{fitting:.1}">"#));
        pen.words("hops", Anchor::Start, (part.from + 2.0, baseline), &words);
        pen.element("</g>");
    }
}

/// A bar for the legend.
pub fn sample(pen: &mut Pen, across: (f64, f64), top: f64) {
    let part = Part {
        from: across.0,
        to: across.1,
        begins: true,
        ends: true,
    };
    let row = Row {
        top,
        height: 13.0,
        size: SIZE,
    };
    pen.element(&format!(r#"<g font-size="{SIZE}">"#));
    piece(pen, part, [1, 3], row);
    for x in [part.from + 0.7, part.to - 0.7] {
        pen.line("edge", (x, top), (x, row.bottom()));
    }
    pen.element("</g>");
}
