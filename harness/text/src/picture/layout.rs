//! Where each column stands: lines of columns, as wide as the page, with room for what has to be read in them.

use std::collections::BTreeSet;
use std::ops::Range;

use crate::stations::Stay;

use super::bars;
use super::cells::{cells, scale, widen, Cell};
use super::labels::Tags;
use super::steps::Step;

/// The width of the picture.
pub const PAGE: f64 = 1120.0;
/// Where the timeline begins.
pub const LEFT: f64 = 118.0;
/// The edge of the page.
pub const MARGIN: f64 = 14.0;
/// The least width of a request's area: its code, read upwards, fits in.
pub const CODE: f64 = 12.0;
/// The width of a line of columns; the last and the first column may have to give a code some room.
const LINE: f64 = PAGE - LEFT - MARGIN - 2.0 * CODE;

/// How much of a strip has to be filled.
const FULL_ENOUGH: f64 = 0.75;
/// How much a short drill may be stretched.
const MOST_STRETCHED: f64 = 2.4;

/// The columns of a drill, parted into strips.
#[derive(Clone, Debug)]
pub struct Layout {
    /// All columns.
    pub cells: Vec<Cell>,
    /// The columns of each strip.
    pub strips: Vec<Range<usize>>,
    /// The width of one tick.
    pub tick: f64,
    /// The left edge of each column.
    edges: Vec<f64>,
}

/// A part of a strip.
#[derive(Clone, Copy, Debug)]
pub struct Part {
    /// Its left edge.
    pub from: f64,
    /// Its right edge.
    pub to: f64,
    /// Whether what it shows begins here, not in a strip before.
    pub begins: bool,
    /// Whether it ends here.
    pub ends: bool,
}

impl Part {
    /// How wide it is.
    pub fn width(&self) -> f64 {
        self.to - self.from
    }
}

impl Layout {
    /// Lays out a drill.
    pub fn of(steps: &[Step], stays: &[Stay], tags: &Tags) -> Layout {
        let tick = scale(steps, LINE);
        let mut layout = Layout {
            cells: cells(steps, &changes(stays), tags, tick),
            strips: Vec::new(),
            tick,
            edges: Vec::new(),
        };
        let all = 0..layout.cells.len();
        for run in layout.runs(&all) {
            widen(&mut layout.cells, run, CODE);
        }
        for span in 0..2 {
            for area in layout.areas(&all, span) {
                widen(&mut layout.cells, area, CODE);
            }
        }
        for (columns, hops) in stays
            .iter()
            .flat_map(|stay| layout.hops(stay))
            .collect::<Vec<_>>()
        {
            widen(&mut layout.cells, columns, bars::room(hops));
        }
        layout.part();
        layout.mend();
        layout.stretch();
        layout.edges = layout.edges();
        layout
    }

    /// Parts the columns into as few strips as there have to be, all about as long.
    fn part(&mut self) {
        let fewest = filled(&self.cells, LINE).len();
        let (mut short, mut long) = (0.0, LINE);
        for _ in 0..12 {
            let middle = (short + long) / 2.0;
            if filled(&self.cells, middle).len() > fewest {
                short = middle;
            } else {
                long = middle;
            }
        }
        self.strips = filled(&self.cells, long);
    }

    /// Uses the width of the page, up to a point.
    fn stretch(&mut self) {
        let widths = self.strips.iter().map(|strip| {
            let cells = self.cells.get(strip.clone()).unwrap_or_default();
            cells.iter().map(|cell| cell.width).sum()
        });
        let longest = widths.fold(1.0, f64::max);
        let more = (PAGE - LEFT - MARGIN - 6.0) / longest;
        let more = more.clamp(1.0, MOST_STRETCHED);
        for cell in &mut self.cells {
            cell.width *= more;
        }
        self.tick *= more;
    }

    /// A request that is parted by the end of a strip has room for its code on both sides.
    fn mend(&mut self) {
        for strip in self.strips.clone() {
            for span in 0..2 {
                let areas = self.areas(&strip, span);
                let at_edges = areas.first().into_iter().chain(areas.last());
                for area in at_edges.cloned() {
                    widen(&mut self.cells, area, CODE);
                }
            }
        }
    }

    fn edges(&self) -> Vec<f64> {
        let strips = self.strips.iter().map(|strip| {
            let mut edge = LEFT;
            let cells = self.cells.get(strip.clone()).unwrap_or_default();
            let edges = cells.iter().map(move |cell| {
                let left = edge;
                edge += cell.width;
                left
            });
            edges
        });
        strips.flatten().collect()
    }

    /// The columns of a strip with their left edges.
    pub fn columns(&self, strip: &Range<usize>) -> impl Iterator<Item = (f64, &Cell)> {
        let cells = self.cells.get(strip.clone()).unwrap_or_default();
        let edges = self.edges.get(strip.clone()).unwrap_or_default();
        edges.iter().copied().zip(cells)
    }

    /// Columns of a strip in which the request on a span is the same.
    pub fn areas(&self, strip: &Range<usize>, span: usize) -> Vec<Range<usize>> {
        let request = |cell: &Cell| {
            cell.requests
                .and_then(|requests| requests.get(span).copied())
        };
        let cells = self.cells.get(strip.clone()).unwrap_or_default();
        let mut next = strip.start;
        let areas = cells.chunk_by(|one, other| request(one) == request(other));
        let areas = areas.map(|area| {
            let first = next;
            next += area.len();
            first..next
        });
        areas.collect()
    }

    /// The runs of time in a strip in which time passes.
    pub fn runs(&self, strip: &Range<usize>) -> Vec<Range<usize>> {
        let cells = self.cells.get(strip.clone()).unwrap_or_default();
        let mut next = strip.start;
        let mut runs = Vec::new();
        for run in cells.chunk_by(|one, other| one.run.is_some() && one.run == other.run) {
            if run.iter().any(|cell| cell.ticks > 0) {
                runs.push(next..next + run.len());
            }
            next += run.len();
        }
        runs
    }

    /// What a strip shows of some columns.
    pub fn part_of(&self, strip: &Range<usize>, columns: &Range<usize>) -> Option<Part> {
        let first = columns.start.max(strip.start);
        let end = columns.end.min(strip.end);
        if first >= end {
            return None;
        }
        let last = end - 1;
        Some(Part {
            from: *self.edges.get(first)?,
            to: *self.edges.get(last)? + self.cells.get(last)?.width,
            begins: first == columns.start,
            ends: end == columns.end,
        })
    }

    /// The right edge of a strip.
    pub fn right(&self, strip: &Range<usize>) -> f64 {
        self.part_of(strip, strip).map_or(LEFT, |part| part.to)
    }

    /// The columns in which a station is there.
    pub fn stay(&self, stay: &Stay) -> Range<usize> {
        let end = stay.to.map_or(self.cells.len(), |to| self.column(to));
        self.column(stay.from)..end
    }

    /// The columns in which a station has the same hops.
    pub fn hops(&self, stay: &Stay) -> Vec<(Range<usize>, [u8; 2])> {
        let ends = stay
            .hops
            .iter()
            .skip(1)
            .map(|&(place, _)| self.column(place));
        let ends = ends.chain([self.stay(stay).end]);
        let begins = stay.hops.iter();
        let parts = begins.zip(ends);
        parts
            .map(|(&(place, hops), end)| (self.column(place)..end, hops))
            .collect()
    }

    /// The column that a record of the play is in.
    fn column(&self, place: usize) -> usize {
        let step = place.saturating_sub(1);
        self.cells.partition_point(|cell| cell.steps.end <= step)
    }
}

/// Columns in strips of at most this width.
fn filled(cells: &[Cell], width: f64) -> Vec<Range<usize>> {
    let mut strips = Vec::new();
    let mut start = 0;
    while start < cells.len() {
        let end = end(cells, start, width);
        strips.push(start..end);
        start = end;
    }
    strips
}

/// The end of a strip: behind a run of time, if that does not leave too much of it empty; records that belong together stay so.
fn end(cells: &[Cell], start: usize, width: f64) -> usize {
    let mut filled = 0.0;
    let mut behind_run = None;
    let mut was_time = false;
    for (place, cell) in cells.iter().enumerate().skip(start) {
        if was_time && cell.run.is_none() && filled >= FULL_ENOUGH * width {
            behind_run = Some(place);
        }
        filled += cell.width;
        if filled > width && place > start {
            return behind_run.unwrap_or(place);
        }
        was_time = cell.run.is_some();
    }
    cells.len()
}

/// The steps at which the table changes.
fn changes(stays: &[Stay]) -> BTreeSet<usize> {
    let places = stays.iter().flat_map(|stay| {
        let hops = stay.hops.iter().map(|&(place, _)| place);
        hops.chain([stay.from]).chain(stay.to)
    });
    places.map(|place| place.saturating_sub(1)).collect()
}
