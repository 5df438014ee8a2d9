//! The columns of the timeline: one for each record, and short ones of time in which nothing changes.

use std::collections::BTreeSet;
use std::ops::Range;

use super::labels::Tags;
use super::letters::width;
use super::steps::Step;
use super::ways;

/// The width of a record's column.
const COLUMN: f64 = 15.0;
/// The least width of a column of time.
const MOMENT: f64 = 3.0;
/// Columns of time are at most about so wide, so that a line can end in the middle of a long run.
const BREAKABLE: f64 = 40.0;
/// The most that a tick is wide.
const WIDEST_TICK: f64 = 6.0;
/// How much of a line the longest run of ticks may take.
const LONGEST_RUN: f64 = 0.55;
/// How many lines all ticks together may take, at least.
const LINES: f64 = 4.0;
/// How much of the length of all records they may take, if that is more.
const SHARE: f64 = 0.7;

/// A column.
#[derive(Clone, Debug)]
pub struct Cell {
    /// The steps in it.
    pub steps: Range<usize>,
    /// The ticks among them.
    pub ticks: u64,
    /// The run of time that it is a part of; none for a record's own column.
    pub run: Option<usize>,
    /// Whether something begins here: a record, a run of time, or a change in it.
    pub opens: bool,
    /// West and east request in it.
    pub requests: Option<[u8; 2]>,
    /// How wide it is drawn.
    pub width: f64,
}

/// The width of one tick: one for the whole drill, so that the longest run fits well within a line.
pub fn scale(steps: &[Step], line: f64) -> f64 {
    let runs = steps.chunk_by(|one, next| one.is_time() == next.is_time());
    let ticks = runs.map(|run| run.iter().map(Step::ticks).sum());
    let (longest, all) = ticks.fold((1, 1), |(longest, all), ticks: u64| {
        (ticks.max(longest), all + ticks)
    });
    let records = steps.iter().filter(|step| !step.is_time());
    let records = records.map(|_| 1).sum();
    let room = (LINES * line).max(SHARE * COLUMN * as_length(records));
    let fitting = LONGEST_RUN * line / as_length(longest);
    WIDEST_TICK.min(fitting).min(room / as_length(all))
}

/// Numbers of records and ticks are far below those that a float cannot hold.
fn as_length(number: u64) -> f64 {
    number as f64
}

/// The columns of a drill. No column of time has a change in it but at its beginning.
pub fn cells(steps: &[Step], changes: &BTreeSet<usize>, tags: &Tags, tick: f64) -> Vec<Cell> {
    let most = (BREAKABLE / tick).max(1.0) as u64;
    let mut cells: Vec<Cell> = Vec::new();
    let mut runs = 0;
    for (place, step) in steps.iter().enumerate() {
        let before = cells.last_mut();
        let run_before = before.as_ref().and_then(|cell| cell.run);
        let changed = changes.contains(&place)
            || before.as_ref().map(|cell| cell.requests) != Some(step.requests);
        match before {
            Some(cell) if goes_on(cell, step, most) && !changed => {
                cell.steps.end = place + 1;
                cell.ticks += step.ticks();
            }
            _ => {
                runs += usize::from(step.is_time() && run_before.is_none());
                cells.push(Cell {
                    steps: place..place + 1,
                    ticks: step.ticks(),
                    run: step.is_time().then_some(runs),
                    opens: changed || run_before.is_none() || !step.is_time(),
                    requests: step.requests,
                    width: 0.0,
                });
            }
        }
    }
    for cell in &mut cells {
        cell.width = natural(cell, steps, tags, tick);
    }
    cells
}

fn goes_on(cell: &Cell, step: &Step, most: u64) -> bool {
    cell.run.is_some() && step.is_time() && cell.ticks < most
}

fn natural(cell: &Cell, steps: &[Step], tags: &Tags, tick: f64) -> f64 {
    if cell.run.is_some() {
        return (tick * cell.ticks as f64).max(MOMENT);
    }
    let Some(step) = steps.get(cell.steps.start) else {
        return COLUMN;
    };
    let refusal = step
        .refusal()
        .map_or(0.0, |refusal| width(&refusal.to_string(), ways::SIZE) + 4.0);
    let way = ways::answer(step, tags).map_or(0.0, |answer| answer.room());
    COLUMN.max(refusal).max(way)
}

/// Makes room from one column to another, which is not in it.
pub fn widen(cells: &mut [Cell], columns: Range<usize>, needed: f64) {
    let Some(columns) = cells.get_mut(columns) else {
        return;
    };
    let mut missing = needed;
    for cell in columns.iter() {
        missing -= cell.width;
        if missing <= 0.0 {
            return;
        }
    }
    if let Some(first) = columns.first_mut() {
        first.width += missing;
    }
}
