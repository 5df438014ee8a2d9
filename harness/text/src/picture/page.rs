//! The head of the picture.

use crate::record::Record;
use crate::records::Settings;
use crate::saying::times;

use super::layout::{MARGIN, PAGE};
use super::letters::{fit, lines};
use super::steps::refused_settings;
use super::svg::{Anchor, Pen};
use super::Sheet;

/// The size of the letters of notes.
const NOTE: f64 = 12.0;
/// How high a line of notes is.
const STEP: f64 = 16.0;

/// Draws the head; how high it is.
pub fn head(sheet: &Sheet, addresses: Option<String>, pen: &mut Pen) -> f64 {
    let room = PAGE - 2.0 * MARGIN;
    let mut y = 26.0;
    let title = fit(sheet.name, 17.0, room);
    pen.words("title", Anchor::Start, (MARGIN, y), &title);
    let settings = settings(sheet);
    let notes = sheet
        .note
        .into_iter()
        .chain([&settings[..]])
        .chain(addresses.as_deref());
    for line in notes.flat_map(|note| lines(note, NOTE, room)) {
        y += STEP;
        pen.words("note", Anchor::Start, (MARGIN, y), &line);
    }
    y + 14.0
}

/// The settings in words, or that they were refused.
pub fn settings(sheet: &Sheet) -> String {
    if let Some(refusal) = refused_settings(sheet.play) {
        return format!("settings refused ({refusal}): the drill ends");
    }
    match sheet.play.told.first().map(|told| &told.record) {
        Some(Record::Settings(settings)) => {
            format!(
                "node {}: {}",
                sheet.names.of(settings.address),
                times(settings)
            )
        }
        Some(Record::ShortSettings(address)) => {
            format!(
                "node {}: {}",
                sheet.names.of(*address),
                times(&Settings::DEFAULT)
            )
        }
        _ => String::new(),
    }
}
