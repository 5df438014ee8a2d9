//! Records in words. What is written here is read back as the same record.

use crate::codes::{word, ASKED, REQUESTS, SPANS, STATUSES};
use crate::entries::{entries, Entry};
use crate::grammar::MOST_TICKS;
use crate::hex;
use crate::names::Names;
use crate::pieces;
use crate::record::Record;
use crate::records::{Report, Settings};

/// The text of a drill in bytes: a line for each record, one for a run of ticks.
pub fn text(bytes: &[u8]) -> String {
    plain(&pieces::records(bytes))
}

/// The same for records at hand.
pub fn plain(records: &[Record]) -> String {
    let some = records
        .iter()
        .filter(|record| !matches!(record, Record::Bytes(bytes) if bytes.is_empty()));
    let some: Vec<&Record> = some.collect();
    let runs = some.chunk_by(|one, next| **one == Record::Tick && one == next);
    let runs = runs.flat_map(|run| run.chunks(MOST_TICKS));
    let lines = runs.map(|run| match run {
        [one] => words(one, &Names::default()) + "\n",
        run => ticks(run.len()) + "\n",
    });
    lines.collect()
}

/// So many ticks in words, each a record of its own.
pub fn ticks(count: usize) -> String {
    format!("tick {count}")
}

/// A record in words, with the names that addresses have.
pub fn words(record: &Record, names: &Names) -> String {
    match record {
        Record::Settings(settings) => full(settings, names),
        Record::ShortSettings(address) => format!("settings short address {}", names.of(*address)),
        Record::Tick => "tick".to_string(),
        Record::Link(span, status) => {
            format!("link {} {}", word(SPANS, *span), word(STATUSES, *status))
        }
        Record::Keepalive(span) => format!("keepalive {}", word(SPANS, *span)),
        Record::Operator(span, request) => {
            format!("operator {} {}", word(SPANS, *span), word(ASKED, *request))
        }
        Record::Report(report) => heard(report, names),
        Record::Attributes(span, address, block) => {
            let from = names.of(*address);
            format!(
                "attributes {} from {from}{}",
                word(SPANS, *span),
                attributes(block)
            )
        }
        Record::Ticks(count) => format!("ticks {count}"),
        Record::Way(address) => format!("way {}", names.of(*address)),
        Record::Bytes(bytes) => format!("bytes {}", hex::list(bytes)).trim_end().to_string(),
    }
}

/// The settings that a drill mostly turns on are always named, the others where they are not the default.
fn full(settings: &Settings, names: &Names) -> String {
    let usual = Settings::DEFAULT;
    let mut text = format!("settings address {}", names.of(settings.address));
    let mut add = |always: bool, name: &str, value: u16, default: u16| {
        if always || value != default {
            text += &format!(" {name} {value}");
        }
    };
    add(false, "level", settings.level.into(), usual.level.into());
    add(true, "wtr", settings.wtr, usual.wtr);
    add(
        false,
        "hold-off",
        settings.hold_off.into(),
        usual.hold_off.into(),
    );
    add(
        true,
        "keepalive",
        settings.keepalive.into(),
        usual.keepalive.into(),
    );
    add(false, "fast", settings.fast.into(), usual.fast.into());
    add(false, "slow", settings.slow.into(), usual.slow.into());
    add(true, "forget", settings.forget, usual.forget);
    text
}

fn heard(report: &Report, names: &Names) -> String {
    let place = place(report.ttl);
    let ringlet = if report.ringlet == report.span {
        String::new()
    } else {
        format!(" ringlet {}", report.ringlet)
    };
    let [west, east] = report.requests.map(|request| word(REQUESTS, request));
    let (span, from) = (word(SPANS, report.span), names.of(report.address));
    let sequence = report.sequence;
    format!("report {span} from {from} {place}{ringlet} sequence {sequence} {west} {east}")
}

/// A TTL as the hop that it tells, if it tells one.
pub fn place(ttl: u8) -> String {
    match ttl {
        0 => "ttl 0".to_string(),
        ttl => format!("hop {}", 256 - u16::from(ttl)),
    }
}

/// A block as its entries, if they all have words, else as bytes.
fn attributes(block: &[u8]) -> String {
    match entries(block) {
        None => format!(" block {}", hex::list(block)),
        Some(entries) => entries.iter().map(entry).collect(),
    }
}

fn entry(entry: &Entry) -> String {
    match entry {
        Entry::Weights(zero, one) => format!(" weights {zero} {one}"),
        Entry::Reserved(zero, one) => format!(" reserved {zero} {one}"),
    }
}
