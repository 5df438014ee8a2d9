//! Short words for records, and short forms of addresses.

use std::collections::{BTreeMap, BTreeSet};

use crate::codes::{request, word, ASKED, SPANS, STATUSES};
use crate::hex;
use crate::names::Names;
use crate::record::Record;
use crate::records::{wire, Report};
use crate::writing::place;

use super::letters::fit;
use super::steps::Step;

/// The size of the letters in which records are written.
pub const WORDS: f64 = 9.0;
/// The most room for the words of a record.
const ROOM: f64 = 240.0;

/// What addresses are called.
pub struct Tags<'d> {
    names: &'d Names,
    /// The first bytes that most addresses without a name share.
    shared: Option<[u8; 5]>,
}

impl<'d> Tags<'d> {
    /// Most addresses of a drill differ only in their last byte; those are called by it.
    pub fn of(names: &'d Names, steps: &[Step]) -> Tags<'d> {
        let unnamed = steps.iter().filter_map(|step| address(step.record));
        let unnamed = unnamed.filter(|&address| names.of(address) == hex::dashed(address));
        let unnamed: BTreeSet<u64> = unnamed.collect();
        let mut counts: BTreeMap<[u8; 5], usize> = BTreeMap::new();
        for address in unnamed {
            *counts.entry(first_bytes(address)).or_default() += 1;
        }
        let most = counts.into_iter().max_by_key(|&(_, count)| count);
        Tags {
            names,
            shared: most.map(|(first, _)| first),
        }
    }

    /// The name of an address, its last byte, or all of it.
    pub fn short(&self, address: u64) -> String {
        let whole = self.whole(address);
        let [.., last] = wire(address);
        if whole == hex::dashed(address) && self.shared == Some(first_bytes(address)) {
            return format!("-{last:02X}");
        }
        whole
    }

    /// The name of an address, or all of it.
    pub fn whole(&self, address: u64) -> String {
        self.names.of(address)
    }

    /// What the short forms stand for.
    pub fn note(&self) -> Option<String> {
        let [a, b, c, d, e] = self.shared?;
        Some(format!("stations are called by their last byte: -0F is {a:02X}-{b:02X}-{c:02X}-{d:02X}-{e:02X}-0F"))
    }
}

fn first_bytes(address: u64) -> [u8; 5] {
    let [first @ .., _] = wire(address);
    first
}

fn address(record: &Record) -> Option<u64> {
    match record {
        Record::Report(report) => Some(report.address),
        Record::Attributes(_, address, _) | Record::Way(address) => Some(*address),
        _ => None,
    }
}

/// A record in few words.
pub fn label(step: &Step, tags: &Tags) -> String {
    if step.is_end() {
        return "cut or bad length: the drill ends".to_string();
    }
    let words = match step.record {
        Record::Settings(_) | Record::ShortSettings(_) => "settings".to_string(),
        Record::Tick => "tick".to_string(),
        Record::Ticks(count) => format!("ticks {count}"),
        Record::Keepalive(span) => format!("keepalive {}", word(SPANS, *span)),
        Record::Link(span, status) => {
            format!("link {} {}", word(SPANS, *span), word(STATUSES, *status))
        }
        Record::Operator(span, asked) => {
            let asked = match asked {
                0 => word(ASKED, 0),
                asked => request(*asked),
            };
            format!("operator {} {asked}", word(SPANS, *span))
        }
        Record::Report(report) => heard(report, tags),
        Record::Attributes(span, from, _) => {
            format!("attributes {} {}", word(SPANS, *span), tags.short(*from))
        }
        Record::Way(to) => format!("way {}", tags.short(*to)),
        // No more of them than there is room for.
        Record::Bytes(bytes) => {
            let some: Vec<u8> = bytes.iter().take(16).copied().collect();
            format!("bytes {}", hex::list(&some))
        }
    };
    fit(&words, WORDS, ROOM)
}

fn heard(report: &Report, tags: &Tags) -> String {
    let (span, from) = (word(SPANS, report.span), tags.short(report.address));
    let place = place(report.ttl);
    let mut words = format!("report {span} {from} {place} seq {}", report.sequence);
    if report.ringlet != report.span {
        words += &format!(" ringlet {}", report.ringlet);
    }
    if report.requests != [0, 0] {
        let [west, east] = report.requests.map(request);
        words += &format!(" {west} {east}");
    }
    words
}
