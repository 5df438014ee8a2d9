//! What the words of a line stand for: a name, or records. One function for each first word.

use crate::codes::{ASKED, REQUESTS, SPANS, STATUSES};
use crate::entries::Entry;
use crate::hex::{self, LONGEST_RUN};
use crate::names::{is_name, Names};
use crate::reading::{MOST_BYTES, TOO_LONG};
use crate::record::Record;
use crate::records::{Bytes, Report, Settings, LONGEST_BLOCK};
use crate::run::Run;
use crate::slip::Slip;
use crate::words::{code, code_words, Words, END};

/// The most ticks that one line stands for: more than the longest WTR.
pub(crate) const MOST_TICKS: usize = 2_000_000;
/// The settings that have a word.
const SETTINGS: &[&str] = &[
    "address",
    "level",
    "wtr",
    "hold-off",
    "keepalive",
    "fast",
    "slow",
    "forget",
];
/// The first words of a line.
const FIRST: &[&str] = &[
    "name",
    "settings",
    "tick",
    "ticks",
    "link",
    "keepalive",
    "operator",
    "report",
    "attributes",
    "way",
    "bytes",
];

/// What the words of a line stand for; none if the line has none, or gives a name.
pub(crate) fn content(words: &mut Words, names: &mut Names) -> Result<Option<Run>, Slip> {
    if words.peek().is_none() {
        return Ok(None);
    }
    let record = match words.one_of(FIRST)? {
        "name" => return name(words, names).map(|()| None),
        "tick" => return ticks(words).map(Some),
        // One record of kind 7, with any count, so that a bad one can be tried.
        "ticks" => Record::Ticks(words.two_bytes()?),
        "settings" => settings(words, names)?,
        "link" => Record::Link(words.code(SPANS)?, words.code(STATUSES)?),
        "keepalive" => Record::Keepalive(words.code(SPANS)?),
        "operator" => Record::Operator(words.code(SPANS)?, words.code(ASKED)?),
        "report" => report(words, names)?,
        "attributes" => attributes(words, names)?,
        "way" => Record::Way(address(words, names)?),
        _ => Record::Bytes(bytes(words)?),
    };
    Ok(Some(Run::once(record)))
}

/// `name B 02-00-00-00-00-02`
fn name(words: &mut Words, names: &mut Names) -> Result<(), Slip> {
    let could =
        || "a name: a letter, then letters, digits, '-', '_' and '.', and no address".to_string();
    let name = words.value(|word| is_name(word).then(|| word.to_string()), could)?;
    if let Some(address) = names.address(&name) {
        let known = hex::dashed(address);
        return Err(words.slip_back(format!("a name that is not taken; this one is {known}")));
    }
    let could = || "an address such as 02-00-00-00-00-02".to_string();
    let address = words.value(hex::undashed, could)?;
    names.give(&name, address);
    Ok(())
}

/// An address, or a name that was given before.
fn address(words: &mut Words, names: &Names) -> Result<u64, Slip> {
    let read = |word: &str| hex::undashed(word).or_else(|| names.address(word));
    words.value(read, || {
        let known: Vec<&str> = names.all().collect();
        let known = match &known[..] {
            [] => "a name given in a line above".to_string(),
            known => format!("one of the names {}", known.join(", ")),
        };
        format!("an address such as 02-00-00-00-00-02, or {known}")
    })
}

/// `tick`, `tick 30`, `tick 1000 keepalive 40`
fn ticks(words: &mut Words) -> Result<Run, Slip> {
    let mut run = Run::once(Record::Tick);
    if words.peek().is_some() {
        run.times = words.value(count, || format!("a number from 1 to {MOST_TICKS}, {END}"))?;
    }
    if words.peek().is_some() {
        if !words.take_if("keepalive") {
            return Err(words.slip(format!("keepalive, {END}")));
        }
        run.alive = Some(words.value(count, || format!("a number from 1 to {MOST_TICKS}"))?);
    }
    Ok(run)
}

/// A number of ticks.
fn count(word: &str) -> Option<u64> {
    let count: usize = hex::decimal(word)?;
    (1..=MOST_TICKS)
        .contains(&count)
        .then_some(u64::try_from(count).ok()?)
}

/// `settings ..`, each setting behind its word; `settings short`, with the address alone
fn settings(words: &mut Words, names: &Names) -> Result<Record, Slip> {
    if words.take_if("short") {
        let mut left = vec!["address"];
        return Ok(Record::ShortSettings(match words.peek() {
            None => 0,
            Some(_) => {
                option(words, &mut left, "")?;
                address(words, names)?
            }
        }));
    }
    let mut settings = Settings::DEFAULT;
    let mut left = SETTINGS.to_vec();
    while words.peek().is_some() {
        let or = if left.len() == SETTINGS.len() {
            "short, "
        } else {
            ""
        };
        match option(words, &mut left, or)? {
            "address" => settings.address = address(words, names)?,
            "level" => settings.level = words.byte()?,
            "wtr" => settings.wtr = words.two_bytes()?,
            "hold-off" => settings.hold_off = words.byte()?,
            "keepalive" => settings.keepalive = words.byte()?,
            "fast" => settings.fast = words.byte()?,
            "slow" => settings.slow = words.byte()?,
            _ => settings.forget = words.two_bytes()?,
        }
    }
    Ok(Record::Settings(settings))
}

/// Takes one of the words left, which is then no longer left.
fn option<'l>(words: &mut Words, left: &mut Vec<&'l str>, or: &str) -> Result<&'l str, Slip> {
    let could = || format!("{or}{}, {END}", left.join(", "));
    let found = |word: &str| left.iter().position(|name| name.eq_ignore_ascii_case(word));
    let place = words.value(found, could)?;
    Ok(left.remove(place))
}

/// `report west from B hop 1 sequence 7 idle idle`; `ttl` in place of `hop`, `ringlet` where it is not the span's
fn report(words: &mut Words, names: &Names) -> Result<Record, Slip> {
    let span = words.code(SPANS)?;
    words.word("from")?;
    let mut report = Report {
        span,
        ringlet: span,
        ttl: 0,
        address: address(words, names)?,
        sequence: 0,
        requests: [0, 0],
    };
    report.ttl = ttl(words)?;
    let mut left = vec!["sequence", "ringlet"];
    while let Some(word) = words.peek() {
        if left.iter().any(|name| name.eq_ignore_ascii_case(word)) {
            match option(words, &mut left, "")? {
                "sequence" => report.sequence = words.byte()?,
                _ => report.ringlet = words.byte()?,
            }
        } else {
            let could = || {
                let words = [&left[..], &["west and east request"]].concat();
                let words = words.join(", ");
                format!("{words} ({}), {END}", code_words(REQUESTS))
            };
            let west = words.value(|word| code(REQUESTS, word), could)?;
            report.requests = [west, words.code(REQUESTS)?];
            break;
        }
    }
    Ok(Record::Report(report))
}

/// `hop 1`, or `ttl 255`
fn ttl(words: &mut Words) -> Result<u8, Slip> {
    if words.take_if("hop") {
        let hop = words.number(1, 255)?;
        return Ok(u8::try_from(256 - hop).unwrap_or(0));
    }
    if words.take_if("ttl") {
        return words.byte();
    }
    Err(words.slip("hop or ttl"))
}

/// `attributes west from B weights 3 5 reserved 1000 0`; `block` with bytes for any other block
fn attributes(words: &mut Words, names: &Names) -> Result<Record, Slip> {
    let span = words.code(SPANS)?;
    words.word("from")?;
    let from = address(words, names)?;
    let here = words.clone();
    let block = if words.take_if("block") {
        bytes(words)?
    } else {
        entries(words)?
    };
    if block.len() > LONGEST_BLOCK {
        return Err(here.slip(format!(
            "a block of at most {LONGEST_BLOCK} bytes; a longer record is said with bytes"
        )));
    }
    Ok(Record::Attributes(span, from, block))
}

fn entries(words: &mut Words) -> Result<Bytes, Slip> {
    let mut block = Vec::new();
    while words.peek().is_some() {
        let entry = if words.take_if("weights") {
            Entry::Weights(words.byte()?, words.byte()?)
        } else if words.take_if("reserved") {
            Entry::Reserved(words.two_bytes()?, words.two_bytes()?)
        } else if block.is_empty() {
            return Err(words.slip(format!("weights, reserved, block, {END}")));
        } else {
            return Err(words.slip(format!("weights, reserved, {END}")));
        };
        block.extend(entry.bytes());
    }
    Ok(block)
}

/// Bytes up to the end of the line.
fn bytes(words: &mut Words) -> Result<Bytes, Slip> {
    let mut bytes = Vec::new();
    while words.peek().is_some() {
        let could =
            || format!("bytes such as 0A or 0A0B, up to {LONGEST_RUN} alike such as 00*9, {END}");
        bytes.extend(words.value(hex::bytes, could)?);
        if bytes.len() > MOST_BYTES {
            return Err(words.slip_back(TOO_LONG));
        }
    }
    Ok(bytes)
}
