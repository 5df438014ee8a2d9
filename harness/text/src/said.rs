//! A line that the program prints.

use crate::hex::decimal;

/// What a line says.
#[derive(Clone, Copy, Debug, PartialEq, Eq)]
pub enum Said {
    /// The settings were refused by this number.
    Settings(u8),
    /// The line of the record with this number.
    Line(u64, Answer),
}

/// The answer to one record.
#[derive(Clone, Copy, Debug, PartialEq, Eq)]
pub enum Answer {
    /// A full line.
    Full(Full),
    /// The reply to a question.
    Way(Way),
    /// A question refused (4), or a record that ends the drill (2).
    Short(u8),
}

/// The fields of a question's line behind the word `way`. Where no way is chosen, all but the reply are 0.
#[derive(Clone, Copy, Debug, PartialEq, Eq)]
pub struct Way {
    /// West, east, no way, or not in the table.
    pub reply: u8,
    /// Hops, and spans, to the station.
    pub hops: u8,
    /// The worst request on them.
    pub worst: u8,
    /// The first span that has it, from 1, which touches us.
    pub span: u8,
}

/// The fields of a full line behind the number.
#[derive(Clone, Copy, Debug, PartialEq, Eq)]
pub struct Full {
    /// The number returned.
    pub result: u8,
    /// West and east request.
    pub requests: [u8; 2],
    /// The own sequence.
    pub sequence: u8,
    /// Stations in the table.
    pub stations: u16,
    /// Reports written.
    pub reports: u16,
}

impl Said {
    /// What a line says; none if the program prints no such line.
    pub fn of(line: &str) -> Option<Said> {
        let fields: Vec<&str> = line.split(' ').collect();
        if let ["settings", refusal] = fields[..] {
            return Some(Said::Settings(decimal(refusal)?));
        }
        let (number, rest) = fields.split_first()?;
        Some(Said::Line(decimal(number)?, Answer::of(rest)?))
    }
}

impl Answer {
    fn of(fields: &[&str]) -> Option<Answer> {
        Some(match fields {
            ["way", reply, hops, worst, span] => Answer::Way(Way {
                reply: decimal(reply)?,
                hops: decimal(hops)?,
                worst: decimal(worst)?,
                span: decimal(span)?,
            }),
            [refusal] => Answer::Short(decimal(refusal)?),
            [result, west, east, sequence, stations, reports] => Answer::Full(Full {
                result: decimal(result)?,
                requests: [decimal(west)?, decimal(east)?],
                sequence: decimal(sequence)?,
                stations: decimal(stations)?,
                reports: decimal(reports)?,
            }),
            _ => return None,
        })
    }

    /// The fields of a full line.
    pub fn full(&self) -> Option<&Full> {
        match self {
            Answer::Full(full) => Some(full),
            _ => None,
        }
    }
}

/// The names of a line's fields, for lines with the same number of fields.
pub fn fields(count: usize) -> &'static [&'static str] {
    match count {
        2 => &["number", "refusal"],
        6 => &["number", "way", "reply", "hops", "worst", "span"],
        _ => &[
            "number", "result", "west", "east", "sequence", "stations", "reports",
        ],
    }
}

#[cfg(test)]
mod tests {
    use super::*;

    #[test]
    fn lines_of_each_sort_are_read() {
        let full = Full {
            result: 22,
            requests: [1, 2],
            sequence: 3,
            stations: 4,
            reports: 1,
        };
        assert_eq!(
            Said::of("5 22 1 2 3 4 1"),
            Some(Said::Line(5, Answer::Full(full)))
        );
        let way = Way {
            reply: 1,
            hops: 63,
            worst: 3,
            span: 40,
        };
        assert_eq!(
            Said::of("6 way 1 63 3 40"),
            Some(Said::Line(6, Answer::Way(way)))
        );
        assert_eq!(Said::of("7 4"), Some(Said::Line(7, Answer::Short(4))));
        assert_eq!(Said::of("settings 4"), Some(Said::Settings(4)));
        for line in [
            "",
            "settings",
            "1",
            "1 0 0 0 0 1",
            "1  2",
            "x 2",
            "1 way",
            "1 way 3",
            "1 way 0 2 3",
            "1 way 0 2 3 1 0",
            "1 way 0 256 3 1",
            "1 0 0 0 0 1 0 0",
        ] {
            assert_eq!(Said::of(line), None, "{line}");
        }
    }
}
