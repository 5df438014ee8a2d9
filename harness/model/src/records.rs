//! House records: their head, the bodies of the events, and the report to send.
//! Reading gives an event or the number of the refusal; it never looks at the state.

use crate::faults::{wrong, Fault};
use crate::spans::{Request, Status};

/// Output room below 7 bytes, or below 7 for each tick of kind 7.
pub const NO_ROOM: u8 = 1;
/// Fewer than 4 bytes, length not bytes - 2, or length above 1,033.
pub const BAD_LENGTH: u8 = 2;
/// Kind not one of this call.
pub const BAD_KIND: u8 = 3;
/// Wrong body length, a field out of range, or an odd first address byte.
pub const BAD_FIELD: u8 = 4;
/// Own address heard.
pub const OWN_ADDRESS: u8 = 5;
/// Hop above 63.
pub const HOP_TOO_HIGH: u8 = 6;
/// Attributes of a station not in the table.
pub const UNKNOWN_STATION: u8 = 7;
/// Block malformed.
pub const MALFORMED: u8 = 8;
/// Taken.
pub const TAKEN: u8 = 0;
/// Wrong ringlet.
pub const WRONG_RINGLET: u8 = 20;
/// Span down.
pub const SPAN_DOWN: u8 = 21;
/// Old report.
pub const OLD_REPORT: u8 = 22;
/// Block set aside.
pub const SET_ASIDE: u8 = 24;

/// The greatest value of the length field.
pub const LONGEST: usize = 1_033;
/// The longest record with its length field.
pub const RECORD_ROOM: usize = LONGEST + 2;
/// Bytes of a report to send.
pub const REPORT_BYTES: usize = 7;
/// The most ticks of one record.
pub const MOST_TICKS: u16 = 1_000;
/// Output room that suffices for every record: a report for each tick.
pub const OUTPUT_ROOM: usize = REPORT_BYTES * MOST_TICKS as usize;
/// The greatest hop number.
pub const HIGHEST_HOP: u8 = 63;

/// True for 1 to 8, which leave state and output untouched.
pub fn is_refusal(result: u8) -> bool {
    (1..=8).contains(&result)
}

/// Six bytes in wire order as a 48-bit number, first byte highest.
pub fn address(bytes: [u8; 6]) -> u64 {
    let [a, b, c, d, e, f] = bytes;
    u64::from_be_bytes([0, 0, a, b, c, d, e, f])
}

/// True if the first address byte is odd, which no station may have.
pub fn is_odd(address: u64) -> bool {
    (address >> 40) & 1 == 1
}

/// A report as it was heard. The hop is 256 - TTL and so 1 to 255.
#[derive(Clone, Copy, Debug)]
pub struct Report {
    /// Span that heard it.
    pub span: usize,
    /// Ringlet it names.
    pub ringlet: usize,
    /// Hops it came.
    pub hop: u8,
    /// Station that sent it.
    pub address: u64,
    /// Sequence of that station.
    pub sequence: u8,
    /// West and east request of that station.
    pub requests: [Request; 2],
}

/// Kinds 1 to 7.
#[derive(Clone, Copy, Debug)]
pub enum Event<'a> {
    /// One millisecond has passed.
    Tick,
    /// The card reports the link status of a span.
    Link(usize, Status),
    /// A keepalive came over a span.
    Keepalive(usize),
    /// The operator sets or clears a request on a span.
    Operator(usize, Request),
    /// A station's report came.
    Report(Report),
    /// A station's attribute block came: span, address, block.
    Attributes(usize, u64, &'a [u8]),
    /// So many milliseconds have passed.
    Ticks(u16),
}

/// Takes the head off: kind and body, or 2.
pub fn split(record: &[u8]) -> Result<(u16, &[u8]), u8> {
    let [low, high, kind_low, kind_high, body @ ..] = record else {
        return Err(BAD_LENGTH);
    };
    let length = usize::from(u16::from_le_bytes([*low, *high]));
    if length != record.len() - 2 || length > LONGEST {
        return Err(BAD_LENGTH);
    }
    Ok((u16::from_le_bytes([*kind_low, *kind_high]), body))
}

/// Reads an event record, or gives 2, 3 or 4.
pub fn event<const F: u8>(record: &[u8]) -> Result<Event<'_>, u8> {
    let (kind, body) = split(record)?;
    let read = match (kind, body) {
        (7, _) if wrong::<F>(Fault::Kind7Unknown) => return Err(BAD_KIND),
        (8, body) if wrong::<F>(Fault::Kind8Taken) => ticks::<F>(body),
        (1, []) => Some(Event::Tick),
        (2, &[at, status]) => link(at, status),
        (3, &[at]) => span(at).map(Event::Keepalive),
        (4, &[at, request]) => operator(at, request),
        (5, body) => report(body),
        (6, [at, a, b, c, d, e, f, block @ ..]) => attributes(*at, [*a, *b, *c, *d, *e, *f], block),
        (7, body) => ticks::<F>(body),
        (1..=6, _) => None,
        _ => return Err(BAD_KIND),
    };
    read.ok_or(BAD_FIELD)
}

fn span(number: u8) -> Option<usize> {
    (number <= 1).then_some(usize::from(number))
}

fn link<'a>(at: u8, status: u8) -> Option<Event<'a>> {
    Some(Event::Link(span(at)?, Status::from_code(status)?))
}

fn operator<'a>(at: u8, request: u8) -> Option<Event<'a>> {
    let request = Request::from_code(request)?;
    let listed = matches!(request, Request::Idle | Request::Ms | Request::Fs);
    listed.then_some(Event::Operator(span(at)?, request))
}

fn report<'a>(body: &[u8]) -> Option<Event<'a>> {
    let &[at, ringlet, ttl, a, b, c, d, e, f, sequence, west, east] = body else {
        return None;
    };
    let address = address([a, b, c, d, e, f]);
    if ttl == 0 || is_odd(address) {
        return None;
    }
    Some(Event::Report(Report {
        span: span(at)?,
        ringlet: span(ringlet)?,
        hop: ttl.wrapping_neg(),
        address,
        sequence,
        requests: [Request::from_code(west)?, Request::from_code(east)?],
    }))
}

fn attributes(at: u8, bytes: [u8; 6], block: &[u8]) -> Option<Event<'_>> {
    let address = address(bytes);
    if is_odd(address) {
        return None;
    }
    Some(Event::Attributes(span(at)?, address, block))
}

/// The count has two bytes, the low one first, and goes from 1 to 1,000.
fn ticks<'a, const F: u8>(body: &[u8]) -> Option<Event<'a>> {
    let count = count::<F>(body)?;
    let least = u16::from(!wrong::<F>(Fault::CountZeroTaken));
    let most = if wrong::<F>(Fault::Count1000Refused) {
        MOST_TICKS - 1
    } else if wrong::<F>(Fault::CountUnlimited) {
        u16::MAX
    } else {
        MOST_TICKS
    };
    (least..=most)
        .contains(&count)
        .then_some(Event::Ticks(count))
}

fn count<const F: u8>(body: &[u8]) -> Option<u16> {
    match *body {
        [high, low] if wrong::<F>(Fault::CountHighFirst) => Some(u16::from_be_bytes([high, low])),
        [low, _] if wrong::<F>(Fault::CountInOneByte) => Some(u16::from(low)),
        [low, high] => Some(u16::from_le_bytes([low, high])),
        [low, high, _] if wrong::<F>(Fault::LongerBodyTaken) => {
            Some(u16::from_le_bytes([low, high]))
        }
        [low] if wrong::<F>(Fault::ShorterBodyTaken) => Some(u16::from(low)),
        _ => None,
    }
}

/// A report to send, kind 16.
pub fn report_to_send(sequence: u8, pair: [Request; 2]) -> [u8; REPORT_BYTES] {
    [5, 0, 16, 0, sequence, pair[0] as u8, pair[1] as u8]
}

#[cfg(test)]
mod tests {
    use super::*;
    use crate::faults::RIGHT;

    #[test]
    fn heads_that_do_not_fit_are_2() {
        assert_eq!(split(&[]), Err(BAD_LENGTH));
        assert_eq!(split(&[1, 0, 1]), Err(BAD_LENGTH));
        assert_eq!(split(&[3, 0, 1, 0]), Err(BAD_LENGTH));
        assert_eq!(split(&[2, 0, 1, 0, 0]), Err(BAD_LENGTH));
        assert_eq!(split(&[2, 0, 1, 0]), Ok((1, &[][..])));
        let mut long = vec![0; 1_036];
        (long[0], long[1]) = (0x0A, 0x04);
        assert_eq!(split(&long), Err(BAD_LENGTH));
        long.pop();
        (long[0], long[1]) = (0x09, 0x04);
        assert!(split(&long).is_ok());
    }

    #[test]
    fn lengths_beyond_two_bytes_never_match() {
        let mut long = vec![0; 65_536 + 4];
        (long[0], long[1]) = (2, 0);
        assert_eq!(split(&long), Err(BAD_LENGTH));
    }

    #[test]
    fn kinds_have_sixteen_bits() {
        let event = |record: [u8; 4]| event::<RIGHT>(&record).map(|_| ());
        assert_eq!(event([2, 0, 1, 1]), Err(BAD_KIND));
        assert_eq!(event([2, 0, 0, 0]), Err(BAD_KIND));
        assert_eq!(event([2, 0, 8, 0]), Err(BAD_KIND));
        assert_eq!(event([2, 0, 7, 1]), Err(BAD_KIND));
        assert_eq!(event([2, 0, 1, 0]), Ok(()));
    }

    /// The count that a body of kind 7 has, or the refusal.
    fn ticks(body: &[u8]) -> Result<u16, u8> {
        let head = [2 + body.len() as u8, 0, 7, 0];
        match event::<RIGHT>(&[&head, body].concat())? {
            Event::Ticks(count) => Ok(count),
            event => panic!("{event:?}"),
        }
    }

    #[test]
    fn many_ticks_have_two_bytes_low_byte_first() {
        assert_eq!(ticks(&[1, 0]), Ok(1));
        assert_eq!(ticks(&[2, 0]), Ok(2));
        assert_eq!(ticks(&[0, 1]), Ok(256));
        assert_eq!(ticks(&[1, 2]), Ok(513));
        assert_eq!(ticks(&[0xE8, 3]), Ok(1_000));
        for body in [
            &[][..],
            &[1],
            &[1, 0, 0],
            &[0, 0],
            &[0xE9, 3],
            &[3, 0xE8],
            &[255, 255],
        ] {
            assert_eq!(ticks(body), Err(BAD_FIELD), "{body:?}");
        }
    }

    #[test]
    fn addresses_are_numbers_with_the_first_byte_highest() {
        assert_eq!(address([1, 2, 3, 4, 5, 6]), 0x0102_0304_0506);
        assert!(is_odd(address([1, 0, 0, 0, 0, 0])));
        assert!(!is_odd(address([2, 1, 1, 1, 1, 1])));
    }

    #[test]
    fn report_to_send_has_seven_bytes() {
        let bytes = report_to_send(9, [Request::Sf, Request::Wtr]);
        assert_eq!(bytes, [5, 0, 16, 0, 9, 4, 1]);
    }
}
