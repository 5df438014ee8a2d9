//! Shortens a script that shows a difference: records are dropped as long as it still shows one.

use crate::script::Script;

/// Tries after which a script is short enough; each may start a program.
const MOST_TRIES: usize = 4_000;

/// Drops records, larger runs first. `differs` says whether a script shows a difference; so many records have been read when it does.
/// An error of `differs` ends the search.
pub fn shorten<E>(
    script: &Script,
    read: usize,
    mut differs: impl FnMut(&Script) -> Result<bool, E>,
) -> Result<Script, E> {
    let mut short = script.clone();
    let head = up_to(script, read);
    if differs(&head)? {
        short = head;
    }
    let mut tries = 1;
    let mut run = short.records.len().div_ceil(2).max(1);
    loop {
        let before = short.records.len();
        drop_runs(&mut short, run, &mut tries, &mut differs)?;
        let dropped = short.records.len() < before;
        if tries >= MOST_TRIES || (run == 1 && !dropped) {
            return Ok(short);
        }
        if run > 1 {
            run = run.div_ceil(2);
        }
    }
}

fn up_to(script: &Script, read: usize) -> Script {
    let mut head = script.clone();
    head.records.truncate(read);
    head
}

/// One pass over the script with runs of this many records.
fn drop_runs<E>(
    short: &mut Script,
    run: usize,
    tries: &mut usize,
    differs: &mut impl FnMut(&Script) -> Result<bool, E>,
) -> Result<(), E> {
    // From the end: what comes last matters to fewer records.
    let mut end = short.records.len();
    while end > 0 && *tries < MOST_TRIES {
        let start = end.saturating_sub(run);
        let mut candidate = short.clone();
        candidate.records.drain(start..end);
        *tries += 1;
        if differs(&candidate)? {
            *short = candidate;
        }
        end = start;
    }
    Ok(())
}

#[cfg(test)]
mod tests {
    use super::*;

    fn script(records: impl IntoIterator<Item = u8>) -> Script {
        Script {
            settings: vec![9],
            records: records.into_iter().map(|byte| vec![byte]).collect(),
        }
    }

    #[test]
    fn only_the_records_that_matter_are_left() {
        let whole = script(0..200);
        let both = |script: &Script| -> Result<bool, ()> {
            let has = |byte| script.records.contains(&vec![byte]);
            Ok(has(3) && has(90) && has(91))
        };
        let short = shorten(&whole, 92, both).unwrap();
        assert_eq!(short, script([3, 90, 91]));
    }

    #[test]
    fn a_script_that_never_differs_again_stays_whole() {
        let whole = script(0..9);
        let never = |_: &Script| -> Result<bool, ()> { Ok(false) };
        assert_eq!(shorten(&whole, 4, never).unwrap(), whole);
    }

    #[test]
    fn errors_end_the_search() {
        let failing = |_: &Script| Err::<bool, &str>("no");
        assert_eq!(shorten(&script(0..9), 4, failing), Err("no"));
    }
}
