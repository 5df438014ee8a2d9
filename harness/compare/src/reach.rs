//! Where a drill reaches the rules that the requests brought: it is played once through the right model.

use model::Node;
use text::pieces::pieces;

use crate::tally::Tally;
use crate::{crowds, many, swings, ways};

/// Counts what a drill reaches.
pub fn count(input: &[u8], tally: &mut Tally) {
    let pieces = pieces(input);
    let settings = pieces.first().copied().unwrap_or_default();
    let (result, mut node) = Node::start(settings);
    if result != 0 {
        return;
    }
    let mut swings = swings::Counter::default();
    let mut many = many::Counter::default();
    let mut crowds = crowds::Counter::default();
    for record in &pieces[1..] {
        ways::count(&node, record, tally);
        let links = node.links();
        let before = crowds::Before::of(&node);
        let result = many.give(&mut node, record, tally);
        swings.see(links, node.links(), tally);
        if let Some(before) = before {
            crowds.see(&before, record, result, &node, tally);
        }
    }
}
