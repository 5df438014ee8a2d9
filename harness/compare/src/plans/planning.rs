//! A plan in the making: the maker of a drill, and the right model beside it.
//! The model tells what is reserved, so that questions can be asked of which the answer is close to zero.

use model::{Node, OUTPUT_ROOM};

use crate::maker::Maker;

/// What the model shows of a station that is behind.
const BEHIND: u8 = 1;

/// The maker, and the node as it is after some of the records.
pub struct Planning {
    /// What has been given so far.
    pub maker: Maker,
    node: Node,
    played: usize,
}

impl Planning {
    /// A plan on a maker's ring.
    pub fn new(maker: Maker) -> Planning {
        let (_, node) = Node::start(&maker.opening.bytes());
        Planning {
            maker,
            node,
            played: 0,
        }
    }

    /// The node after all that was given so far.
    fn node(&mut self) -> &Node {
        for record in &self.maker.records[self.played..] {
            self.node.record(record, &mut [0; OUTPUT_ROOM]);
        }
        self.played = self.maker.records.len();
        &self.node
    }

    /// What the stations in the table reserve on each ringlet.
    pub fn reserved(&mut self) -> [i64; 2] {
        let node = self.node();
        let mut sums = [0; 2];
        for (address, _) in node.hops() {
            let shown = node.attributes(address);
            sums[0] += i64::from(shown.bandwidths[0]);
            sums[1] += i64::from(shown.bandwidths[1]);
        }
        sums
    }

    /// The stations in the table that are behind.
    pub fn behind(&mut self) -> Vec<u64> {
        behind(self.node())
    }
}

/// The stations in a node's table that are behind.
pub fn behind(node: &Node) -> Vec<u64> {
    let addresses = node.hops().into_iter().map(|(address, _)| address);
    addresses
        .filter(|address| node.attributes(*address).reply == BEHIND)
        .collect()
}
