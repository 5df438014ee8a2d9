//! The ring that a drill plays on: who sits where, and what each would report.
//! Members stand in the order of their hops going west; going east is the way round from the other side.

use text::records::Report;

use crate::chance::Chance;

/// The greatest hop.
pub const HIGHEST_HOP: usize = 63;
/// The greatest number of stations beside the own one on a ring, each with a hop either way.
pub const LARGEST: usize = HIGHEST_HOP;
/// The places of the table: as many as two ringlets have hops, all held by different stations.
pub const PLACES: usize = 126;

/// A station of the ring.
#[derive(Clone, Debug)]
pub struct Member {
    /// Its address.
    pub address: u64,
    /// The sequence of its last report.
    pub sequence: u8,
    /// Its west and east request.
    pub requests: [u8; 2],
}

/// The stations of the ring, without the own one.
pub struct Ring {
    own: u64,
    /// Going west, hop 1 first.
    pub members: Vec<Member>,
}

impl Ring {
    /// A ring of this many stations beside the own one.
    pub fn new(chance: &mut Chance, own: u64, count: usize) -> Ring {
        let mut ring = Ring {
            own,
            members: Vec::new(),
        };
        ring.grow(chance, count);
        ring
    }

    /// Lets strangers join at the far end until there are this many.
    pub fn grow(&mut self, chance: &mut Chance, count: usize) {
        while self.members.len() < count.min(LARGEST) {
            let stranger = self.stranger(chance);
            self.members.push(stranger);
        }
    }

    /// A station that is not on the ring.
    pub fn stranger(&self, chance: &mut Chance) -> Member {
        let address = self.free_address(chance);
        Member {
            address,
            sequence: chance.byte(),
            requests: requests(chance),
        }
    }

    /// An even address that neither the own station nor a member has.
    pub fn free_address(&self, chance: &mut Chance) -> u64 {
        loop {
            let address = self.near_address(chance) & !(1 << 40);
            let taken = self.members.iter().any(|member| member.address == address);
            if !taken && address != self.own {
                return address;
            }
        }
    }

    /// Addresses that differ in one byte from others are the hard ones to keep in order.
    fn near_address(&self, chance: &mut Chance) -> u64 {
        let any = chance.next() >> 16;
        let byte = u64::from(chance.byte());
        let place = 8 * chance.below(6);
        match chance.below(8) {
            0 => any,
            1 => byte << place,
            2 => self.own ^ (byte << place),
            3 => self.own ^ (1 << chance.below(48)),
            4 if !self.members.is_empty() => {
                let at = chance.below(self.members.len());
                self.members[at].address ^ (1 << chance.below(48))
            }
            _ => 0x0200_0000_0000 | (any & 0xFF),
        }
    }

    /// Any member's place.
    pub fn any(&self, chance: &mut Chance) -> usize {
        chance.below(self.members.len())
    }

    /// The hop of the member at a place on a ringlet.
    pub fn hop(&self, at: usize, ringlet: usize) -> usize {
        if ringlet == 0 {
            at + 1
        } else {
            self.members.len() - at
        }
    }

    /// The place of the member with this hop on a ringlet.
    pub fn at_hop(&self, hop: usize, ringlet: usize) -> usize {
        if ringlet == 0 {
            hop - 1
        } else {
            self.members.len() - hop
        }
    }

    /// What a member's report looks like when nothing is wrong.
    pub fn report(&self, at: usize, ringlet: usize) -> Report {
        let member = &self.members[at];
        Report {
            span: ringlet as u8,
            ringlet: ringlet as u8,
            ttl: (256 - self.hop(at, ringlet)) as u8,
            address: member.address,
            sequence: member.sequence,
            requests: member.requests,
        }
    }

    /// A member's requests change, so its sequence rises.
    pub fn change(&mut self, chance: &mut Chance, at: usize) {
        let member = &mut self.members[at];
        member.sequence = member.sequence.wrapping_add(1);
        member.requests = requests(chance);
    }
}

/// A pair of requests; usable ones come more often, so that ways stay open.
pub fn requests(chance: &mut Chance) -> [u8; 2] {
    const USABLE: [u8; 12] = [0, 0, 0, 0, 0, 0, 0, 0, 1, 2, 2, 3];
    let mut pair = [chance.pick(&USABLE), chance.pick(&USABLE)];
    if chance.percent(10) {
        pair[chance.below(2)] = chance.pick(&[4, 5]);
    }
    pair
}

#[cfg(test)]
mod tests {
    use super::*;

    #[test]
    fn hops_go_round_both_ways() {
        let mut chance = Chance::new(1);
        let ring = Ring::new(&mut chance, 9, 3);
        let hops = |ringlet| [0, 1, 2].map(|at| ring.hop(at, ringlet));
        assert_eq!((hops(0), hops(1)), ([1, 2, 3], [3, 2, 1]));
        assert_eq!(ring.report(0, 1).ttl, 253);
        assert_eq!(ring.at_hop(3, 1), 0);
    }

    #[test]
    fn addresses_are_even_and_unique() {
        let mut chance = Chance::new(2);
        let ring = Ring::new(&mut chance, 0x0200_0000_0001, LARGEST);
        let mut all: Vec<u64> = ring.members.iter().map(|m| m.address).collect();
        all.push(0x0200_0000_0001);
        assert!(all.iter().all(|address| address >> 40 & 1 == 0));
        all.sort_unstable();
        all.dedup();
        assert_eq!(all.len(), LARGEST + 1);
    }
}
