//! Two rings that are being joined: each ringlet is full of other stations, so that all places of the table are taken.
//! Newcomers, second hops, moves, silence and failures follow; those of the highest address, at the last place, come often.

use text::records::{self, Report};

use crate::blocks;
use crate::chance::Chance;
use crate::maker::{Maker, NONE_DEAF};
use crate::ring::{self, Member, HIGHEST_HOP, LARGEST};
use crate::scenes::affordable;

/// Who is heard at each hop of each ringlet, hop 1 first.
pub struct Joined {
    seats: [Vec<Member>; 2],
}

/// A hop of a ringlet.
type Seat = (usize, usize);

/// Two rings are joined, things happen, and mostly one of the ringlets or all stations go.
pub fn join(m: &mut Maker) {
    let before = m.records.len();
    let mut joined = Joined::fill(m);
    for _ in 0..m.chance.range(1, 3) {
        for _ in 0..m.chance.range(3, 14) {
            joined.happen(m);
        }
        joined.turn(m);
        joined.ask(m);
        if m.chance.percent(60) {
            joined.announce(m);
        }
    }
    joined.part(m);
    m.spare_since(before);
}

impl Joined {
    /// Both spans are made good, and each ringlet is heard whole: one after the other, by turns, or in any order.
    pub fn fill(m: &mut Maker) -> Joined {
        m.ring.grow(&mut m.chance, LARGEST);
        m.heal();
        let near = m.span();
        let mut seats = [Vec::new(), Vec::new()];
        seats[near] = m.ring.members.clone();
        let mut joined = Joined { seats };
        while joined.seats[1 - near].len() < HIGHEST_HOP {
            let stranger = joined.stranger(m);
            joined.seats[1 - near].push(stranger);
        }
        joined.announce(m);
        joined
    }

    /// A station that sits nowhere.
    pub fn stranger(&self, m: &mut Maker) -> Member {
        loop {
            let stranger = m.ring.stranger(&mut m.chance);
            let mut seated = self.seats.iter().flatten();
            if seated.all(|member| member.address != stranger.address) {
                return stranger;
            }
        }
    }

    /// Hears whoever sits at a hop.
    fn announce(&self, m: &mut Maker) {
        let all = |ringlet| (1..=HIGHEST_HOP).map(move |hop| (ringlet, hop));
        let first = m.span();
        let mut order: Vec<Seat> = match m.chance.below(3) {
            0 => all(0)
                .zip(all(1))
                .flat_map(|(one, two)| [one, two])
                .collect(),
            _ => all(first).chain(all(1 - first)).collect(),
        };
        match m.chance.below(4) {
            0 => m.chance.shuffle(&mut order),
            // Addresses that fall are the hard ones to put in order.
            1 => order.sort_by_key(|&seat| std::cmp::Reverse(self.member(seat).address)),
            _ => {}
        }
        for seat in order {
            m.hear(&self.report(seat));
        }
    }

    fn member(&self, (ringlet, hop): Seat) -> &Member {
        &self.seats[ringlet][hop - 1]
    }

    fn member_mut(&mut self, (ringlet, hop): Seat) -> &mut Member {
        &mut self.seats[ringlet][hop - 1]
    }

    /// What is heard from a seat when nothing is wrong.
    pub fn report(&self, seat: Seat) -> Report {
        self.heard_at(self.member(seat), seat)
    }

    /// The report of any station at a hop.
    pub fn heard_at(&self, member: &Member, (ringlet, hop): Seat) -> Report {
        Report {
            span: ringlet as u8,
            ringlet: ringlet as u8,
            ttl: (256 - hop) as u8,
            address: member.address,
            sequence: member.sequence,
            requests: member.requests,
        }
    }

    /// Any seat; often that of the highest address, or of one at a place above the 63rd.
    pub fn seat(&self, chance: &mut Chance) -> Seat {
        let mut seats: Vec<Seat> = seats().collect();
        seats.sort_by_key(|&seat| self.member(seat).address);
        let first = chance.pick(&[
            0,
            HIGHEST_HOP,
            HIGHEST_HOP,
            seats.len() - 1,
            seats.len() - 1,
        ]);
        seats[chance.range(first, seats.len() - 1)]
    }

    /// The addresses of all who sit somewhere.
    pub fn addresses(&self) -> Vec<u64> {
        seats().map(|seat| self.member(seat).address).collect()
    }

    fn happen(&mut self, m: &mut Maker) {
        let seat = self.seat(&mut m.chance);
        match m.chance.below(14) {
            0..=3 => self.newcomer(m, seat),
            4 | 5 => self.second_hop(m, seat),
            6 => self.moves(m, seat),
            7 | 8 => {
                let member = self.member_mut(seat);
                let distance = m.chance.pick(&[0, 1, 1, 128, 129, 255]);
                let report = Report {
                    sequence: member.sequence.wrapping_add(distance),
                    requests: ring::requests(&mut m.chance),
                    ..self.report(seat)
                };
                m.hear(&report);
            }
            9..=11 => {
                let address = self.member(seat).address;
                let block = blocks::block(&mut m.chance);
                let span = m.span() as u8;
                m.give(records::attributes(span, address, &block));
            }
            _ => self.ask(m),
        }
        if m.chance.percent(30) {
            m.ask(self.member(seat).address);
        }
    }

    /// A stranger takes a seat; who sat there leaves.
    pub fn newcomer(&mut self, m: &mut Maker, seat: Seat) {
        let mut stranger = self.stranger(m);
        if m.chance.percent(15) {
            // It comes behind all others, so that it gets the last place.
            stranger.address |= 0xFE00_0000_0000;
        }
        let taken = self.addresses().contains(&stranger.address);
        if taken || stranger.address == m.opening.settings.address {
            return;
        }
        m.hear(&self.heard_at(&stranger, seat));
        m.ask(stranger.address);
        m.ask(self.member(seat).address);
        *self.member_mut(seat) = stranger;
    }

    /// A station is heard on its other ringlet too, where it displaces another; then that one comes back, or a newcomer takes the first hop.
    fn second_hop(&mut self, m: &mut Maker, seat: Seat) {
        let there = (1 - seat.0, m.chance.range(1, HIGHEST_HOP));
        let member = self.member(seat).clone();
        m.hear(&self.heard_at(&member, there));
        m.ask(self.member(there).address);
        m.ask(member.address);
        match m.chance.below(3) {
            0 => m.hear(&self.report(there)),
            1 => {
                // The member stays where it was heard second.
                let stranger = self.stranger(m);
                m.hear(&self.heard_at(&stranger, seat));
                m.ask(stranger.address);
                *self.member_mut(there) = member;
                *self.member_mut(seat) = stranger;
            }
            _ => {}
        }
    }

    /// A station moves along its ringlet to a held hop; the hop that it had is free, and mostly somebody comes there.
    fn moves(&mut self, m: &mut Maker, seat: Seat) {
        let there = (seat.0, m.chance.range(1, HIGHEST_HOP));
        let member = self.member(seat).clone();
        m.hear(&self.heard_at(&member, there));
        m.ask(member.address);
        if m.chance.percent(75) {
            let stranger = self.stranger(m);
            m.hear(&self.heard_at(&stranger, seat));
            m.ask(stranger.address);
        }
        // Those who sit there are heard anew.
        m.hear(&self.report(there));
        m.hear(&self.report(seat));
    }

    /// A ringlet is purged, stations are forgotten, or the rings become one.
    fn turn(&mut self, m: &mut Maker) {
        let span = m.span();
        match m.chance.below(9) {
            0 | 1 => self.fail(m, span),
            2 | 3 => self.cross(m, span),
            4 | 5 => self.become_one(m),
            _ => self.fall_silent(m),
        }
    }

    /// A link fails, and its ringlet is purged; it is good again, and some are heard anew.
    fn fail(&mut self, m: &mut Maker, span: usize) {
        m.link(span, 2);
        m.ticks(10 * usize::from(m.opening.settings.hold_off), NONE_DEAF);
        self.ask(m);
        m.link(span, 0);
        for _ in 0..m.chance.below(4) {
            let hop = m.chance.range(1, HIGHEST_HOP);
            self.newcomer(m, (span, hop));
        }
    }

    /// A crossed cable purges a ringlet; then a newcomer, or the neighbour, is the right one beside 63 others.
    fn cross(&mut self, m: &mut Maker, span: usize) {
        let mut wrong = self.report((span, 1));
        wrong.ringlet = 1 - wrong.ringlet;
        m.hear(&wrong);
        self.ask(m);
        if m.chance.percent(70) {
            self.newcomer(m, (span, 1));
        } else {
            m.hear(&self.report((span, 1)));
        }
    }

    /// The stations of one ringlet are heard on the other too, the other way round, until nobody else is left, or not quite.
    fn become_one(&mut self, m: &mut Maker) {
        let ringlet = m.span();
        let least = m.chance.pick(&[1, 1, 2, 40]);
        for hop in least..=HIGHEST_HOP {
            let report = self.heard_at(
                self.member((ringlet, hop)),
                (1 - ringlet, HIGHEST_HOP + 1 - hop),
            );
            m.hear(&report);
        }
        self.ask(m);
        // The two are one ring, and then strangers come between its members.
        for _ in 0..m.chance.below(6) {
            let seat = self.seat(&mut m.chance);
            self.newcomer(m, seat);
        }
    }

    /// Most fall silent until they are forgotten.
    fn fall_silent(&mut self, m: &mut Maker) {
        let all = 100 * usize::from(m.opening.settings.forget);
        if !affordable(&mut m.chance, all) {
            return;
        }
        self.announce(m);
        let part = m.chance.range(1, all - 1);
        m.ticks(part, NONE_DEAF);
        for _ in 0..m.chance.range(0, 5) {
            let seat = self.seat(&mut m.chance);
            m.hear(&self.report(seat));
        }
        m.ticks(all - part - 1, NONE_DEAF);
        self.ask(m);
        m.ticks(1, NONE_DEAF);
        self.ask(m);
        if m.chance.percent(40) {
            m.ticks(part, NONE_DEAF);
            self.ask(m);
        }
    }

    /// Asks the way to some of them.
    fn ask(&self, m: &mut Maker) {
        for _ in 0..m.chance.range(1, 5) {
            let seat = self.seat(&mut m.chance);
            m.ask(self.member(seat).address);
        }
    }

    /// One of the two rings stays, or a few of its members.
    pub fn part(mut self, m: &mut Maker) {
        let ringlet = m.span();
        m.ring.members = std::mem::take(&mut self.seats[ringlet]);
        let left = m.chance.pick(&[3, 8, 20, LARGEST]);
        m.ring.members.truncate(left);
    }
}

fn seats() -> impl Iterator<Item = Seat> {
    (0..2).flat_map(|ringlet| (1..=HIGHEST_HOP).map(move |hop| (ringlet, hop)))
}

#[cfg(test)]
mod tests {
    use std::collections::BTreeSet;

    use model::{Node, OUTPUT_ROOM};

    use super::*;
    use crate::opening::Opening;
    use crate::ring::PLACES;

    #[test]
    fn all_places_are_taken_when_two_rings_are_joined() {
        for seed in 1..=20 {
            let mut chance = Chance::new(seed);
            let opening = Opening::new(&mut chance);
            let mut m = Maker::new(chance, opening, 5);
            let joined = Joined::fill(&mut m);
            let (_, mut node) = Node::start(&m.opening.bytes());
            for record in &m.records {
                node.record(record, &mut [0; OUTPUT_ROOM]);
            }
            assert_eq!(node.station_count(), PLACES, "seed {seed}");
            let addresses: BTreeSet<u64> = joined.addresses().into_iter().collect();
            let held: BTreeSet<u64> = node.hops().into_iter().map(|(at, _)| at).collect();
            assert_eq!(held, addresses);
        }
    }
}
