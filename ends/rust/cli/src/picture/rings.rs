//! The two rings of stretches, a part for each member.

use super::geometry::{point, ring_part};
use super::labels::{rank, thinned, Label};
use super::writing::{labels, path};
use crate::asked::Side;

/// A ring: its radii, and the names of its two shades.
pub struct Ring<'a> {
    pub side: &'a Side,
    pub inner: f64,
    pub outer: f64,
    pub shades: [&'static str; 2],
    /// The member at this end of the first copy.
    pub first: u32,
}

/// Where each member's stretch starts, in turns, and where the last one ends.
pub fn stretch_ends(side: &Side) -> Vec<f64> {
    let total = side.total() as f64;
    let mut share = 0;
    let mut ends = vec![0.0];
    ends.extend(side.shares.iter().map(|&own| {
        share += u64::from(own);
        share as f64 / total
    }));
    ends
}

impl Ring<'_> {
    /// The parts and their labels; the first copy's end is outlined over its neighbours.
    pub fn draw(&self) -> String {
        let ends = stretch_ends(self.side);
        let members = 0..self.side.shares.len() as u32;
        let part = |member: u32| ring_part(self.inner, self.outer, ends[member as usize], ends[member as usize + 1]);
        let mut svg: String = members
            .clone()
            .map(|member| path(self.class(member), &part(member)))
            .collect();
        svg += &path("first-copy", &part(self.first));
        let label = |member: u32| Label {
            text: member.to_string(),
            at: point(
                (ends[member as usize] + ends[member as usize + 1]) / 2.0,
                (self.inner + self.outer) / 2.0,
            ),
            rank: rank(member, member == self.first),
            strong: member == self.first,
        };
        svg + &labels("member", &thinned(members.map(label).collect()))
    }

    fn class(&self, member: u32) -> &'static str {
        if self.side.has_failed(member) {
            "failed"
        } else {
            self.shades[member as usize % 2]
        }
    }
}
