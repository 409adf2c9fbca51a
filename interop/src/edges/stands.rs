//! Where an input stands.

use super::Edge;
use crate::sets::Set;

/// Where an input stands: the sides of boundaries, the members of sets and the
/// marks (of sums that wrap) that it is one of.
#[derive(Clone, Debug, Default)]
pub struct Stands {
    pub sides: Vec<(Edge, usize)>,
    pub members: Vec<(Set, usize)>,
    pub marks: Vec<&'static str>,
}

impl Stands {
    /// Notes the side if the value is one of the two.
    pub(super) fn at(&mut self, edge: Edge, value: u64, sides: [u64; 2]) {
        if let Some(side) = sides.iter().position(|side| *side == value) {
            self.sides.push((edge, side));
        }
    }

    /// Notes the side of `end - 1` or `end`.
    pub(super) fn up_to(&mut self, edge: Edge, value: u64, end: u64) {
        self.at(edge, value + 1, [end, end + 1]);
    }

    pub(super) fn member(&mut self, set: Set, index: usize) {
        self.members.push((set, index));
    }

    pub(super) fn mark(&mut self, name: &'static str, so: bool) {
        if so {
            self.marks.push(name);
        }
    }

    pub fn add(&mut self, others: Stands) {
        self.sides.extend(others.sides);
        self.members.extend(others.members);
        self.marks.extend(others.marks);
    }
}
