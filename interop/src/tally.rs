//! Counts of what the cases reached: for each function each number and each
//! side of its boundaries, members of sets, and marks for all else.

use crate::edges::walls::KIND_TYPES;
use crate::edges::{Edge, Stands, BOUNDARIES};
use crate::functions::{place, Fun, Slice, FUNCTIONS, NUMBERS, SLICES};
use crate::same::Outcome;
use crate::sets::{Members, Set, TYPES};
use std::collections::BTreeMap;

/// Things that must come up beside the numbers.
pub const MARKS: [&str; 51] = [
    "guc_interface_3 answered 3",
    "output longer than 256: rest unchanged",
    "message across the ring's end",
    "ring full after an operation",
    "operations in lists",
    "operations in tampered lists",
    "operations on sides of any words",
    "tampered between operations",
    "packed, then unpacked",
    "unpacked, then packed",
    "image truncated",
    "image full",
    "room longer: rest unchanged",
    "refused copy: destination unchanged",
    "part of 0 bytes at the blob's end",
    "name lent where it lies in the blob",
    "calls in lists of a wall",
    "written by hand between calls of a wall",
    "table full after a call of a list",
    "ring full after a call of a list of a wall",
    "received by the other side in lists of a wall",
    "opening while a send was under way",
    "sums set aside told by the history",
    "fences given all around",
    "calls on tables of any records",
    "ages asked",
    "bytes of a run asked for",
    "record with more room: rest unchanged",
    "record refused: output unchanged",
    "run that was full for one more",
    "written, then read",
    "read, then written",
    "cut file with whole messages before the cut",
    "sound file read piece by piece",
    "bad file read piece by piece",
    "part past 16 MiB",
    "second entry behind 65,536 others",
    "call with a slice against a forbidden page",
    "wrap at 32 + k",
    "wrap at + m",
    "wrap at + e",
    "wrap of m + e alone",
    "wrap twice",
    "wrap at 4(s - h)",
    "wrap at 4k",
    "wrap at 128 + 4(s - h)",
    "wrap at + 4k",
    "wrap at 4s",
    "wrap at 24n",
    "wrap at H + 24n",
    "wrap at offset + length",
];

/// For each function the count of each side of a boundary.
type Sides = [[u64; 2]; FUNCTIONS.len()];

#[derive(Clone, Debug)]
pub struct Tally {
    answers: [[u64; NUMBERS]; FUNCTIONS.len()],
    edges: Vec<Sides>,
    pub members: Members,
    marks: BTreeMap<&'static str, u64>,
}

impl Default for Tally {
    fn default() -> Tally {
        Tally {
            answers: [[0; NUMBERS]; FUNCTIONS.len()],
            edges: vec![[[0; 2]; FUNCTIONS.len()]; BOUNDARIES.len()],
            members: Members::default(),
            marks: BTreeMap::new(),
        }
    }
}

impl Tally {
    /// Counts an answer on which the archive and the model agree.
    pub fn answer(&mut self, fun: Fun, code: u32) {
        let place = place(code).expect("the model answers only the known numbers");
        self.answers[fun as usize][place] += 1;
    }

    /// Counts an answer and the sides of boundaries at which its input stood.
    /// The refused side, and it alone, must have been refused: so the two can't
    /// be wrong together there.
    pub fn answer_at(&mut self, fun: Fun, code: u32, stands: &Stands) -> Result<(), String> {
        self.sides(fun, code, stands)?;
        self.answer(fun, code);
        Ok(())
    }

    /// Counts the sides alone; the number may be `TRUNCATED`.
    pub fn sides(&mut self, fun: Fun, number: u32, stands: &Stands) -> Result<(), String> {
        for (edge, side) in &stands.sides {
            let row = &BOUNDARIES[*edge as usize];
            if !row.funs.contains(&fun) {
                continue;
            }
            if (number == row.number) != (*side == row.refused) {
                return Err(format!("{}, {}: answer {number}", row.name, row.sides[*side]));
            }
            self.edges[*edge as usize][fun as usize][*side] += 1;
        }
        Ok(())
    }

    /// Counts the members and marks of an input.
    pub fn input(&mut self, stands: &Stands) {
        stands.members.iter().for_each(|(set, index)| self.members.count(*set, *index));
        stands.marks.iter().for_each(|name| self.mark(name, 1));
    }

    /// Counts the type of an accepted message. One that is not in the table is an
    /// error even where the archive and the model agree on it.
    pub fn accepted(&mut self, set: Set, kind: u32) -> Outcome {
        let place = TYPES.iter().position(|(known, _)| *known == kind);
        let place = place.ok_or_else(|| format!("{set:?}: type {kind} accepted"))?;
        self.members.count(set, place);
        Ok(())
    }

    /// Counts the kind that a reply in a list was answered with; none but the four is
    /// one.
    pub fn replied(&mut self, kind: u32) -> Outcome {
        let place = KIND_TYPES.iter().position(|reply| *reply == kind);
        let place = place.ok_or_else(|| format!("type {kind} taken as a reply"))?;
        self.members.count(Set::ListReply, place);
        Ok(())
    }

    /// Counts a slice of this function that was lent as NULL.
    pub fn null(&mut self, fun: Fun, slice: Slice) {
        let place = SLICES.iter().position(|one| *one == (fun, slice));
        self.members.count(Set::Null, place.expect("the function takes the slice"));
    }

    pub fn mark(&mut self, name: &'static str, times: u64) {
        debug_assert!(MARKS.contains(&name));
        *self.marks.entry(name).or_insert(0) += times;
    }

    pub fn add(&mut self, other: &Tally) {
        for (mine, theirs) in self.answers.iter_mut().zip(&other.answers) {
            mine.iter_mut().zip(theirs).for_each(|(a, b)| *a += b);
        }
        let (mine, theirs) = (self.edges.iter_mut().flatten(), other.edges.iter().flatten());
        for (mine, theirs) in mine.zip(theirs) {
            *mine = [mine[0] + theirs[0], mine[1] + theirs[1]];
        }
        self.members.add(&other.members);
        other.marks.iter().for_each(|(name, times)| self.mark(name, *times));
    }

    pub fn count(&self, fun: Fun, code: u32) -> u64 {
        place(code).map_or(0, |place| self.answers[fun as usize][place])
    }

    /// All functions' answers with this number.
    pub fn total(&self, code: u32) -> u64 {
        FUNCTIONS.iter().map(|(fun, ..)| self.count(*fun, code)).sum()
    }

    pub fn calls(&self, fun: Fun) -> u64 {
        self.answers[fun as usize].iter().sum()
    }

    /// How often each side of a boundary came up, over all functions.
    pub fn both_sides(&self, edge: Edge) -> [u64; 2] {
        let rows = &self.edges[edge as usize];
        [0, 1].map(|side| rows.iter().map(|row| row[side]).sum())
    }

    pub fn marked(&self, name: &str) -> u64 {
        self.marks.get(name).copied().unwrap_or(0)
    }

    /// What should have come up and never did.
    pub fn missing(&self) -> Vec<String> {
        let mut missing = self.members.missing();
        for (fun, name, numbers) in FUNCTIONS {
            for code in numbers.iter().filter(|code| self.count(fun, **code) == 0) {
                missing.push(format!("{name} never answered {code}"));
            }
            for row in BOUNDARIES.iter().filter(|row| row.funs.contains(&fun)) {
                let counts = self.edges[row.edge as usize][fun as usize];
                for side in (0..2).filter(|side| counts[*side] == 0) {
                    missing.push(format!("{name}: {}, {}", row.name, row.sides[side]));
                }
            }
        }
        for name in MARKS.iter().filter(|name| self.marked(name) == 0) {
            missing.push(format!("never: {name}"));
        }
        missing
    }
}
