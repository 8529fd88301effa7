//! The archive: members with their boxes beside them, in a vector that never grows past its rows.

use crate::spaces::Space;
use std::cmp::Ordering;

#[derive(Clone, Copy, Debug)]
pub struct Member<const N: usize> {
    pub point: [u32; N],
    pub tag: u32,
    boxes: [u32; N],
}

/// How an offer fared.
#[derive(Clone, Copy, PartialEq, Eq, Debug)]
pub enum Verdict {
    PassedOver,
    Entered,
    Displaced,
    Replaced,
    OffGrid,
    Full,
}

/// The best trials that were offered, one for each box that no other box dominates.
pub struct Archive<const N: usize> {
    space: Space<N>,
    rows: usize,
    members: Vec<Member<N>>,
}

/// How two boxes compare: the greater one is at least as great in every objective. All numbers are looked at, since a loop that
/// leaves early takes twice as long.
fn compare<const N: usize>(a: &[u32; N], b: &[u32; N]) -> Option<Ordering> {
    let (mut over, mut under) = (true, true);
    for (a, b) in a.iter().zip(b) {
        over &= a >= b;
        under &= a <= b;
    }
    match (over, under) {
        (true, true) => Some(Ordering::Equal),
        (true, false) => Some(Ordering::Greater),
        (false, true) => Some(Ordering::Less),
        (false, false) => None,
    }
}

impl<const N: usize> Archive<N> {
    pub fn new(space: Space<N>, rows: usize) -> Archive<N> {
        Archive {
            space,
            rows,
            members: Vec::with_capacity(rows),
        }
    }

    pub fn members(&self) -> &[Member<N>] {
        &self.members
    }

    /// Judges a trial; the tags of those that go take the place of what the list held.
    ///
    /// No box held dominates another, and none is held twice. So the first member that is not apart from the trial decides:
    /// where it shuts the trial out, the trial's box dominates none of the others.
    pub fn offer(&mut self, point: [u32; N], tag: u32, gone: &mut Vec<u32>) -> Verdict {
        gone.clear();
        if !self.space.admits(&point) {
            return Verdict::OffGrid;
        }
        let boxes = self.space.boxes(&point);
        let trial = Member { point, tag, boxes };
        for (row, member) in self.members.iter().enumerate() {
            match compare(&trial.boxes, &member.boxes) {
                None => {}
                Some(Ordering::Greater) => return self.displace(row, trial, gone),
                Some(Ordering::Equal) if self.space.dominates(&trial.point, &member.point) => {
                    return self.replace(row, trial, gone);
                }
                Some(_) => return Verdict::PassedOver,
            }
        }
        if self.members.len() == self.rows {
            return Verdict::Full;
        }
        self.members.push(trial);
        Verdict::Entered
    }

    /// All members from this row on go whose box the trial's box dominates, and the trial enters.
    fn displace(&mut self, row: usize, trial: Member<N>, gone: &mut Vec<u32>) -> Verdict {
        let below = |member: &mut Member<N>| {
            compare(&trial.boxes, &member.boxes) == Some(Ordering::Greater)
        };
        gone.extend(
            self.members
                .extract_if(row.., below)
                .map(|member| member.tag),
        );
        self.members.push(trial);
        Verdict::Displaced
    }

    /// The member in this row goes, and the trial enters.
    fn replace(&mut self, row: usize, trial: Member<N>, gone: &mut Vec<u32>) -> Verdict {
        gone.push(self.members.remove(row).tag);
        self.members.push(trial);
        Verdict::Replaced
    }
}
