//! The lines of document 01's step table, and which access of the Rust is which line.

use ::core::fmt;

use crate::gate::Access;
use crate::peek::Place;
use crate::{DESTROY, READ, WRITE};

/// The kinds of call that the table tells apart; the three steals share their lines.
#[derive(Clone, Copy, PartialEq, Eq, Debug)]
pub enum Kind {
    Push,
    Steal,
    Length,
    Empty,
}

#[rustfmt::skip]
#[derive(Clone, Copy, PartialEq, Eq, PartialOrd, Ord, Debug)]
pub enum Line {
    P1, P2, P3, P4, P5, P6, P7, P8, P9, P10,
    S1, S2, S3, S4, S5, S6, S7, S8, S9, S10, S11, S12, S13, S14,
    L1, L2, L3,
    E1, E2,
}

impl fmt::Display for Line {
    fn fmt(&self, f: &mut fmt::Formatter<'_>) -> fmt::Result {
        fmt::Debug::fmt(self, f)
    }
}

/// What a call has seen so far, as far as it tells two lines apart.
#[derive(Clone, Copy)]
pub struct Seen {
    /// The offset of the index h.
    pub offset: usize,
    /// The number of the block loaded with it.
    pub block: usize,
    /// The line made last, if any was made yet.
    pub last: Option<Line>,
}

impl Line {
    /// The line that this access is, or none: then the Rust did what the table does not know.
    pub fn of(kind: Kind, access: Access, place: Place, seen: Seen) -> Option<Line> {
        match kind {
            Kind::Push => Line::of_push(access, place),
            Kind::Steal => Line::of_steal(access, place, seen),
            Kind::Length => Line::of_length(access, place, seen),
            Kind::Empty => Line::of_empty(access, place),
        }
    }

    fn of_push(access: Access, place: Place) -> Option<Line> {
        Some(match (access, place) {
            (Access::Load(_), Place::TailIndex) => Line::P1,
            (Access::Load(_), Place::TailBlock) => Line::P2,
            (Access::Take, _) => Line::P3,
            (Access::Compare(_), Place::TailIndex) => Line::P4,
            (Access::Store(_), Place::TailBlock) => Line::P5,
            (Access::Store(_), Place::TailIndex) => Line::P6,
            (Access::Store(_), Place::Next(_)) => Line::P7,
            (Access::Write(_), Place::Task(..)) => Line::P8,
            (Access::Or(_, WRITE), Place::State(..)) => Line::P9,
            (Access::GiveBack(_), Place::Block(_)) => Line::P10,
            _ => return None,
        })
    }

    fn of_steal(access: Access, place: Place, seen: Seen) -> Option<Line> {
        Some(match (access, place) {
            (Access::Load(_), Place::HeadIndex) => Line::S1,
            (Access::Load(_), Place::HeadBlock) => Line::S2,
            (Access::Load(_), Place::TailIndex) => Line::S3,
            (Access::Compare(_), Place::HeadIndex) => Line::S4,
            (Access::Load(_), Place::Next(block)) if block == seen.block => Line::S5,
            (Access::Load(_), Place::Next(_)) => Line::S6,
            (Access::Store(_), Place::HeadBlock) => Line::S7,
            (Access::Store(_), Place::HeadIndex) => Line::S8,
            // Both load a state: the claim starts at the offset, the walk goes below it.
            (Access::Load(_), Place::State(_, slot)) if slot >= seen.offset => Line::S9,
            (Access::Load(_), Place::State(..)) => Line::S12,
            (Access::Read(_), Place::Task(..)) => Line::S10,
            (Access::Or(_, READ), Place::State(..)) => Line::S11,
            (Access::Or(_, DESTROY), Place::State(..)) => Line::S13,
            (Access::GiveBack(_), Place::Block(_)) => Line::S14,
            _ => return None,
        })
    }

    fn of_length(access: Access, place: Place, seen: Seen) -> Option<Line> {
        Some(match (access, place, seen.last) {
            (Access::Load(_), Place::TailIndex, Some(Line::L2)) => Line::L3,
            (Access::Load(_), Place::TailIndex, _) => Line::L1,
            (Access::Load(_), Place::HeadIndex, _) => Line::L2,
            _ => return None,
        })
    }

    fn of_empty(access: Access, place: Place) -> Option<Line> {
        Some(match (access, place) {
            (Access::Load(_), Place::HeadIndex) => Line::E1,
            (Access::Load(_), Place::TailIndex) => Line::E2,
            _ => return None,
        })
    }
}
